//! A factor and its solutions in memory that is there: nothing is allocated, and a refusal leaves the factor as 01 says.
mod common;
use beyqaloosh::{calls, Error, Factor, Mark, System, Workspace};
use common::{links, sheet, system};
use std::alloc::{GlobalAlloc, Layout, System as Heap};
use std::cell::Cell;

thread_local!(static ALLOCATED: Cell<usize> = const { Cell::new(0) });

struct Counted;

// SAFETY: every call goes to the system's allocator as it came.
unsafe impl GlobalAlloc for Counted {
    unsafe fn alloc(&self, layout: Layout) -> *mut u8 {
        ALLOCATED.with(|count| count.set(count.get() + 1));
        Heap.alloc(layout)
    }

    unsafe fn dealloc(&self, at: *mut u8, layout: Layout) {
        Heap.dealloc(at, layout)
    }

    unsafe fn realloc(&self, at: *mut u8, layout: Layout, size: usize) -> *mut u8 {
        ALLOCATED.with(|count| count.set(count.get() + 1));
        Heap.realloc(at, layout, size)
    }
}

#[global_allocator]
static HEAP: Counted = Counted;

fn allocated() -> usize {
    ALLOCATED.with(Cell::get)
}

#[test]
fn a_refit_allocates_nothing() {
    let (mut night, right) = sheet("storm.sheet");
    let small = system(links(2, &[(1, 0)]));
    let mut workspace = Workspace::new();
    let mut factor = night.factorize_in(&mut workspace).unwrap();
    let first = factor.clone();
    let mut x = right.clone();
    let mut marks = vec![Mark::Heard; right.len()];
    factor.solve_inplace(&night, &mut x, &mut workspace).unwrap();

    let before = allocated();
    assert!(before > 0, "the count does not work");
    night.body_mut(3, 3).unwrap()[0] *= 2.0;
    factor.refit(&night, &mut workspace).unwrap();
    x.copy_from_slice(&right);
    factor.solve_inplace(&night, &mut x, &mut workspace).unwrap();
    assert_eq!(factor.marks_into(&mut marks), Ok(1));
    // a smaller night, and back
    factor.refit(&small, &mut workspace).unwrap();
    let mut both = [11.0, 11.0];
    factor.solve_inplace(&small, &mut both, &mut workspace).unwrap();
    night.body_mut(3, 3).unwrap()[0] /= 2.0;
    factor.refit(&night, &mut workspace).unwrap();
    assert_eq!(allocated(), before);

    assert_eq!(both, [1.0, 1.0]);
    assert_eq!(factor, first);
    assert_eq!(marks.iter().position(|&mark| mark == Mark::Silent), Some(9));
}

#[test]
fn with_a_cache_and_without() {
    let (night, _) = sheet("storm.sheet");
    let (mut cached, mut plain) = (Workspace::new(), Workspace::without_cache());
    let mut factor = night.factorize_in(&mut cached).unwrap();
    assert_eq!(factor, night.factorize_in(&mut plain).unwrap());
    // lists that are long enough, with no cache and with one that is too short yet
    factor.refit(&night, &mut plain).unwrap();
    factor.refit(&night, &mut Workspace::new()).unwrap();
    assert_eq!(factor, night.factorize().unwrap());

    let mut spoilt = night.clone();
    spoilt.body_mut(3, 3).unwrap()[0] = f64::INFINITY;
    let why = factor.refit(&spoilt, &mut cached).unwrap_err();
    assert_eq!((why.number(), spoilt.factorize_in(&mut plain)), (13, Err(why)));
}

/// A hub of one scalar, eliminated first, that reaches 4 blocks of 16: L has more numbers than its cache needs.
#[test]
fn a_cache_of_less_than_the_numbers_of_l() {
    let mut hub = System::builder(1e-12);
    let first = hub.block(1);
    hub.store(first, first, &[-1.0]);
    for _ in 0..4 {
        let next = hub.block(16);
        hub.store(next, first, &[0.5; 16]);
    }
    let hub = hub.build();
    let factor = hub.factorize().unwrap();
    assert_eq!(factor.plan().counts().numbers, 1600);
    let dims = &hub.tables().dims;
    assert_eq!(calls::factorize_with_cache_needs(dims, 5, 65, 10, 1600).unwrap()[21], 1472);
    assert_eq!(factor, hub.factorize_in(&mut Workspace::without_cache()).unwrap());
}

#[test]
fn a_refit_that_is_refused() {
    let (night, right) = sheet("storm.sheet");
    let mut workspace = Workspace::new();
    let mut factor = night.factorize_in(&mut workspace).unwrap();
    let before = factor.clone();

    // by 1 to 12: the factor is as it was, and solves
    let mut tables = links(20, &[]);
    tables.late[19] = 2;
    assert_eq!(factor.refit(&system(tables), &mut workspace), Err(Error::Late { place: 19 }));
    let mut tables = links(2, &[(1, 0)]);
    tables.tolerance = f64::NAN;
    assert_eq!(factor.refit(&system(tables), &mut workspace), Err(Error::Tolerance));
    assert_eq!(factor, before);
    assert!(factor.solve(&night, &right).is_ok());

    // by 13 or 14: the tables of that night, and every number NaN
    let mut tables = links(3, &[(1, 0), (2, 1)]);
    tables.values[0] = f64::INFINITY;
    let spoilt = system(tables);
    assert!(matches!(factor.refit(&spoilt, &mut workspace), Err(Error::NotFinite { block: 0, old: 0, place: 0, .. })));
    assert_eq!(factor.plan().rows(), spoilt.plan().unwrap().rows());
    assert_eq!((factor.values().len(), factor.diag().len(), factor.d().len(), factor.products()), (2, 3, 3, 0));
    let numbers = [factor.values(), factor.diag(), factor.d()].concat();
    assert!(numbers.iter().all(|number| number.to_bits() == 0x7FF8000000000000));
}

#[test]
fn a_spoilt_factor_neither_solves_nor_marks() {
    let mut night = system(links(3, &[(1, 0), (2, 1)]));
    let mut workspace = Workspace::new();
    let mut factor = night.factorize_in(&mut workspace).unwrap();
    for (value, number) in [(f64::INFINITY, 13), (-1e-11, 14)] {
        night.body_mut(0, 0).unwrap()[0] = value;
        let why = factor.refit(&night, &mut workspace).unwrap_err();
        assert_eq!(why.number(), number);
        // a refit that is refused by a lower number leaves it as it is
        night.set_tolerance(f64::NAN);
        assert_eq!(factor.refit(&night, &mut workspace), Err(Error::Tolerance));
        night.set_tolerance(1e-12);
        let (mut x, mut marks) = ([1.0; 3], [Mark::Silent; 3]);
        assert_eq!(factor.solve(&night, &x), Err(why));
        assert_eq!(factor.solve_inplace(&night, &mut x, &mut workspace), Err(why));
        assert_eq!(factor.marks_into(&mut marks), Err(why));
        assert_eq!((x, marks), ([1.0; 3], [Mark::Silent; 3]), "refused, and touched");
    }
    night.body_mut(0, 0).unwrap()[0] = 10.0;
    factor.refit(&night, &mut workspace).unwrap();
    assert_eq!(factor, night.factorize().unwrap());
    assert_eq!(factor.solve(&night, &[11.0, 12.0, 11.0]).unwrap().silent(), 0);
}

#[test]
fn an_empty_factor_solves_nothing() {
    let night = system(links(1, &[]));
    assert_eq!(Factor::default().solve(&night, &[1.0]), Err(Error::Mismatch { place: 0, name: "dims", column: None }));
    assert_eq!(Factor::default().solve(&system(links(0, &[])), &[]).unwrap_err().number(), 3);
}
