//! Eigen's SimplicialLDLT and CHOLMOD, by `bench/others.cpp`.
use std::ffi::c_void;

/// What they are called, by number.
pub const OTHERS: [&str; 3] = ["Eigen", "CHOLMOD simplicial", "CHOLMOD supernodal"];

#[link(name = "others", kind = "static")]
#[link(name = "cholmod")]
#[link(name = "stdc++")]
unsafe extern "C" {
    fn other_new(which: i32, n: i32, starts: *const i32, rows: *const i32, values: *const f64) -> *mut c_void;
    fn other_analyse(solver: *mut c_void) -> i32;
    fn other_factorize(solver: *mut c_void) -> i32;
    fn other_solve(solver: *mut c_void, b: *const f64, x: *mut f64) -> i32;
    fn other_forget(solver: *mut c_void);
    fn other_free(solver: *mut c_void);
}

pub struct Other {
    pub which: usize,
    scalars: usize,
    solver: *mut c_void,
}

impl Other {
    /// Of the upper triangle by columns.
    pub fn new(which: usize, starts: &[i32], rows: &[i32], values: &[f64]) -> Self {
        let scalars = starts.len() - 1;
        assert!(which < OTHERS.len() && rows.len() == values.len() && starts[scalars] as usize == rows.len());
        let solver = unsafe { other_new(which as i32, scalars as i32, starts.as_ptr(), rows.as_ptr(), values.as_ptr()) };
        Self { which, scalars, solver }
    }

    pub fn analyse(&mut self) {
        assert_eq!(unsafe { other_analyse(self.solver) }, 0);
    }

    pub fn factorize(&mut self) {
        assert_eq!(unsafe { other_factorize(self.solver) }, 0, "{} does not factor", OTHERS[self.which]);
    }

    pub fn solve(&mut self, b: &[f64], x: &mut [f64]) {
        assert!(b.len() == self.scalars && x.len() == self.scalars);
        assert_eq!(unsafe { other_solve(self.solver, b.as_ptr(), x.as_mut_ptr()) }, 0);
    }

    pub fn forget(&mut self) {
        unsafe { other_forget(self.solver) }
    }
}

impl Drop for Other {
    fn drop(&mut self) {
        unsafe { other_free(self.solver) }
    }
}
