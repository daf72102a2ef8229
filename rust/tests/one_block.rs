//! The calls on one block: 4 2; 2 5 with its factor and solves, and each refusal.
use beyqaloosh::calls::{self, Refused};

const A: [f64; 4] = [4.0, 2.0, 2.0, 5.0];
const L: [f64; 4] = [1.0, 0.5, 0.0, 1.0];
const D: [f64; 2] = [4.0, 4.0];

#[test]
fn decompositions() {
    let (mut a, mut d) = (A, [0.0; 2]);
    assert_eq!(calls::ldlt_decompose_inplace(2, &mut a, &mut d, 1e-12), Ok(()));
    assert_eq!((a, d), (L, D));
    let (mut l, mut d) = ([0.0; 4], [0.0; 2]);
    assert_eq!(calls::decompose(2, &A, &mut l, &mut d, 1e-12), Ok(()));
    assert_eq!((l, d), (L, D));
}

#[test]
fn solves() {
    // A (1.5, 1) is (8, 8), and A is symmetric
    let (mut x, mut y) = ([8.0, 8.0], [8.0, 8.0]);
    assert_eq!(calls::ldlt_solve_inplace(2, &L, &D, &mut x), Ok(()));
    assert_eq!(calls::solve_inplace_vec(2, &L, &D, &mut y), Ok(()));
    assert_eq!((x, y), ([1.5, 1.0], [1.5, 1.0]));
    let mut columns = [8.0, 8.0, 16.0, 16.0];
    assert_eq!(calls::ldlt_matsolve_inplace(2, 2, &L, &D, &mut columns), Ok(()));
    assert_eq!(columns, [1.5, 1.0, 3.0, 2.0]);
    for solve in [calls::ldlt_right_matsolve_inplace, calls::right_solve_inplace] {
        let mut rows = [8.0, 16.0, 8.0, 16.0];
        assert_eq!(solve(2, 2, &L, &D, &mut rows), Ok(()));
        assert_eq!(rows, [1.5, 3.0, 1.0, 2.0]);
    }
}

#[test]
fn product() {
    // y − (2, 3) · 10 · (5)
    let mut y = [0.0, 1.0];
    assert_eq!(calls::sub_mat_diag_mat_t_inplace(2, 1, 1, &mut y, &[2.0, 3.0], &[10.0], &[5.0]), Ok(()));
    assert_eq!(y, [-100.0, -149.0]);
}

#[test]
fn refusals() {
    let (mut l, mut d) = ([7.0; 4], [7.0; 2]);
    assert_eq!(calls::decompose(17, &A, &mut l, &mut d, 0.0), Err(Refused(2)));
    assert_eq!(calls::decompose(2, &A, &mut l, &mut d, f64::NAN), Err(Refused(10)));
    assert_eq!(calls::decompose(2, &A[1..], &mut l, &mut d, 0.0), Err(Refused(12)));
    assert_eq!((l, d), ([7.0; 4], [7.0; 2]));
    assert_eq!(calls::decompose(2, &[f64::NAN; 4], &mut l, &mut d, 0.0), Err(Refused(13)));
    assert!(l.iter().chain(&d).all(|number| number.to_bits() == 0x7FF8000000000000));
    assert_eq!(calls::decompose(1, &[-1e-11], &mut [0.0], &mut [0.0], 1e-12), Err(Refused(14)));
    assert_eq!(calls::ldlt_solve_inplace(2, &L, &D, &mut [0.0; 3]), Err(Refused(12)));
    assert_eq!(Refused(14).to_string(), "refused 14, caused by the data");
}
