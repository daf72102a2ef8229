// Head by the oracle; from the doc comment of `ldlt_decompose_inplace` on, the text is the source's.
use nalgebra::{DMatrixView, DMatrixViewMut, DVectorView, DVectorViewMut};

use crate::{
    Definiteness, LdltDecompositionError, LdltResult,
    kernel::{
        diag_matsolve_inplaced, diag_right_matsolve_inplace, diag_solve_inplaced, lower_matsolve_inplace,
        lower_right_solve_inplace, lower_solve_inplace, lower_transpose_matsolve_inplace,
        lower_transpose_rightsolve_inplace, lower_transpose_solve_inplace,
    },
};

