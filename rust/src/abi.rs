//! The exported calls as `include/beyqaloosh.h` declares them, with a slice for each pointer and its length: a call answers its number, and
//! writes to `told` and `value` what that carries. All unsafe code of this package stands in this file.
//!
//! That ranges do not overlap is what the borrow checker sees to: whatever a call writes is borrowed mutably.
#![allow(clippy::too_many_arguments)]
use crate::Mark;

/// Each call is declared, and safe: of its parameters a number or an array is handed on as it is, a slice as a pointer and a length.
macro_rules! exported {
    ($(fn $call:ident($($parameters:tt)*) -> u32;)*) => { $(exported!(@ $call ($($parameters)*) () () $($parameters)*,);)* };
    (@ $call:ident $all:tt ($($declared:tt)*) ($($handed:tt)*) $name:ident: $number:ident, $($rest:tt)*) => {
        exported!(@ $call $all ($($declared)* $name: $number,) ($($handed)* $name,) $($rest)*);
    };
    (@ $call:ident $all:tt ($($declared:tt)*) ($($handed:tt)*) $name:ident: &mut [$of:ident; $count:literal], $($rest:tt)*) => {
        exported!(@ $call $all ($($declared)* $name: &mut [$of; $count],) ($($handed)* $name,) $($rest)*);
    };
    (@ $call:ident $all:tt ($($declared:tt)*) ($($handed:tt)*) $name:ident: &[$of:ident], $($rest:tt)*) => {
        exported!(@ $call $all ($($declared)* $name: *const $of, _: usize,) ($($handed)* $name.as_ptr(), $name.len(),) $($rest)*);
    };
    (@ $call:ident $all:tt ($($declared:tt)*) ($($handed:tt)*) $name:ident: &mut [$of:ident], $($rest:tt)*) => {
        exported!(@ $call $all ($($declared)* $name: *mut $of, _: usize,) ($($handed)* $name.as_mut_ptr(), $name.len(),) $($rest)*);
    };
    (@ $call:ident ($($parameters:tt)*) ($($declared:tt)*) ($($handed:tt)*) $(,)?) => {
        #[inline]
        pub fn $call($($parameters)*) -> u32 {
            extern "C" {
                fn $call($($declared)*) -> u32;
            }
            // SAFETY: each pointer and length is of one live slice, what is written is borrowed mutably and so overlaps nothing, and
            // an array has the places that are written. A Mark is a byte 0 or 1, and the library is proved to write no other.
            unsafe { $call($($handed)*) }
        }
    };
}

exported! {
    fn beyqaloosh_elimination_tree(
        n: usize, starts: &[u32], rows: &[u32], parents: &mut [u32], ancestors: &mut [u32], told: &mut [u64; 3],
    ) -> u32;
    fn beyqaloosh_reach(
        starts: &[u32], rows: &[u32], parents: &[u32], j: usize, mark: u32, stamps: &mut [u32], found: &mut [u32],
        told: &mut [u64; 3],
    ) -> u32;
    fn beyqaloosh_plan(
        dims: &[u32], starts: &[u32], rows: &[u32], perm: &[u32], late: &[u32], order: &mut [u32], parents: &mut [u32],
        l_starts: &mut [u32], l_rows: &mut [u32], inverse: &mut [u32], sizes: &mut [u32], count: &mut [u32], heads: &mut [u32],
        into: &mut [u32], stamps: &mut [u32], table: &mut [u32], upper: &mut [u32], told: &mut [u64; 3],
    ) -> u32;
    fn beyqaloosh_factorize(
        dims: &[u32], starts: &[u32], rows: &[u32], values: &[f64], perm: &[u32], late: &[u32], tol: f64, order: &mut [u32],
        parents: &mut [u32], l_starts: &mut [u32], l_rows: &mut [u32], l_offsets: &mut [u32], l_values: &mut [f64],
        diag: &mut [f64], d: &mut [f64], column: &mut [f64], inverse: &mut [u32], sizes: &mut [u32], count: &mut [u32],
        heads: &mut [u32], into: &mut [u32], stamps: &mut [u32], table: &mut [u32], upper: &mut [u32], bodies: &mut [u32],
        unit_starts: &mut [u32], d_starts: &mut [u32], places: &mut [u32], told: &mut [u64; 3], value: &mut [f64; 1],
    ) -> u32;
    fn beyqaloosh_factorize_with_cache(
        dims: &[u32], starts: &[u32], rows: &[u32], values: &[f64], perm: &[u32], late: &[u32], tol: f64, order: &mut [u32],
        parents: &mut [u32], l_starts: &mut [u32], l_rows: &mut [u32], l_offsets: &mut [u32], l_values: &mut [f64],
        diag: &mut [f64], d: &mut [f64], column: &mut [f64], inverse: &mut [u32], sizes: &mut [u32], count: &mut [u32],
        heads: &mut [u32], into: &mut [u32], stamps: &mut [u32], table: &mut [u32], upper: &mut [u32], bodies: &mut [u32],
        unit_starts: &mut [u32], d_starts: &mut [u32], places: &mut [u32], cache: &mut [f64], told: &mut [u64; 3],
        value: &mut [f64; 1],
    ) -> u32;
    fn beyqaloosh_solve_inplace(
        dims: &[u32], starts: &[u32], rows: &[u32], perm: &[u32], late: &[u32], order: &[u32], parents: &[u32], l_starts: &[u32],
        l_rows: &[u32], l_offsets: &[u32], l_values: &[f64], diag: &[f64], d: &[f64], x: &mut [f64], y: &mut [f64],
        scalar_perm: &mut [u32], sizes: &mut [u32], scalar_starts: &mut [u32], told: &mut [u64; 3],
    ) -> u32;
    fn beyqaloosh_marks(dims: &[u32], order: &[u32], d: &[f64], tol: f64, marks: &mut [Mark], told: &mut [u64; 3]) -> u32;
    fn beyqaloosh_ldlt_decompose_inplace(n: usize, mat_a_lower: &mut [f64], mat_d: &mut [f64], rel_tol: f64) -> u32;
    fn beyqaloosh_decompose(n: usize, mat_a: &[f64], mat_l: &mut [f64], d: &mut [f64], tol_rel: f64) -> u32;
    fn beyqaloosh_ldlt_solve_inplace(n: usize, mat_l: &[f64], mat_d: &[f64], x: &mut [f64]) -> u32;
    fn beyqaloosh_ldlt_matsolve_inplace(n: usize, nrhs: usize, mat_l: &[f64], mat_d: &[f64], mat_x: &mut [f64]) -> u32;
    fn beyqaloosh_ldlt_right_matsolve_inplace(m: usize, n: usize, ld: &[f64], d: &[f64], x: &mut [f64]) -> u32;
    fn beyqaloosh_solve_inplace_vec(n: usize, mat_l: &[f64], d: &[f64], y: &mut [f64]) -> u32;
    fn beyqaloosh_right_solve_inplace(m: usize, n: usize, mat_l: &[f64], d: &[f64], x: &mut [f64]) -> u32;
    fn beyqaloosh_sub_mat_diag_mat_t_inplace(
        m: usize, n: usize, k: usize, y: &mut [f64], mat_a: &[f64], d: &[f64], mat_b: &[f64],
    ) -> u32;
    fn beyqaloosh_elimination_tree_needs(blocks: usize, needs: &mut [u64; 2], told: &mut [u64; 3]) -> u32;
    fn beyqaloosh_reach_needs(blocks: usize, needs: &mut [u64; 2], told: &mut [u64; 3]) -> u32;
    fn beyqaloosh_plan_needs(blocks: usize, stored: usize, l_blocks: u32, needs: &mut [u64; 12], told: &mut [u64; 3]) -> u32;
    fn beyqaloosh_factorize_needs(
        dims: &[u32], stored: usize, l_blocks: u32, l_numbers: u32, needs: &mut [u64; 21], told: &mut [u64; 3],
    ) -> u32;
    fn beyqaloosh_factorize_with_cache_needs(
        dims: &[u32], stored: usize, numbers: u32, l_blocks: u32, l_numbers: u32, needs: &mut [u64; 22], told: &mut [u64; 3],
    ) -> u32;
    fn beyqaloosh_solve_inplace_needs(dims: &[u32], needs: &mut [u64; 5], told: &mut [u64; 3]) -> u32;
    fn beyqaloosh_marks_needs(dims: &[u32], needs: &mut [u64; 1], told: &mut [u64; 3]) -> u32;
}
