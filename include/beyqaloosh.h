/* Beyqaloosh from C: the calls of libbeyqaloosh.a, which tools/build makes.

   A slice is a pointer, never null, and a length. The ranges of one call must not overlap. Matrices and bodies of blocks are stored column
   by column. Every call answers document 01's number, 0 where it is accepted, whatever the slices hold and however long they are. told,
   value and needs are no buffers: each call writes them in full. */
#ifndef BEYQALOOSH_H
#define BEYQALOOSH_H

#include <stddef.h>
#include <stdint.h>

#ifdef __cplusplus
extern "C" {
#endif

/* mat_a_lower, of n rows and columns, becomes L, and mat_d the diagonal of D. */
uint32_t beyqaloosh_ldlt_decompose_inplace(size_t n, double *mat_a_lower, size_t mat_a_lower_len, double *mat_d, size_t mat_d_len,
                                           double rel_tol);

/* mat_l and d become the factor of the block mat_a. */
uint32_t beyqaloosh_decompose(size_t n, const double *mat_a, size_t mat_a_len, double *mat_l, size_t mat_l_len, double *d,
                              size_t d_len, double tol_rel);

/* x := A⁻¹ x. */
uint32_t beyqaloosh_ldlt_solve_inplace(size_t n, const double *mat_l, size_t mat_l_len, const double *mat_d, size_t mat_d_len,
                                       double *x, size_t x_len);

/* X := A⁻¹ X, with nrhs columns. */
uint32_t beyqaloosh_ldlt_matsolve_inplace(size_t n, size_t nrhs, const double *mat_l, size_t mat_l_len, const double *mat_d,
                                          size_t mat_d_len, double *mat_x, size_t mat_x_len);

/* X := X A⁻¹, with m rows. */
uint32_t beyqaloosh_ldlt_right_matsolve_inplace(size_t m, size_t n, const double *ld, size_t ld_len, const double *d, size_t d_len,
                                                double *x, size_t x_len);

/* y := A⁻¹ y, for one block of a diagonal. */
uint32_t beyqaloosh_solve_inplace_vec(size_t n, const double *mat_l, size_t mat_l_len, const double *d, size_t d_len, double *y,
                                      size_t y_len);

/* X := X A⁻¹, for one block of a diagonal. */
uint32_t beyqaloosh_right_solve_inplace(size_t m, size_t n, const double *mat_l, size_t mat_l_len, const double *d, size_t d_len,
                                        double *x, size_t x_len);

/* Y := Y - A diag(d) Bᵀ. */
uint32_t beyqaloosh_sub_mat_diag_mat_t_inplace(size_t m, size_t n, size_t k, double *y, size_t y_len, const double *mat_a,
                                               size_t mat_a_len, const double *d, size_t d_len, const double *mat_b,
                                               size_t mat_b_len);

/* The elimination tree of n blocks from an upper pattern: the parent of each, or 4,294,967,295 for none. ancestors is scratch. Accepted,
   told has zeros; refused, the place, or the buffer and its need, and zeros after. */
uint32_t beyqaloosh_elimination_tree(size_t n, const uint32_t *starts, size_t starts_len, const uint32_t *rows, size_t rows_len,
                                     uint32_t *parents, size_t parents_len, uint32_t *ancestors, size_t ancestors_len,
                                     uint64_t told[3]);

/* The walk of block j over that tree of parents_len blocks: what it finds ends the first parents_len places of found, last found first.
   mark and stamps are what the last walk left; 0 and zeros begin. Accepted, told has the mark that it used and where its list begins;
   refused, the place, and 1 where it is in the parents, or the buffer and its need, and zeros after. */
uint32_t beyqaloosh_reach(const uint32_t *starts, size_t starts_len, const uint32_t *rows, size_t rows_len, const uint32_t *parents,
                          size_t parents_len, size_t j, uint32_t mark, uint32_t *stamps, size_t stamps_len, uint32_t *found,
                          size_t found_len, uint64_t told[3]);

/* The plan of a night. Accepted, told has L's blocks, L's numbers and the products; refused, the place, or the buffer and its
   need, and zeros after. crates/plan/src/lib.rt says what each buffer needs. */
uint32_t beyqaloosh_plan(const uint32_t *dims, size_t dims_len, const uint32_t *starts, size_t starts_len, const uint32_t *rows,
                         size_t rows_len, const uint32_t *perm, size_t perm_len, const uint32_t *late, size_t late_len,
                         uint32_t *order, size_t order_len, uint32_t *parents, size_t parents_len, uint32_t *l_starts,
                         size_t l_starts_len, uint32_t *l_rows, size_t l_rows_len, uint32_t *inverse, size_t inverse_len,
                         uint32_t *sizes, size_t sizes_len, uint32_t *count, size_t count_len, uint32_t *heads, size_t heads_len,
                         uint32_t *into, size_t into_len, uint32_t *stamps, size_t stamps_len, uint32_t *table, size_t table_len,
                         uint32_t *upper, size_t upper_len, uint64_t told[3]);

/* The factorization of a night. Accepted, told has L's blocks, L's numbers and the products; refused, the place, or the buffer
   and its need, or the block and the place in it, and zeros after. value has the pivot of 13 or the condition of 14, else 0.0.
   crates/factorize/src/lib.rt says what each buffer needs. */
uint32_t beyqaloosh_factorize(const uint32_t *dims, size_t dims_len, const uint32_t *starts, size_t starts_len,
                              const uint32_t *rows, size_t rows_len, const double *values, size_t values_len, const uint32_t *perm,
                              size_t perm_len, const uint32_t *late, size_t late_len, double tol, uint32_t *order,
                              size_t order_len, uint32_t *parents, size_t parents_len, uint32_t *l_starts, size_t l_starts_len,
                              uint32_t *l_rows, size_t l_rows_len, uint32_t *l_offsets, size_t l_offsets_len, double *l_values,
                              size_t l_values_len, double *diag, size_t diag_len, double *d, size_t d_len, double *column,
                              size_t column_len, uint32_t *inverse, size_t inverse_len, uint32_t *sizes, size_t sizes_len,
                              uint32_t *count, size_t count_len, uint32_t *heads, size_t heads_len, uint32_t *into,
                              size_t into_len, uint32_t *stamps, size_t stamps_len, uint32_t *table, size_t table_len,
                              uint32_t *upper, size_t upper_len, uint32_t *bodies, size_t bodies_len, uint32_t *unit_starts,
                              size_t unit_starts_len, uint32_t *d_starts, size_t d_starts_len, uint32_t *places, size_t places_len,
                              uint64_t told[3], double value[1]);

/* The same factorization with one more buffer lent, cache: each block of L, times the unit factor of its column, is kept there as far as
   there is room, and the products take it from there. Its need is L's numbers, but no more than 16 times one more than the entries and
   numbers that are handed in (dims, starts, rows, values, perm and late together). It is buffer 21. Where 1 to 10 refuse, or 11 for a need
   that is known without the plan, it is as it was; else it is zeros as far as it is needed. crates/factorize_with_cache/src/lib.rt
   says more. */
uint32_t beyqaloosh_factorize_with_cache(const uint32_t *dims, size_t dims_len, const uint32_t *starts, size_t starts_len,
                                         const uint32_t *rows, size_t rows_len, const double *values, size_t values_len,
                                         const uint32_t *perm, size_t perm_len, const uint32_t *late, size_t late_len, double tol,
                                         uint32_t *order, size_t order_len, uint32_t *parents, size_t parents_len,
                                         uint32_t *l_starts, size_t l_starts_len, uint32_t *l_rows, size_t l_rows_len,
                                         uint32_t *l_offsets, size_t l_offsets_len, double *l_values, size_t l_values_len,
                                         double *diag, size_t diag_len, double *d, size_t d_len, double *column, size_t column_len,
                                         uint32_t *inverse, size_t inverse_len, uint32_t *sizes, size_t sizes_len, uint32_t *count,
                                         size_t count_len, uint32_t *heads, size_t heads_len, uint32_t *into, size_t into_len,
                                         uint32_t *stamps, size_t stamps_len, uint32_t *table, size_t table_len, uint32_t *upper,
                                         size_t upper_len, uint32_t *bodies, size_t bodies_len, uint32_t *unit_starts,
                                         size_t unit_starts_len, uint32_t *d_starts, size_t d_starts_len, uint32_t *places,
                                         size_t places_len, double *cache, size_t cache_len, uint64_t told[3], double value[1]);

/* The solve of a night with its factor: x, the right side in old order, becomes the solution. Accepted, told has zeros; refused,
   the place, and 2 where it is in the factor's starts or rows, 1 where it is in its parents, or the buffer and its need, or of a
   wrong column the table, the column and what is wrong, and zeros after. A factor's lists have no dimensions: that dims are those it was
   made with is the caller's to see to. crates/solve/src/lib.rt says what each buffer needs. */
uint32_t beyqaloosh_solve_inplace(const uint32_t *dims, size_t dims_len, const uint32_t *starts, size_t starts_len,
                                  const uint32_t *rows, size_t rows_len, const uint32_t *perm, size_t perm_len,
                                  const uint32_t *late, size_t late_len, const uint32_t *order, size_t order_len,
                                  const uint32_t *parents, size_t parents_len, const uint32_t *l_starts, size_t l_starts_len,
                                  const uint32_t *l_rows, size_t l_rows_len, const uint32_t *l_offsets, size_t l_offsets_len,
                                  const double *l_values, size_t l_values_len, const double *diag, size_t diag_len,
                                  const double *d, size_t d_len, double *x, size_t x_len, double *y, size_t y_len,
                                  uint32_t *scalar_perm, size_t scalar_perm_len, uint32_t *sizes, size_t sizes_len,
                                  uint32_t *scalar_starts, size_t scalar_starts_len, uint64_t told[3]);

/* A byte for each scalar in old order: 0 silent, 1 heard. Accepted, told has how many are silent; refused, the place, or the
   buffer and its need, and zeros after. d is that of an accepted factorization: after 13 and 14 it is NaN, and each mark heard. */
uint32_t beyqaloosh_marks(const uint32_t *dims, size_t dims_len, const uint32_t *order, size_t order_len, const double *d,
                          size_t d_len, double tol, uint8_t *marks, size_t marks_len, uint64_t told[3]);

/* The needs of a call's lent buffers, in its order, to be asked for before it: buffers with these lengths are never refused by 11, and
   11 carries a place of needs and what stands there. Refused (1, 2 or 4), needs has zeros; told has the block of 2, else zeros.

   stored is how many blocks A stores, rows_len of the call; l_blocks and l_numbers are what an accepted plan has told. A plan that is asked
   for the first time is given l_blocks 0, and answers 11 with the need of l_rows where L has any blocks. */
uint32_t beyqaloosh_elimination_tree_needs(size_t blocks, uint64_t needs[2], uint64_t told[3]);

uint32_t beyqaloosh_reach_needs(size_t blocks, uint64_t needs[2], uint64_t told[3]);

uint32_t beyqaloosh_plan_needs(size_t blocks, size_t stored, uint32_t l_blocks, uint64_t needs[12], uint64_t told[3]);

uint32_t beyqaloosh_factorize_needs(const uint32_t *dims, size_t dims_len, size_t stored, uint32_t l_blocks, uint32_t l_numbers,
                                    uint64_t needs[21], uint64_t told[3]);

/* numbers is how many values A has, values_len of the call. The last need is the cache's. */
uint32_t beyqaloosh_factorize_with_cache_needs(const uint32_t *dims, size_t dims_len, size_t stored, uint32_t numbers, uint32_t l_blocks,
                                               uint32_t l_numbers, uint64_t needs[22], uint64_t told[3]);

/* The first is x, which must have exactly that length. */
uint32_t beyqaloosh_solve_inplace_needs(const uint32_t *dims, size_t dims_len, uint64_t needs[5], uint64_t told[3]);

uint32_t beyqaloosh_marks_needs(const uint32_t *dims, size_t dims_len, uint64_t needs[1], uint64_t told[3]);

#ifdef __cplusplus
}
#endif

#endif
