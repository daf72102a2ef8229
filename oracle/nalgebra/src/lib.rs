//! Containers under nalgebra's names, for the source files to compile over: column-major, indexing with its bounds tested once, sizes,
//! views and copies. Of arithmetic there are two methods, both on matrices: the sum of `add_assign` and the product of `gemm`, as
//! document 01 has it. The other two that the source names stop the program.
use std::{
    cell::Cell,
    marker::PhantomData,
    ops::{AddAssign, Index, IndexMut, Range},
};

#[derive(Clone, Debug)]
pub struct DMatrix<T> {
    numbers: Vec<T>,
    nrows: usize,
    ncols: usize,
    // from a column to the next
    stride: usize,
}

#[derive(Clone, Copy, Debug)]
pub struct DMatrixView<'a, T> {
    numbers: &'a [T],
    nrows: usize,
    ncols: usize,
    stride: usize,
}

#[derive(Debug)]
pub struct DMatrixViewMut<'a, T> {
    numbers: &'a mut [T],
    nrows: usize,
    ncols: usize,
    stride: usize,
}

#[derive(Clone, Debug)]
pub struct DVector<T> {
    numbers: Vec<T>,
}

#[derive(Clone, Copy, Debug)]
pub struct DVectorView<'a, T> {
    numbers: &'a [T],
}

#[derive(Debug)]
pub struct DVectorViewMut<'a, T> {
    numbers: &'a mut [T],
}

// A row of a matrix.
#[derive(Clone, Copy, Debug)]
pub struct RowView<'a, T> {
    numbers: &'a [T],
    stride: usize,
}

impl<T> Index<usize> for RowView<'_, T> {
    type Output = T;
    #[inline]
    fn index(&self, j: usize) -> &T {
        &self.numbers[j * self.stride]
    }
}

// The long names of two views, which the source spells out once each.
pub struct Dyn;
pub struct Const<const N: usize>;
pub struct ViewStorage<'a, T, R, C, RS, CS>(PhantomData<(&'a T, R, C, RS, CS)>);
pub struct ViewStorageMut<'a, T, R, C, RS, CS>(PhantomData<(&'a T, R, C, RS, CS)>);
pub trait Named<T> {
    type Is;
}
impl<'a, T> Named<T> for (Dyn, Dyn, ViewStorage<'a, T, Dyn, Dyn, Const<1>, Dyn>) {
    type Is = DMatrixView<'a, T>;
}
impl<'a, T: 'a> Named<T> for (Dyn, Const<1>, ViewStorageMut<'a, T, Dyn, Const<1>, Const<1>, Dyn>) {
    type Is = DVectorViewMut<'a, T>;
}
pub type Matrix<T, R, C, S> = <(R, C, S) as Named<T>>::Is;

thread_local! {
    static PRODUCTS: Cell<u64> = const { Cell::new(0) };
}

// How often `gemm` was called since this was asked last.
pub fn products() -> u64 {
    PRODUCTS.replace(0)
}

fn no_arithmetic() -> ! {
    panic!("this stand-in for nalgebra does no such arithmetic")
}

// What can be copied from.
pub trait Stored<T> {
    fn stored(&self) -> DMatrixView<'_, T>;
}

// What the three matrix types share.
macro_rules! matrix {
    ([$($g:tt)*] $t:ty) => {
        impl<$($g)*> $t {
            #[inline]
            pub fn nrows(&self) -> usize {
                self.nrows
            }
            #[inline]
            pub fn ncols(&self) -> usize {
                self.ncols
            }
            #[inline]
            pub fn shape(&self) -> (usize, usize) {
                (self.nrows, self.ncols)
            }
            // It lies in `numbers`: each constructor has seen to it that the last column ends there.
            #[inline]
            fn place(&self, (i, j): (usize, usize)) -> usize {
                assert!(i < self.nrows && j < self.ncols, "matrix index out of bounds");
                i + j * self.stride
            }
            #[inline]
            pub fn column(&self, j: usize) -> DVectorView<'_, T> {
                assert!(j < self.ncols, "matrix column out of bounds");
                DVectorView { numbers: &self.numbers[j * self.stride..][..self.nrows] }
            }
            #[inline]
            pub fn row(&self, i: usize) -> RowView<'_, T> {
                assert!(i < self.nrows, "matrix row out of bounds");
                RowView { numbers: &self.numbers[i..], stride: self.stride }
            }
            #[inline]
            pub fn as_view(&self) -> DMatrixView<'_, T> {
                DMatrixView { numbers: &self.numbers, nrows: self.nrows, ncols: self.ncols, stride: self.stride }
            }
        }
        impl<$($g)*> Index<(usize, usize)> for $t {
            type Output = T;
            #[inline]
            fn index(&self, at: (usize, usize)) -> &T {
                let place = self.place(at);
                // SAFETY: `place` has tested it
                unsafe { self.numbers.get_unchecked(place) }
            }
        }
        impl<$($g)*> Stored<T> for $t {
            fn stored(&self) -> DMatrixView<'_, T> {
                self.as_view()
            }
        }
    };
}
matrix!([T] DMatrix<T>);
matrix!(['a, T] DMatrixView<'a, T>);
matrix!(['a, T] DMatrixViewMut<'a, T>);

macro_rules! matrix_mut {
    ([$($g:tt)*] $t:ty) => {
        impl<$($g)*> $t {
            #[inline]
            pub fn as_view_mut(&mut self) -> DMatrixViewMut<'_, T> {
                DMatrixViewMut { numbers: &mut self.numbers, nrows: self.nrows, ncols: self.ncols, stride: self.stride }
            }
        }
        impl<$($g)*> IndexMut<(usize, usize)> for $t {
            #[inline]
            fn index_mut(&mut self, at: (usize, usize)) -> &mut T {
                let place = self.place(at);
                // SAFETY: `place` has tested it
                unsafe { self.numbers.get_unchecked_mut(place) }
            }
        }
    };
}
matrix_mut!([T] DMatrix<T>);
matrix_mut!(['a, T] DMatrixViewMut<'a, T>);

impl DMatrix<f64> {
    pub fn zeros(nrows: usize, ncols: usize) -> Self {
        Self { numbers: vec![0.0; nrows * ncols], nrows, ncols, stride: nrows }
    }
    pub fn from_column_slice(nrows: usize, ncols: usize, numbers: &[f64]) -> Self {
        assert_eq!(numbers.len(), nrows * ncols);
        Self { numbers: numbers.to_vec(), nrows, ncols, stride: nrows }
    }
    // The upper left part.
    pub fn view_range_mut(&mut self, rows: Range<usize>, columns: Range<usize>) -> DMatrixViewMut<'_, f64> {
        assert!(rows.start == 0 && rows.end <= self.nrows && columns.start == 0 && columns.end <= self.ncols);
        DMatrixViewMut { numbers: &mut self.numbers, nrows: rows.end, ncols: columns.end, stride: self.stride }
    }
}

impl<'a, T> DMatrixView<'a, T> {
    pub fn from_slice(numbers: &'a [T], nrows: usize, ncols: usize) -> Self {
        assert_eq!(numbers.len(), nrows * ncols);
        Self { numbers, nrows, ncols, stride: nrows }
    }
}

impl<'a, T> DMatrixViewMut<'a, T> {
    pub fn from_slice(numbers: &'a mut [T], nrows: usize, ncols: usize) -> Self {
        assert_eq!(numbers.len(), nrows * ncols);
        Self { numbers, nrows, ncols, stride: nrows }
    }
}

impl<T: Clone> DMatrixView<'_, T> {
    pub fn clone_owned(&self) -> DMatrix<T> {
        let numbers = (0..self.ncols).flat_map(|j| self.column(j).numbers.iter().cloned()).collect();
        DMatrix { numbers, nrows: self.nrows, ncols: self.ncols, stride: self.nrows }
    }
}

impl<T: Clone> DMatrixViewMut<'_, T> {
    pub fn clone_owned(&self) -> DMatrix<T> {
        self.as_view().clone_owned()
    }
    pub fn copy_from(&mut self, from: &impl Stored<T>) {
        let from = from.stored();
        assert_eq!((self.nrows, self.ncols), (from.nrows, from.ncols));
        for j in 0..self.ncols {
            self.numbers[j * self.stride..][..self.nrows].clone_from_slice(from.column(j).numbers);
        }
    }
    pub fn fill(&mut self, value: T) {
        for j in 0..self.ncols {
            self.numbers[j * self.stride..][..self.nrows].fill(value.clone());
        }
    }
}

// Each number is added to the one in its place.
impl AddAssign<&DMatrixView<'_, f64>> for DMatrixViewMut<'_, f64> {
    fn add_assign(&mut self, other: &DMatrixView<'_, f64>) {
        assert_eq!((self.nrows, self.ncols), (other.nrows, other.ncols));
        for j in 0..self.ncols {
            for i in 0..self.nrows {
                self[(i, j)] += other[(i, j)];
            }
        }
    }
}

impl DMatrixViewMut<'_, f64> {
    // The product a b in place of what is there: an entry starts from its t = 0 product and adds the others in ascending t.
    pub fn gemm(&mut self, alpha: f64, a: &DMatrixView<'_, f64>, b: &DMatrixView<'_, f64>, beta: f64) {
        assert!(alpha == 1.0 && beta == 0.0 && b.nrows > 0);
        assert_eq!((self.nrows, self.ncols, a.ncols), (a.nrows, b.ncols, b.nrows));
        PRODUCTS.set(PRODUCTS.get() + 1);
        for j in 0..self.ncols {
            for i in 0..self.nrows {
                let mut sum = a[(i, 0)] * b[(0, j)];
                for t in 1..b.nrows {
                    sum += a[(i, t)] * b[(t, j)];
                }
                self[(i, j)] = sum;
            }
        }
    }
}

// What the three vector types share.
macro_rules! vector {
    ([$($g:tt)*] $t:ty) => {
        impl<$($g)*> $t {
            #[inline]
            pub fn len(&self) -> usize {
                self.numbers.len()
            }
            #[inline]
            pub fn shape(&self) -> (usize, usize) {
                (self.numbers.len(), 1)
            }
            #[inline]
            pub fn as_slice(&self) -> &[T] {
                &self.numbers
            }
            #[inline]
            pub fn as_view(&self) -> DVectorView<'_, T> {
                DVectorView { numbers: &self.numbers }
            }
            #[inline]
            pub fn rows(&self, first: usize, count: usize) -> DVectorView<'_, T> {
                DVectorView { numbers: &self.numbers[first..first + count] }
            }
        }
        impl<$($g)*> Index<usize> for $t {
            type Output = T;
            #[inline]
            fn index(&self, i: usize) -> &T {
                &self.numbers[i]
            }
        }
    };
}
vector!([T] DVector<T>);
vector!(['a, T] DVectorView<'a, T>);
vector!(['a, T] DVectorViewMut<'a, T>);

macro_rules! vector_mut {
    ([$($g:tt)*] $t:ty) => {
        impl<$($g)*> $t {
            #[inline]
            pub fn as_mut_slice(&mut self) -> &mut [T] {
                &mut self.numbers
            }
            #[inline]
            pub fn as_view_mut(&mut self) -> DVectorViewMut<'_, T> {
                DVectorViewMut { numbers: &mut self.numbers }
            }
            #[inline]
            pub fn rows_mut(&mut self, first: usize, count: usize) -> DVectorViewMut<'_, T> {
                DVectorViewMut { numbers: &mut self.numbers[first..first + count] }
            }
        }
        impl<$($g)*> IndexMut<usize> for $t {
            #[inline]
            fn index_mut(&mut self, i: usize) -> &mut T {
                &mut self.numbers[i]
            }
        }
    };
}
vector_mut!([T] DVector<T>);
vector_mut!(['a, T] DVectorViewMut<'a, T>);

impl DVector<f64> {
    pub fn zeros(count: usize) -> Self {
        Self { numbers: vec![0.0; count] }
    }
}

impl<T: Clone> DVector<T> {
    pub fn fill(&mut self, value: T) {
        self.numbers.fill(value);
    }
    pub fn from_column_slice(numbers: &[T]) -> Self {
        Self { numbers: numbers.to_vec() }
    }
    pub fn copy_from(&mut self, from: &Self) {
        self.numbers.clone_from_slice(&from.numbers);
    }
}

impl<'a, T> DVectorView<'a, T> {
    pub fn from_slice(numbers: &'a [T], count: usize) -> Self {
        assert_eq!(numbers.len(), count);
        Self { numbers }
    }
}

impl<'a, T> DVectorViewMut<'a, T> {
    pub fn from_slice(numbers: &'a mut [T], count: usize) -> Self {
        assert_eq!(numbers.len(), count);
        Self { numbers }
    }
    pub fn axpy(&mut self, _: T, _: &DVectorView<'_, T>, _: T) {
        no_arithmetic()
    }
}

impl<T> AddAssign<&DVectorView<'_, T>> for DVectorViewMut<'_, T> {
    fn add_assign(&mut self, _: &DVectorView<'_, T>) {
        no_arithmetic()
    }
}
