//! Stand-in for `p3_matrix`: a matrix that is made and cloned, and nothing more.

pub mod dense {
    #[derive(Clone, Debug)]
    pub struct RowMajorMatrix<T> {
        pub values: Vec<T>,
        pub width: usize,
    }

    impl<T> RowMajorMatrix<T> {
        pub fn new(values: Vec<T>, width: usize) -> Self {
            Self { values, width }
        }
    }
}
