//! Stands in for the crate `conquer_once`: a cell that is set once.

pub mod spin {
    use std::sync::OnceLock;

    pub struct OnceCell<T>(OnceLock<T>);

    impl<T> OnceCell<T> {
        #[must_use]
        pub const fn uninit() -> Self {
            Self(OnceLock::new())
        }

        /// The value, or nothing where none is set yet.
        pub fn get(&self) -> Option<&T> {
            self.0.get()
        }

        /// Sets the value where none is set yet.
        pub fn init_once(&self, value: impl FnOnce() -> T) {
            self.0.get_or_init(value);
        }
    }
}
