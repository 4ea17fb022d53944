//! Stands for the crate of world coordinates, of which the published error type names one thing.

pub mod error {
    /// An error that nothing here makes.
    #[derive(Debug)]
    pub struct Error;
}
