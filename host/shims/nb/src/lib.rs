//! `nb`: the names that the driver uses.
pub type Result<T, E> = std::result::Result<T, Error<E>>;

#[derive(Debug, Clone, Copy, PartialEq, Eq)]
pub enum Error<E> {
    Other(E),
    WouldBlock,
}

impl<E> From<E> for Error<E> {
    fn from(error: E) -> Self {
        Error::Other(error)
    }
}
