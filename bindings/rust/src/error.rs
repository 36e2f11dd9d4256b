//! Why a call has no result.

use crate::sys;
use std::error::Error;
use std::fmt;
use std::io;

/// A `T`, or the error.
pub type ImageResult<T> = Result<T, ImageError>;

/// Why some bytes have no type or no size.
#[derive(Debug)]
pub enum ImageError {
    /// The bytes are of no known type.
    NotSupported,
    /// The type is known, and its records are malformed, or end before the size.
    CorruptedImage,
    /// A call of the reader failed, and this is its error. Or the bytes have no size: the kind is `UnexpectedEof` if they end
    /// too early, and `InvalidData` if they break the layout of their type. Or the portable library was [`Trapped`]: then the
    /// kind is `Other`.
    IoError(io::Error),
}

/// The portable library was trapped: its code did what WebAssembly does not allow, such as a read outside of its memory.
///
/// This is a mistake in the library or in its compiler, and says nothing about the image. None is expected. The native library is never
/// trapped.
///
/// ```
/// use imagesize::{ImageError, Trapped};
///
/// fn is_trap(error: &ImageError) -> bool {
///     matches!(error, ImageError::IoError(error) if error.get_ref().is_some_and(|inner| inner.is::<Trapped>()))
/// }
/// # assert!(!is_trap(&imagesize::blob_size(b"no image, but a text").unwrap_err()));
/// ```
#[derive(Clone, Copy, Debug, PartialEq, Eq)]
#[non_exhaustive]
pub struct Trapped;

impl fmt::Display for Trapped {
    fn fmt(&self, f: &mut fmt::Formatter<'_>) -> fmt::Result {
        f.write_str("the portable library was trapped: this is a mistake in it")
    }
}

impl Error for Trapped {}

impl ImageError {
    /// The error for a status that the library returned.
    pub(crate) fn of_status(status: u32) -> ImageError {
        let kind = match status {
            sys::NOT_SUPPORTED => return ImageError::NotSupported,
            sys::CORRUPTED_IMAGE => return ImageError::CorruptedImage,
            sys::TRAPPED => {
                return ImageError::IoError(io::Error::new(io::ErrorKind::Other, Trapped))
            }
            sys::END_OF_INPUT | sys::NOT_ENOUGH_DATA => io::ErrorKind::UnexpectedEof,
            _ => io::ErrorKind::InvalidData,
        };
        ImageError::IoError(io::Error::new(kind, sys::status_text(status)))
    }
}

impl fmt::Display for ImageError {
    fn fmt(&self, f: &mut fmt::Formatter<'_>) -> fmt::Result {
        match self {
            ImageError::NotSupported => f.write_str("Could not decode image"),
            ImageError::CorruptedImage => f.write_str("Hit end of file before finding size"),
            ImageError::IoError(error) => error.fmt(f),
        }
    }
}

impl Error for ImageError {}

impl From<io::Error> for ImageError {
    fn from(error: io::Error) -> ImageError {
        ImageError::IoError(error)
    }
}
