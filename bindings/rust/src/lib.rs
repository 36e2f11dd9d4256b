//! The type of an image and its width and height in pixels, from a few bytes, with no pixel decoded.
//!
//! ```
//! let size = imagesize::blob_size(b"GIF89a\x80\x02\xe0\x01\0\0")?;
//! assert_eq!((size.width, size.height), (640, 480));
//! # Ok::<(), imagesize::ImageError>(())
//! ```
//!
//! The names are those of the crate `imagesize` 0.15. PNG is tried first, with the feature `png`, which is on by default. The
//! results come from a C library in which each function is proved. This package fetches the bytes that the library requests, and
//! is tested.
//!
//! | The image is in | Call |
//! |---|---|
//! | a file | [`size`] |
//! | memory | [`blob_size`], [`image_type()`] |
//! | a reader that can seek | [`reader_size`], [`reader_type`] |
//! | a reader that cannot, such as a pipe | [`stream_size`], [`stream_probe`] |
//! | pieces that arrive one after another | [`StreamProbe`] |
//!
//! [`size`] and the calls over a reader that can seek fetch blocks of 4096 bytes around the bytes that the result depends on. They never read
//! the whole of a large file. For very many records the blocks become larger. If more is needed after 64 MiB, the call returns
//! an error. [`stream_size`] and [`stream_probe`] read from the first byte on, up to the result, and at most 64 MiB.

#![warn(missing_docs)]

mod compression;
mod error;
mod image_size;
mod image_type;
mod input;
mod stream;
mod sys;
#[cfg(test)]
mod tests;

pub use compression::{
    AtcCompression, Compression, CompressionFamily, DdsCompression, PkmCompression,
    PvrtcCompression,
};
pub use error::{ImageError, ImageResult, Trapped};
pub use image_size::ImageSize;
pub use image_type::ImageType;
pub use stream::{stream_probe, stream_size, Probed, StreamProbe};

use input::Input;
use std::fs::OpenOptions;
use std::io::{BufRead, Seek};
#[cfg(unix)]
use std::os::unix::fs::OpenOptionsExt;
use std::path::Path;

/// Detects the image type from the first bytes, with its compression if the type has one. The compression is `Unknown` if the
/// bytes do not have it.
///
/// Twelve bytes are enough for most types, and for the compression of a PKM and an ATC. A PVR and a DDS have their compression
/// after these, and a HEIF may have its brand there. A TGA has its footer at the end of the file.
///
/// # Errors
///
/// [`ImageError::NotSupported`] if the bytes are of no known type, and [`ImageError::IoError`] with the kind `UnexpectedEof` if
/// there are fewer than 12 bytes.
///
/// ```
/// use imagesize::{image_type, ImageType};
///
/// let kind = image_type(b"GIF89a\x80\x02\xe0\x01\0\0")?;
/// assert_eq!(kind, ImageType::Gif);
/// # Ok::<(), imagesize::ImageError>(())
/// ```
pub fn image_type(header: &[u8]) -> ImageResult<ImageType> {
    sys::image_type(header).image_type()
}

/// Reads the size of the image in a file, in pixels.
///
/// The call opens the file, and reads only blocks around the bytes that the size depends on. A pipe cannot seek:
/// [`stream_size`] reads it.
///
/// # Errors
///
/// The errors of [`reader_size`], and [`ImageError::IoError`] with the error of the system if the file cannot be opened. The kind is
/// `NotSeekable` for a pipe, which is not waited for.
///
/// ```
/// # let path = std::env::temp_dir().join(format!("imagesize-doc-{}.gif", std::process::id()));
/// # std::fs::write(&path, b"GIF89a\x80\x02\xe0\x01\0\0")?;
/// let size = imagesize::size(&path)?;
/// assert_eq!((size.width, size.height), (640, 480));
/// # std::fs::remove_file(&path)?;
/// # Ok::<(), imagesize::ImageError>(())
/// ```
pub fn size<P: AsRef<Path>>(path: P) -> ImageResult<ImageSize> {
    let mut options = OpenOptions::new();
    options.read(true);
    #[cfg(unix)]
    options.custom_flags(O_NONBLOCK);
    Input::of_file(options.open(path)?)?.probe()?.size()
}

/// `O_NONBLOCK`, or 0 where its number is not known here. Without it, a call that opens a pipe waits for a writer.
#[cfg(unix)]
const O_NONBLOCK: i32 = if cfg!(all(
    any(target_os = "linux", target_os = "android"),
    any(
        target_arch = "x86",
        target_arch = "x86_64",
        target_arch = "arm",
        target_arch = "aarch64",
        target_arch = "powerpc64",
        target_arch = "riscv64",
        target_arch = "s390x"
    )
)) {
    0o4000
} else if cfg!(any(target_vendor = "apple", target_os = "freebsd")) {
    4
} else {
    0
};

/// Reads the size of an image from its bytes, in pixels: all bytes of its file, or its first bytes.
///
/// The first bytes of a HEIF or an icon can give another size than the whole file.
///
/// # Errors
///
/// The errors of [`image_type()`], [`ImageError::IoError`] with the kind `UnexpectedEof` if the bytes end before the size, and
/// [`ImageError::CorruptedImage`] or `IoError` with the kind `InvalidData` if the bytes break the type's layout.
///
/// ```
/// let size = imagesize::blob_size(b"GIF89a\x80\x02\xe0\x01\0\0")?;
/// assert_eq!((size.width, size.height), (640, 480));
/// # Ok::<(), imagesize::ImageError>(())
/// ```
pub fn blob_size(data: &[u8]) -> ImageResult<ImageSize> {
    sys::image_size(data).size()
}

/// Reads the size of the image that begins at the reader's offset, in pixels.
///
/// A reader can be passed as `&mut reader`. Its offset after the call is unspecified.
///
/// # Errors
///
/// The errors of [`blob_size`], and [`ImageError::IoError`] with the reader's own error if one of its calls fails. The kind is
/// `UnexpectedEof` if the reader gives fewer bytes than it reported, and `InvalidData` if more is needed after 64 MiB.
///
/// ```
/// use std::io::Cursor;
///
/// let size = imagesize::reader_size(Cursor::new(b"GIF89a\x80\x02\xe0\x01\0\0"))?;
/// assert_eq!((size.width, size.height), (640, 480));
/// # Ok::<(), imagesize::ImageError>(())
/// ```
pub fn reader_size<R: BufRead + Seek>(reader: R) -> ImageResult<ImageSize> {
    Input::from_here(reader)?.probe()?.size()
}

/// Detects the type of the image that begins at the reader's offset.
///
/// # Errors
///
/// The errors of [`image_type()`], and [`ImageError::IoError`] with the reader's own error if one of its calls fails.
///
/// ```
/// use imagesize::{reader_type, ImageType};
/// use std::io::Cursor;
///
/// let kind = reader_type(Cursor::new(b"GIF89a\x80\x02\xe0\x01\0\0"))?;
/// assert_eq!(kind, ImageType::Gif);
/// # Ok::<(), imagesize::ImageError>(())
/// ```
pub fn reader_type<R: BufRead + Seek>(reader: R) -> ImageResult<ImageType> {
    Input::from_here(reader)?.image_type()
}
