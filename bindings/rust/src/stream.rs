//! An image whose bytes arrive in order, and cannot be fetched at an offset.

use crate::input::{read_some, BLOCK, MOST_BYTES};
use crate::sys::{self, Parts, Stream, Told};
use crate::{ImageError, ImageResult, ImageSize, ImageType};
use std::fmt;
use std::io::Read;

/// A PNG has its size within so many first bytes.
const HEAD: usize = 24;

/// What a probe found: the type and the size of an image, or why it has none.
#[derive(Clone, Copy, PartialEq, Eq)]
pub struct Probed(Told);

impl Probed {
    /// The type. It may be known although the size has an error.
    ///
    /// # Errors
    ///
    /// The errors of [`image_type()`](crate::image_type()).
    pub fn image_type(&self) -> ImageResult<ImageType> {
        self.0.image_type()
    }

    /// The size, in pixels.
    ///
    /// # Errors
    ///
    /// The errors of [`blob_size`](crate::blob_size).
    pub fn size(&self) -> ImageResult<ImageSize> {
        self.0.size()
    }
}

impl fmt::Debug for Probed {
    fn fmt(&self, f: &mut fmt::Formatter<'_>) -> fmt::Result {
        f.debug_struct("Probed")
            .field("image_type", &self.image_type())
            .field("size", &self.size())
            .finish()
    }
}

/// Finds the type and the size of an image from bytes that arrive in pieces of any length.
///
/// The probe copies the few bytes that it needs again. It has some 1,300 bytes, and allocates nothing. A clone of it goes on by
/// itself.
///
/// ```
/// use imagesize::{ImageType, StreamProbe};
///
/// let mut probe = StreamProbe::new(None);
/// assert!(probe.push(b"GIF89a\x80\x02").is_none());
/// let found = probe.push(b"\xe0\x01\0\0 and pixels").expect("the size is among these bytes");
/// assert_eq!(found.image_type()?, ImageType::Gif);
/// assert_eq!((found.size()?.width, found.size()?.height), (640, 480));
/// # Ok::<(), imagesize::ImageError>(())
/// ```
#[derive(Clone)]
pub struct StreamProbe {
    parser: Stream,
    /// The length of the input.
    total: u64,
    /// The first bytes of the input, which decide whether it is a PNG.
    head: [u8; HEAD],
    kept: usize,
}

impl StreamProbe {
    /// Begins an input of `total` bytes, or of unknown length.
    ///
    /// If the length is known, bytes past it do not count, and there is a result with the last byte at the latest. If it is not,
    /// the result of a TGA that only its footer decides comes from [`finish`](StreamProbe::finish).
    pub fn new(total: Option<u64>) -> StreamProbe {
        let total = total.map_or(sys::LONGEST, |total| total.min(sys::LONGEST));
        StreamProbe {
            parser: Stream::new(total),
            total,
            head: [0; HEAD],
            kept: 0,
        }
    }

    /// Passes the next bytes. Returns the result as soon as it depends on no later byte, and `None` before.
    ///
    /// The result is that of the whole input, and each later call returns the same.
    pub fn push(&mut self, bytes: &[u8]) -> Option<Probed> {
        self.keep(bytes);
        let told = match self.png(self.total) {
            Some(png) => png.told(),
            None => self.parser.push(bytes),
        };
        told.map(Probed)
    }

    /// Ends the input. Returns the result of the bytes that were passed, which [`blob_size`](crate::blob_size) has too.
    ///
    /// ```
    /// let mut probe = imagesize::StreamProbe::new(None);
    /// probe.push(b"GIF89a");
    /// let error = probe.finish().size().expect_err("the bytes end before the size");
    /// assert_eq!(error.to_string(), "failed to fill whole buffer");
    /// ```
    pub fn finish(self) -> Probed {
        let told = self.png(self.kept as u64).and_then(Parts::told);
        Probed(told.unwrap_or_else(|| self.parser.finish()))
    }

    /// Keeps the first bytes.
    fn keep(&mut self, bytes: &[u8]) {
        let missing = self.total.min(HEAD as u64) as usize - self.kept;
        let more = &bytes[..bytes.len().min(missing)];
        self.head[self.kept..][..more.len()].copy_from_slice(more);
        self.kept += more.len();
    }

    /// The result for an input of `total` bytes, if its first bytes begin a PNG.
    fn png(&self, total: u64) -> Option<Parts> {
        let head = &self.head[..self.kept];
        sys::is_png(head).then(|| sys::png_front(head, total))
    }
}

impl fmt::Debug for StreamProbe {
    fn fmt(&self, f: &mut fmt::Formatter<'_>) -> fmt::Result {
        f.debug_struct("StreamProbe").finish_non_exhaustive()
    }
}

/// Reads the size of the image in a reader that need not seek, such as a pipe or a body of HTTP, in pixels.
///
/// The call is that of [`stream_probe`], and returns the size alone.
///
/// # Errors
///
/// The errors of [`blob_size`](crate::blob_size) and of [`stream_probe`].
///
/// ```
/// let pipe: &[u8] = b"GIF89a\x80\x02\xe0\x01\0\0";
/// let size = imagesize::stream_size(pipe)?;
/// assert_eq!((size.width, size.height), (640, 480));
/// # Ok::<(), imagesize::ImageError>(())
/// ```
pub fn stream_size<R: Read>(reader: R) -> ImageResult<ImageSize> {
    stream_probe(reader)?.0.size()
}

/// Finds the type and the size of the image in a reader that need not seek. Also returns how many bytes were read.
///
/// The call reads blocks of up to 4096 bytes, and no block after the one that has the result. For most images that is the first.
/// A TGA is read to its end, and so is a TIFF whose directory is there. [`Read::take`] sets a lower limit than 64 MiB. A read
/// that is interrupted is tried again.
///
/// The bytes that were read are gone from the reader, which can be passed as `&mut reader`. To keep them, pass them to a
/// [`StreamProbe`].
///
/// # Errors
///
/// [`ImageError::IoError`] with the reader's own error if a read fails. The kind is `InvalidData` if there is no result after
/// 64 MiB, or if the reader claims more bytes than its buffer has.
///
/// ```
/// use imagesize::{stream_probe, ImageType};
/// use std::io::{self, Read};
///
/// let body = (&b"GIF89a\x80\x02\xe0\x01\0\0"[..]).chain(io::repeat(0));
/// let (found, read) = stream_probe(body.take(1 << 20))?;
/// assert_eq!(found.image_type()?, ImageType::Gif);
/// assert_eq!(found.size()?.width, 640);
/// assert!(read <= 4096);
/// # Ok::<(), imagesize::ImageError>(())
/// ```
pub fn stream_probe<R: Read>(mut reader: R) -> ImageResult<(Probed, u64)> {
    let mut probe = StreamProbe::new(None);
    let mut block = [0; BLOCK as usize];
    let mut length = 0;
    let found = loop {
        if length == MOST_BYTES {
            return Err(ImageError::of_status(sys::BUDGET_SPENT));
        }
        let most = block.len().min(MOST_BYTES - length);
        let count = read_some(&mut reader, &mut block[..most])?;
        length += count;
        match probe.push(&block[..count]) {
            Some(found) => break found,
            None if count > 0 => {}
            None => break probe.finish(),
        }
    };
    Ok((found, length as u64))
}
