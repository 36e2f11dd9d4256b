//! The calls of the C library, as `include/imagesize.h` declares them, each with a safe function around it.

use crate::{ImageError, ImageResult, ImageSize, ImageType};
use std::mem::MaybeUninit;

pub(crate) const ANSWERED: u32 = 0;
pub(crate) const NOT_SUPPORTED: u32 = 1;
pub(crate) const CORRUPTED_IMAGE: u32 = 2;
pub(crate) const END_OF_INPUT: u32 = 4;
pub(crate) const NOT_ENOUGH_DATA: u32 = 5;
pub(crate) const BUDGET_SPENT: u32 = 6;
pub(crate) const BYTES_WANTED: u32 = 30;
/// Of the portable library alone, as in `imagesize_portable.h`.
pub(crate) const TRAPPED: u32 = 255;

/// The longest text of the library has fewer bytes.
const TEXT_CAPACITY: usize = 128;

/// The sizes in bytes of the memory of a push parser and of a probe over spans, as the header has them.
pub(crate) const STREAM_SIZE: usize = 1280;
pub(crate) const ROUNDS_SIZE: usize = 1280;

/// No input has more bytes. It is also the length of an input whose length is not known.
pub(crate) const LONGEST: u64 = i64::MAX as u64;

/// The number of PNG, which has calls of its own in the library and no number.
pub(crate) const PNG: u32 = 1000;

/// The bytes with which each PNG begins.
const SIGNATURE: &[u8; 8] = b"\x89PNG\r\n\x1a\n";

/// A range of an input's bytes: `len` bytes from offset `start`. Offsets count from 0.
#[repr(C)]
#[derive(Clone, Copy, Debug, Default)]
pub(crate) struct Span {
    pub(crate) start: u64,
    pub(crate) len: u64,
}

/// The memory of a push parser, which the library alone reads and writes. It may be copied.
#[repr(C)]
#[derive(Clone)]
pub(crate) struct Stream {
    opaque: MaybeUninit<[u64; STREAM_SIZE / 8]>,
}

/// The memory of a probe over spans, which the library alone reads and writes.
#[repr(C)]
pub(crate) struct Rounds {
    opaque: MaybeUninit<[u64; ROUNDS_SIZE / 8]>,
}

extern "C" {
    fn imagesize_type(
        bytes: *const u8,
        length: usize,
        kind: *mut u32,
        compression: *mut u32,
    ) -> u32;
    fn imagesize_size(bytes: *const u8, length: usize, width: *mut u64, height: *mut u64) -> u32;
    fn imagesize_parts_probe(
        bytes: *const u8,
        length: usize,
        spans: *const Span,
        count: usize,
        total: u64,
        kind: *mut u32,
        compression: *mut u32,
        width: *mut u64,
        height: *mut u64,
        wanted: *mut Span,
    ) -> u32;
    fn imagesize_parts_type(
        bytes: *const u8,
        length: usize,
        spans: *const Span,
        count: usize,
        total: u64,
        kind: *mut u32,
        compression: *mut u32,
        wanted: *mut Span,
    ) -> u32;
    fn imagesize_parts_size(
        kind: u32,
        compression: u32,
        bytes: *const u8,
        length: usize,
        spans: *const Span,
        count: usize,
        total: u64,
        width: *mut u64,
        height: *mut u64,
        wanted: *mut Span,
    ) -> u32;
    fn imagesize_png_size(
        bytes: *const u8,
        length: usize,
        width: *mut u64,
        height: *mut u64,
    ) -> u32;
    fn imagesize_png_parts_size(
        bytes: *const u8,
        length: usize,
        spans: *const Span,
        count: usize,
        total: u64,
        width: *mut u64,
        height: *mut u64,
        wanted: *mut Span,
    ) -> u32;
    fn imagesize_rounds_new(parts: *mut Rounds, total: u64);
    fn imagesize_rounds_supply(parts: *mut Rounds, offset: u64, bytes: *const u8, length: usize);
    fn imagesize_rounds_answer(
        parts: *const Rounds,
        kind: *mut u32,
        compression: *mut u32,
        width: *mut u64,
        height: *mut u64,
        wanted: *mut Span,
    ) -> u32;
    fn imagesize_stream_new(stream: *mut Stream, total: u64);
    fn imagesize_stream_push(
        stream: *mut Stream,
        bytes: *const u8,
        length: usize,
        kind: *mut u32,
        compression: *mut u32,
        width: *mut u64,
        height: *mut u64,
    ) -> u32;
    fn imagesize_stream_finish(
        stream: *mut Stream,
        kind: *mut u32,
        compression: *mut u32,
        width: *mut u64,
        height: *mut u64,
    ) -> u32;
    fn imagesize_container_format(
        kind: u32,
        compression: u32,
        text: *mut u8,
        capacity: usize,
        written: *mut usize,
    ) -> u32;
    fn imagesize_status_text(
        status: u32,
        text: *mut u8,
        capacity: usize,
        written: *mut usize,
    ) -> u32;
    fn imagesize_compression_family(kind: u32, compression: u32, family: *mut u32) -> u32;
    fn imagesize_is_block_compressed(kind: u32, compression: u32, answer: *mut u32) -> u32;
    fn imagesize_is_multi_compression_container(
        kind: u32,
        compression: u32,
        answer: *mut u32,
    ) -> u32;
}

/// The results of a call: its status, and the numbers that it wrote. A number that it did not write is 0.
#[derive(Clone, Copy, Default, PartialEq, Eq)]
pub(crate) struct Told {
    status: u32,
    kind: u32,
    compression: u32,
    width: u64,
    height: u64,
}

impl Told {
    /// The result for a PNG.
    fn of_png() -> Told {
        Told {
            kind: PNG,
            ..Told::default()
        }
    }

    /// The type, which may be known although the size has an error.
    pub(crate) fn image_type(&self) -> ImageResult<ImageType> {
        ImageType::numbered(self.kind, self.compression)
            .ok_or_else(|| ImageError::of_status(self.status))
    }

    /// The size.
    pub(crate) fn size(&self) -> ImageResult<ImageSize> {
        if self.status != ANSWERED {
            return Err(ImageError::of_status(self.status));
        }
        let pixels = |told| usize::try_from(told).map_err(|_| ImageError::CorruptedImage);
        Ok(ImageSize {
            width: pixels(self.width)?,
            height: pixels(self.height)?,
        })
    }
}

/// The result of a call over parts.
pub(crate) enum Parts {
    /// The result, or the error of the input.
    Told(Told),
    /// A part that is not known yet, within the input.
    Wanted(Span),
}

impl Parts {
    fn of(told: Told, wanted: Span) -> Parts {
        match told.status {
            BYTES_WANTED => Parts::Wanted(wanted),
            _ => Parts::Told(told),
        }
    }

    /// The result, if no other part is needed.
    pub(crate) fn told(self) -> Option<Told> {
        match self {
            Parts::Told(told) => Some(told),
            Parts::Wanted(_) => None,
        }
    }
}

impl Stream {
    /// Begins an input of `total` bytes. Bytes past that length do not count.
    pub(crate) fn new(total: u64) -> Stream {
        let mut stream = Stream {
            opaque: MaybeUninit::uninit(),
        };
        // SAFETY: the pointer comes from memory of the header's size, which nothing else holds. It may hold anything.
        unsafe { imagesize_stream_new(&mut stream, total) };
        stream
    }

    /// Passes the next bytes. Returns the result of the input as soon as it depends on no later byte.
    pub(crate) fn push(&mut self, bytes: &[u8]) -> Option<Told> {
        let mut told = Told::default();
        // SAFETY: the pointers come from memory that `new` wrote, from a slice of this length, and from numbers that nothing
        // else holds.
        told.status = unsafe {
            imagesize_stream_push(
                self,
                bytes.as_ptr(),
                bytes.len(),
                &mut told.kind,
                &mut told.compression,
                &mut told.width,
                &mut told.height,
            )
        };
        (told.status != BYTES_WANTED).then_some(told)
    }

    /// Ends the input. Returns the result of the bytes that were passed.
    pub(crate) fn finish(mut self) -> Told {
        let mut told = Told::default();
        // SAFETY: the pointers come from memory that `new` wrote, and from numbers that nothing else holds. It is not used again.
        told.status = unsafe {
            imagesize_stream_finish(
                &mut self,
                &mut told.kind,
                &mut told.compression,
                &mut told.width,
                &mut told.height,
            )
        };
        told
    }
}

impl Rounds {
    /// Begins an input of `total` bytes, which is no PNG.
    pub(crate) fn new(total: u64) -> Rounds {
        let mut rounds = Rounds {
            opaque: MaybeUninit::uninit(),
        };
        // SAFETY: the pointer comes from memory of the header's size, which nothing else holds. It may hold anything.
        unsafe { imagesize_rounds_new(&mut rounds, total) };
        rounds
    }

    /// Passes the bytes from an offset on.
    pub(crate) fn supply(&mut self, offset: u64, bytes: &[u8]) {
        // SAFETY: the pointers come from memory that `new` wrote and that nothing else holds, and from a slice of this length.
        unsafe { imagesize_rounds_supply(self, offset, bytes.as_ptr(), bytes.len()) };
    }

    /// The result of the input, or the span that is requested next.
    pub(crate) fn answer(&self) -> Parts {
        let mut told = Told::default();
        let mut wanted = Span::default();
        // SAFETY: the pointers come from memory that `new` wrote, and from numbers and a span that nothing else holds.
        told.status = unsafe {
            imagesize_rounds_answer(
                self,
                &mut told.kind,
                &mut told.compression,
                &mut told.width,
                &mut told.height,
                &mut wanted,
            )
        };
        Parts::of(told, wanted)
    }
}

/// Whether these first bytes begin a PNG, and the package has the feature for it.
pub(crate) fn is_png(bytes: &[u8]) -> bool {
    cfg!(feature = "png") && bytes.starts_with(SIGNATURE)
}

/// Detects the type from the first bytes of an image.
pub(crate) fn image_type(bytes: &[u8]) -> Told {
    if is_png(bytes) {
        return Told::of_png();
    }
    let mut told = Told::default();
    // SAFETY: the pointers come from a slice of this length and from two numbers, which nothing else holds.
    told.status = unsafe {
        imagesize_type(
            bytes.as_ptr(),
            bytes.len(),
            &mut told.kind,
            &mut told.compression,
        )
    };
    told
}

/// The size of the image in some bytes.
pub(crate) fn image_size(bytes: &[u8]) -> Told {
    let call = if is_png(bytes) {
        imagesize_png_size
    } else {
        imagesize_size
    };
    let mut told = Told::default();
    // SAFETY: the pointers come from a slice of this length and from two numbers, which nothing else holds.
    told.status = unsafe {
        call(
            bytes.as_ptr(),
            bytes.len(),
            &mut told.width,
            &mut told.height,
        )
    };
    told
}

/// The size of a PNG of `total` bytes, from the known parts.
fn png_size(bytes: &[u8], spans: &[Span], total: u64) -> Parts {
    let mut told = Told::of_png();
    let mut wanted = Span::default();
    // SAFETY: the pointers come from two slices of these lengths, and from numbers and a span that nothing else holds.
    told.status = unsafe {
        imagesize_png_parts_size(
            bytes.as_ptr(),
            bytes.len(),
            spans.as_ptr(),
            spans.len(),
            total,
            &mut told.width,
            &mut told.height,
            &mut wanted,
        )
    };
    Parts::of(told, wanted)
}

/// The size of a PNG of `total` bytes, from its first bytes.
pub(crate) fn png_front(bytes: &[u8], total: u64) -> Parts {
    let front = Span {
        start: 0,
        len: bytes.len() as u64,
    };
    png_size(bytes, &[front], total)
}

/// The size of such an input, read as a PNG. The signature is passed as its first bytes: if two parts have a byte, the first counts.
fn size_as_png(bytes: &[u8], spans: &[Span], total: u64) -> Parts {
    let front = Span {
        start: 0,
        len: total.min(8),
    };
    let signature = &SIGNATURE[..front.len as usize];
    png_size(
        &[signature, bytes].concat(),
        &[&[front], spans].concat(),
        total,
    )
}

/// Type and size of the image in an input of `total` bytes, with only the spans known. `bytes` has the bytes of all
/// spans, one span after another. The first span
/// has the first eight bytes of the input, or all that it has.
pub(crate) fn probe_parts(bytes: &[u8], spans: &[Span], total: u64) -> Parts {
    if is_png(bytes) {
        return png_size(bytes, spans, total);
    }
    let mut told = Told::default();
    let mut wanted = Span::default();
    // SAFETY: the pointers come from two slices of these lengths, and from numbers and a span that nothing else holds.
    told.status = unsafe {
        imagesize_parts_probe(
            bytes.as_ptr(),
            bytes.len(),
            spans.as_ptr(),
            spans.len(),
            total,
            &mut told.kind,
            &mut told.compression,
            &mut told.width,
            &mut told.height,
            &mut wanted,
        )
    };
    Parts::of(told, wanted)
}

/// The type alone, of such an input.
pub(crate) fn parts_type(bytes: &[u8], spans: &[Span], total: u64) -> Parts {
    if is_png(bytes) {
        return Parts::Told(Told::of_png());
    }
    let mut told = Told::default();
    let mut wanted = Span::default();
    // SAFETY: the pointers come from two slices of these lengths, and from numbers and a span that nothing else holds.
    told.status = unsafe {
        imagesize_parts_type(
            bytes.as_ptr(),
            bytes.len(),
            spans.as_ptr(),
            spans.len(),
            total,
            &mut told.kind,
            &mut told.compression,
            &mut wanted,
        )
    };
    Parts::of(told, wanted)
}

/// The size of such an input, read as the type that has these numbers.
pub(crate) fn parts_size(
    (kind, compression): (u32, u32),
    bytes: &[u8],
    spans: &[Span],
    total: u64,
) -> Parts {
    if kind == PNG {
        return size_as_png(bytes, spans, total);
    }
    let mut told = Told::default();
    let mut wanted = Span::default();
    // SAFETY: the pointers come from two slices of these lengths, and from numbers and a span that nothing else holds.
    told.status = unsafe {
        imagesize_parts_size(
            kind,
            compression,
            bytes.as_ptr(),
            bytes.len(),
            spans.as_ptr(),
            spans.len(),
            total,
            &mut told.width,
            &mut told.height,
            &mut wanted,
        )
    };
    Parts::of(told, wanted)
}

/// The text of a status.
pub(crate) fn status_text(status: u32) -> String {
    // SAFETY: `text` passes valid pointers.
    text(|text, capacity, written| unsafe {
        imagesize_status_text(status, text, capacity, written)
    })
}

/// The name of a type's container, which is empty if it has none.
pub(crate) fn container_format((kind, compression): (u32, u32)) -> String {
    // SAFETY: `text` passes valid pointers.
    text(|text, capacity, written| unsafe {
        imagesize_container_format(kind, compression, text, capacity, written)
    })
}

/// The number of the family of a type's compression; 0 if it has none.
pub(crate) fn compression_family((kind, compression): (u32, u32)) -> u32 {
    let mut family = 0;
    // SAFETY: the pointer comes from a number that nothing else holds.
    unsafe { imagesize_compression_family(kind, compression, &mut family) };
    family
}

/// Whether a type is a texture in one of the block compressions.
pub(crate) fn is_block_compressed((kind, compression): (u32, u32)) -> bool {
    let mut answer = 0;
    // SAFETY: the pointer comes from a number that nothing else holds.
    unsafe { imagesize_is_block_compressed(kind, compression, &mut answer) };
    answer == 1
}

/// Whether a type's container can hold textures of several families.
pub(crate) fn is_multi_compression_container((kind, compression): (u32, u32)) -> bool {
    let mut answer = 0;
    // SAFETY: the pointer comes from a number that nothing else holds.
    unsafe { imagesize_is_multi_compression_container(kind, compression, &mut answer) };
    answer == 1
}

/// The text that a call writes. The call gets a pointer to a buffer, the buffer's length, and a pointer for the text's length.
pub(crate) fn text(call: impl FnOnce(*mut u8, usize, *mut usize) -> u32) -> String {
    let (mut buffer, mut written) = ([0; TEXT_CAPACITY], 0);
    match call(buffer.as_mut_ptr(), buffer.len(), &mut written) {
        ANSWERED => String::from_utf8_lossy(&buffer[..written]).into_owned(),
        _ => String::new(),
    }
}
