//! An input that is fetched in the blocks that the library requests.

use crate::sys::{self, Parts, Rounds, Span, Told};
use crate::{ImageError, ImageResult, ImageSize, ImageType};
use std::fs::File;
use std::io::{self, ErrorKind, Read, Seek, SeekFrom};

/// Blocks begin and end at multiples of this, or where the input ends.
pub(crate) const BLOCK: u64 = 4096;

/// With a requested byte so many after it are fetched, since the fields of one record are close together.
const AHEAD: u64 = 64;

/// After more spans than these that are apart from one another, the next blocks grow.
const FEW_SPANS: usize = 64;

/// A call that has fetched so many bytes fetches no more.
pub(crate) const MOST_BYTES: usize = 64 << 20;

/// The first bytes of each image, which are fetched first.
const FIRST: Span = Span { start: 0, len: 12 };

/// The bytes of a reader from an offset on, as far as they are fetched.
pub(crate) struct Input<R> {
    reader: R,
    /// The offset in the reader at which the input begins.
    base: u64,
    /// The reader's present offset.
    offset: u64,
    /// The length of the input.
    total: u64,
    /// How many bytes are fetched.
    held: usize,
    /// The bytes of all spans, one span after another; or those of the last block alone.
    bytes: Vec<u8>,
    /// What is fetched. Spans that touch are one.
    spans: Vec<Span>,
}

impl Input<File> {
    /// A file that was opened. If it is not a regular file, a seek gives its length, which fails for a pipe.
    pub(crate) fn of_file(file: File) -> ImageResult<Input<File>> {
        let metadata = file.metadata()?;
        if metadata.is_file() {
            Ok(Input::new(file, 0, 0, metadata.len()))
        } else {
            Input::from_here(file)
        }
    }
}

impl<R: Read + Seek> Input<R> {
    /// The bytes of a reader from its present offset on.
    pub(crate) fn from_here(mut reader: R) -> ImageResult<Input<R>> {
        let base = reader.stream_position()?;
        let end = reader.seek(SeekFrom::End(0))?;
        Ok(Input::new(reader, base, end, end))
    }

    /// All bytes of a reader.
    pub(crate) fn whole(mut reader: R) -> ImageResult<Input<R>> {
        let end = reader.seek(SeekFrom::End(0))?;
        Ok(Input::new(reader, 0, end, end))
    }

    fn new(reader: R, base: u64, offset: u64, end: u64) -> Input<R> {
        Input {
            reader,
            base,
            offset,
            total: end.saturating_sub(base),
            held: 0,
            bytes: Vec::new(),
            spans: Vec::new(),
        }
    }

    /// Type and size of the image in the input. Only the last block is stored.
    ///
    /// Each round fetches the first byte that is requested, and then requests a later one. So the loop ends.
    pub(crate) fn probe(mut self) -> ImageResult<Told> {
        self.fetch(FIRST)?;
        // Most inputs have their result in the first block, which one call finds.
        let mut wanted = match sys::probe_parts(&self.bytes, &self.spans, self.total) {
            Parts::Told(told) => return Ok(told),
            Parts::Wanted(span) => span,
        };
        let mut rounds = Rounds::new(self.total);
        rounds.supply(0, &self.bytes);
        loop {
            self.bytes.clear();
            let start = self.fetch(wanted)?;
            rounds.supply(start, &self.bytes);
            match rounds.answer() {
                Parts::Told(told) => return Ok(told),
                Parts::Wanted(span) => wanted = span,
            }
        }
    }

    /// The type of the image in the input.
    pub(crate) fn image_type(self) -> ImageResult<ImageType> {
        self.ask(sys::parts_type)?.image_type()
    }

    /// The size of the input, read as this type.
    pub(crate) fn size_as(self, kind: &ImageType) -> ImageResult<ImageSize> {
        let numbers = kind.numbers();
        self.ask(|bytes, spans, total| sys::parts_size(numbers, bytes, spans, total))?
            .size()
    }

    /// The result of a call over parts. The bytes that it requests are fetched.
    ///
    /// Each round fetches a byte that was not known, since the library requests no others. So the loop ends.
    fn ask(mut self, call: impl Fn(&[u8], &[Span], u64) -> Parts) -> ImageResult<Told> {
        let mut wanted = FIRST;
        loop {
            self.fetch(wanted)?;
            match call(&self.bytes, &self.spans, self.total) {
                Parts::Told(told) => return Ok(told),
                Parts::Wanted(span) => wanted = span,
            }
        }
    }

    /// Fetches the block around a span, after the bytes that are stored. Returns its offset.
    fn fetch(&mut self, wanted: Span) -> ImageResult<u64> {
        if self.held >= MOST_BYTES {
            return Err(ImageError::of_status(sys::BUDGET_SPENT));
        }
        let known = self.bytes.len();
        let block = self.block(wanted);
        let offset = self.base + block.start;
        if offset != self.offset {
            self.reader.seek(SeekFrom::Start(offset))?;
        }
        self.bytes.resize(known + block.len as usize, 0);
        read_whole(&mut self.reader, &mut self.bytes[known..])?;
        self.offset = offset + block.len;
        self.held += block.len as usize;
        match self.spans.last_mut() {
            Some(last) if last.start + last.len == block.start => last.len += block.len,
            _ => self.spans.push(block),
        }
        Ok(block.start)
    }

    /// The block around a span. If it continues the last one, or if many spans are apart, it is as long as all bytes so far, so
    /// that a long walk takes few rounds.
    fn block(&self, wanted: Span) -> Span {
        let start = wanted.start - wanted.start % BLOCK;
        let goes_on = matches!(self.spans.last(), Some(last) if last.start + last.len == start);
        let grown = if goes_on || self.spans.len() > FEW_SPANS {
            self.held.min(MOST_BYTES - self.held) as u64
        } else {
            0
        };
        let least = wanted.start.saturating_add(wanted.len.max(AHEAD));
        let end = least.max(start.saturating_add(grown));
        let end = end.checked_next_multiple_of(BLOCK).unwrap_or(end);
        Span {
            start,
            len: end.min(self.total) - start,
        }
    }
}

/// Reads some bytes, or none at the end of the reader. A read that is interrupted is tried again.
///
/// A reader that claims more bytes than its buffer has gives an error: `read_exact` would panic.
pub(crate) fn read_some<R: Read>(reader: &mut R, buffer: &mut [u8]) -> io::Result<usize> {
    loop {
        match reader.read(buffer) {
            Err(error) if error.kind() == ErrorKind::Interrupted => {}
            Ok(count) if count > buffer.len() => {
                let room = buffer.len();
                let reason =
                    format!("the reader claims to have read {count} bytes into a buffer of {room}");
                return Err(io::Error::new(ErrorKind::InvalidData, reason));
            }
            read => return read,
        }
    }
}

/// Fills a buffer.
fn read_whole<R: Read>(reader: &mut R, mut buffer: &mut [u8]) -> io::Result<()> {
    while !buffer.is_empty() {
        match read_some(reader, buffer)? {
            0 => {
                let reason = "failed to fill whole buffer";
                return Err(io::Error::new(ErrorKind::UnexpectedEof, reason));
            }
            count => buffer = &mut buffer[count..],
        }
    }
    Ok(())
}
