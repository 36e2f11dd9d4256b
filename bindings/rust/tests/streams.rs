//! Readers that cannot seek: how much of them is read, and what of one that cuts its reads, fails or never ends.

use imagesize::{stream_probe, stream_size, ImageError, ImageResult, ImageSize, ImageType};
use std::error::Error;
use std::fmt;
use std::io::{self, ErrorKind, Read};

const GIF: &[u8] = b"GIF89a\x80\x02\xe0\x01\0\0";

/// What the `number`-th read fails with.
#[derive(Debug)]
struct Broken {
    number: usize,
}

impl fmt::Display for Broken {
    fn fmt(&self, f: &mut fmt::Formatter<'_>) -> fmt::Result {
        write!(f, "read {} is broken", self.number)
    }
}

impl Error for Broken {}

/// A reader that gives at most so many bytes a read, and fails at some of its reads.
struct Pipe<'a, F> {
    bytes: &'a [u8],
    most: usize,
    fails: F,
    reads: usize,
}

impl<'a, F: Fn(usize) -> Option<ErrorKind>> Pipe<'a, F> {
    fn new(bytes: &'a [u8], most: usize, fails: F) -> Pipe<'a, F> {
        Pipe {
            bytes,
            most,
            fails,
            reads: 0,
        }
    }
}

impl<F: Fn(usize) -> Option<ErrorKind>> Read for Pipe<'_, F> {
    fn read(&mut self, block: &mut [u8]) -> io::Result<usize> {
        let number = self.reads;
        self.reads += 1;
        if let Some(kind) = (self.fails)(number) {
            return Err(io::Error::new(kind, Broken { number }));
        }
        let count = block.len().min(self.most);
        self.bytes.read(&mut block[..count])
    }
}

/// A JPEG of 7x5, whose frame comes after this many bytes, in segments.
fn jpeg(place: usize) -> Vec<u8> {
    let mut bytes = vec![0xFF, 0xD8];
    while bytes.len() < place {
        let length = (place - bytes.len()).min(60_000);
        bytes.extend([0xFF, 0xE1]);
        bytes.extend((length as u16 - 2).to_be_bytes());
        bytes.resize(bytes.len() + length - 4, 0);
    }
    bytes.extend([0xFF, 0xC0, 0, 17, 8, 0, 5, 0, 7, 3]);
    bytes.resize(bytes.len() + 30_000, 0);
    bytes
}

fn pixels(width: usize, height: usize) -> ImageSize {
    ImageSize { width, height }
}

fn broken_read(answer: ImageResult<ImageSize>) -> Option<usize> {
    match answer {
        Err(ImageError::IoError(error)) => Some(error.get_ref()?.downcast_ref::<Broken>()?.number),
        _ => None,
    }
}

#[test]
fn no_block_is_read_behind_the_answer() -> ImageResult<()> {
    for (place, blocks) in [(2, 1), (4087, 1), (4088, 2), (40_000, 10), (200_000, 49)] {
        let bytes = jpeg(place);
        let mut rest = &bytes[..];
        let (found, read) = stream_probe(&mut rest)?;
        assert_eq!(found.size()?, pixels(7, 5));
        assert_eq!(found.image_type()?, ImageType::Jpeg);
        assert_eq!(read, blocks * 4096, "{place}");
        assert_eq!(rest.len(), bytes.len() - read as usize);
    }
    Ok(())
}

#[test]
fn reads_may_be_cut_and_interrupted() -> ImageResult<()> {
    let bytes = jpeg(20_000);
    for most in [1, 2, 3, 1000, 4095, 100_000] {
        let fails = |number| (number % 3 != 1).then_some(ErrorKind::Interrupted);
        let mut pipe = Pipe::new(&bytes, most, fails);
        let (found, read) = stream_probe(&mut pipe)?;
        assert_eq!(found.size()?, pixels(7, 5));
        assert_eq!(read as usize, bytes.len() - pipe.bytes.len());
        assert!((20_009..20_009 + 4096).contains(&read), "{read}");
    }
    Ok(())
}

#[test]
fn a_read_that_fails_gives_its_own_error() {
    let bytes = jpeg(20_000);
    for kind in [
        ErrorKind::Other,
        ErrorKind::UnexpectedEof,
        ErrorKind::WouldBlock,
    ] {
        let fails = |number| (number == 3).then_some(kind);
        let mut pipe = Pipe::new(&bytes, 4096, fails);
        assert_eq!(broken_read(stream_size(&mut pipe)), Some(3));
        assert_eq!(pipe.reads, 4, "no read behind the one that fails");
    }
    let broken = |_| Some(ErrorKind::PermissionDenied);
    assert_eq!(broken_read(stream_size(Pipe::new(GIF, 1, broken))), Some(0));
}

#[test]
fn a_reader_that_ends_early_has_the_error_of_its_bytes() -> ImageResult<()> {
    for length in 0..GIF.len() {
        let (found, read) = stream_probe(&GIF[..length])?;
        assert_eq!(read, length as u64);
        match found.size() {
            Err(ImageError::IoError(error)) => assert_eq!(error.kind(), ErrorKind::UnexpectedEof),
            found => panic!("{found:?}"),
        }
    }
    Ok(())
}

#[test]
fn what_is_no_image_is_known_after_its_first_block() -> ImageResult<()> {
    let (found, read) = stream_probe(io::repeat(b'a'))?;
    assert!(matches!(found.size(), Err(ImageError::NotSupported)));
    assert!(matches!(found.image_type(), Err(ImageError::NotSupported)));
    assert_eq!(read, 4096);
    Ok(())
}

#[test]
fn a_stream_without_end_is_refused() {
    // A TIFF whose directory is 4 GiB away.
    let mut endless = (&b"II*\0\xff\xff\xff\xff"[..]).chain(io::repeat(0));
    match stream_size(&mut endless) {
        Err(ImageError::IoError(error)) => {
            assert_eq!(error.to_string(), "Read budget is spent");
            assert_eq!(error.kind(), ErrorKind::InvalidData);
        }
        found => panic!("{found:?}"),
    }
    // A directory that ends with byte 64 MiB.
    let directory = b"\x02\0\0\x01\x03\0\x01\0\0\0\x05\0\0\0\x01\x01\x04\0\x01\0\0\0\x07\0\0\0";
    let place = (64 << 20) - directory.len() as u32;
    let head = [b"II*\0", &place.to_le_bytes()[..]].concat();
    let pixels_before = io::repeat(0).take(u64::from(place) - 8);
    let tiff = head
        .chain(pixels_before)
        .chain(&directory[..])
        .chain(io::repeat(0));
    let (found, read) = stream_probe(tiff).expect("64 MiB");
    assert_eq!((found.size().ok(), read), (Some(pixels(5, 7)), 64 << 20));
}

#[test]
fn a_limit_of_the_reader_ends_a_walk() -> ImageResult<()> {
    // Segments of 16 bytes of the same bytes: a JPEG without end.
    let segments = b"\xff\xe1\0\x0e\0\0\0\0\0\0\0\0\0\0\0\0".repeat(70_000);
    let mut endless = (&b"\xff\xd8"[..]).chain(&segments[..]).take(1_000_000);
    let (found, read) = stream_probe(&mut endless)?;
    assert_eq!(found.image_type()?, ImageType::Jpeg);
    assert_eq!(read, 1_000_000);
    match found.size() {
        Err(ImageError::IoError(error)) => assert_eq!(error.kind(), ErrorKind::UnexpectedEof),
        found => panic!("{found:?}"),
    }
    Ok(())
}

/// A reader that claims to have read more bytes than its buffer has.
struct Boastful;

impl Read for Boastful {
    fn read(&mut self, block: &mut [u8]) -> io::Result<usize> {
        Ok(block.len() + 1)
    }
}

#[test]
fn a_reader_that_claims_more_than_its_buffer_is_an_error() {
    match stream_size(Boastful) {
        Err(ImageError::IoError(error)) => {
            assert_eq!(error.kind(), ErrorKind::InvalidData);
            let said = "the reader claims to have read 4097 bytes into a buffer of 4096";
            assert_eq!(error.to_string(), said);
        }
        other => panic!("{other:?}"),
    }
}
