//! Readers that fail, lie, shrink and never end, and what is read of honest ones.

use imagesize::{reader_size, reader_type, ImageError, ImageResult, ImageSize, ImageType};
use std::error::Error;
use std::fmt;
use std::io::{self, BufRead, Cursor, ErrorKind, Read, Seek, SeekFrom};

/// What the `number`-th call of a reader fails with.
#[derive(Debug)]
struct Broken {
    number: usize,
}

impl fmt::Display for Broken {
    fn fmt(&self, f: &mut fmt::Formatter<'_>) -> fmt::Result {
        write!(f, "call {} is broken", self.number)
    }
}

impl Error for Broken {}

/// A reader over bytes that counts its calls, keeps what was read, and may fail at one of them.
struct Counting {
    bytes: Cursor<Vec<u8>>,
    told: u64,
    broken: Option<(usize, ErrorKind)>,
    calls: usize,
    /// The offset and the length of each read.
    readings: Vec<(u64, usize)>,
}

impl Counting {
    fn new(bytes: Vec<u8>) -> Counting {
        Counting {
            told: bytes.len() as u64,
            bytes: Cursor::new(bytes),
            broken: None,
            calls: 0,
            readings: Vec::new(),
        }
    }

    fn failing(bytes: Vec<u8>, number: usize, kind: ErrorKind) -> Counting {
        let mut reader = Counting::new(bytes);
        reader.broken = Some((number, kind));
        reader
    }

    fn telling(bytes: Vec<u8>, told: u64) -> Counting {
        let mut reader = Counting::new(bytes);
        reader.told = told;
        reader
    }

    fn call(&mut self) -> io::Result<()> {
        let number = self.calls;
        self.calls += 1;
        match self.broken {
            Some((broken, kind)) if broken == number => {
                Err(io::Error::new(kind, Broken { number }))
            }
            _ => Ok(()),
        }
    }
}

impl Read for Counting {
    fn read(&mut self, room: &mut [u8]) -> io::Result<usize> {
        self.call()?;
        let place = self.bytes.position();
        let count = self.bytes.read(room)?;
        self.readings.push((place, count));
        Ok(count)
    }
}

impl BufRead for Counting {
    fn fill_buf(&mut self) -> io::Result<&[u8]> {
        self.call()?;
        self.bytes.fill_buf()
    }

    fn consume(&mut self, count: usize) {
        self.bytes.consume(count);
    }
}

impl Seek for Counting {
    fn seek(&mut self, to: SeekFrom) -> io::Result<u64> {
        self.call()?;
        match to {
            SeekFrom::End(0) => Ok(self.told),
            _ => self.bytes.seek(to),
        }
    }
}

/// A JPEG of 7x5, whose frame comes after this many segments of this length.
fn jpeg(segments: usize, length: u16) -> Vec<u8> {
    let mut bytes = vec![0xFF, 0xD8];
    for _ in 0..segments {
        bytes.extend([0xFF, 0xE1]);
        bytes.extend(length.to_be_bytes());
        bytes.resize(bytes.len() + usize::from(length) - 2, 0);
    }
    bytes.extend([0xFF, 0xC0, 0, 17, 8, 0, 5, 0, 7, 3]);
    bytes.resize(bytes.len() + 30_000, 0);
    bytes
}

/// A TIFF of 5x7, whose directory comes after this many bytes of pixels.
fn tiff(pixels: u32) -> Vec<u8> {
    let mut bytes = b"II*\0".to_vec();
    bytes.extend((8 + pixels).to_le_bytes());
    bytes.resize(bytes.len() + pixels as usize, 0);
    bytes.extend([2, 0]);
    bytes.extend([0, 1, 3, 0, 1, 0, 0, 0, 5, 0, 0, 0]);
    bytes.extend([1, 1, 4, 0, 1, 0, 0, 0, 7, 0, 0, 0]);
    bytes
}

/// An interleaved bitmap of 320x200, whose header comes after this many empty chunks.
fn ilbm(chunks: usize) -> Vec<u8> {
    let head = b"BMHD\0\0\0\x14\x01\x40\0\xC8";
    [
        b"FORM\0\0\0\0ILBM",
        &b"ANNO\0\0\0\0".repeat(chunks)[..],
        head,
    ]
    .concat()
}

fn pixels(width: usize, height: usize) -> ImageSize {
    ImageSize { width, height }
}

fn broken_call(answer: ImageResult<ImageSize>) -> Option<usize> {
    match answer {
        Err(ImageError::IoError(error)) => Some(error.get_ref()?.downcast_ref::<Broken>()?.number),
        _ => None,
    }
}

#[test]
fn each_call_that_fails_gives_its_own_error() {
    let gif = b"GIF89a\x80\x02\xe0\x01\0\0".to_vec();
    for (bytes, most) in [(gif, 4), (jpeg(5, 65_535), 20), (tiff(2_000_000), 7)] {
        for kind in [
            ErrorKind::Other,
            ErrorKind::UnexpectedEof,
            ErrorKind::InvalidData,
        ] {
            let mut honest = Counting::new(bytes.clone());
            assert!(reader_size(&mut honest).is_ok());
            assert!(honest.calls <= most, "{} calls", honest.calls);
            for number in 0..honest.calls {
                let mut failing = Counting::failing(bytes.clone(), number, kind);
                assert_eq!(broken_call(reader_size(&mut failing)), Some(number));
                assert_eq!(
                    failing.calls,
                    number + 1,
                    "no call behind the one that fails"
                );
            }
        }
    }
}

#[test]
fn an_interrupted_read_is_made_again() {
    let mut interrupted = Counting::failing(jpeg(0, 2), 3, ErrorKind::Interrupted);
    assert_eq!(reader_size(&mut interrupted).ok(), Some(pixels(7, 5)));
}

#[test]
fn a_reader_that_gives_less_than_it_tells_is_an_end() {
    let cut = Counting::telling(b"GIF89a\x80\x02".to_vec(), 12);
    match reader_size(cut) {
        Err(ImageError::IoError(error)) => assert_eq!(error.kind(), ErrorKind::UnexpectedEof),
        answer => panic!("{answer:?}"),
    }
}

#[test]
fn a_reader_may_tell_any_length() {
    for told in [0, 11] {
        let reader = Counting::telling(jpeg(0, 2), told);
        let refused = reader_size(reader).expect_err("no size");
        assert_eq!(refused.to_string(), "failed to fill whole buffer");
    }
    for told in [4096, 1 << 20, 1 << 40, u64::MAX >> 1] {
        let reader = Counting::telling(jpeg(0, 2), told);
        assert_eq!(reader_size(reader).ok(), Some(pixels(7, 5)), "{told}");
    }
    // Nothing is said of an input of 2^63 bytes and more, but that the call returns.
    for told in [1 << 63, u64::MAX] {
        let _ = reader_size(Counting::telling(jpeg(300, 65_535), told));
    }
}

#[test]
fn little_of_a_large_input_is_read() {
    for (bytes, wanted, blocks) in [
        (jpeg(0, 2), pixels(7, 5), vec![0]),
        (jpeg(4, 54_000), pixels(7, 5), vec![0, 13, 26, 39, 52]),
        (tiff(3_000), pixels(5, 7), vec![0]),
        (tiff(2_000_000), pixels(5, 7), vec![0, 488]),
    ] {
        let mut reader = Counting::new(bytes);
        assert_eq!(reader_size(&mut reader).ok(), Some(wanted));
        let places: Vec<u64> = reader.readings.iter().map(|reading| reading.0).collect();
        assert_eq!(
            places,
            blocks
                .iter()
                .map(|block| block * 4096)
                .collect::<Vec<u64>>()
        );
        assert!(reader.readings.iter().all(|reading| reading.1 <= 4096));
    }
}

#[test]
fn sixty_four_bytes_come_with_a_wanted_one() {
    for (directory, count) in [(3 * 4096 - 64, 4096), (3 * 4096 - 63, 2 * 4096)] {
        let mut bytes = tiff(directory - 8);
        bytes.resize(20_000, 0);
        let mut reader = Counting::new(bytes);
        assert_eq!(reader_size(&mut reader).ok(), Some(pixels(5, 7)));
        assert_eq!(reader.readings, [(0, 4096), (2 * 4096, count)]);
    }
}

#[test]
fn a_type_alone_is_read_from_one_block() {
    let mut reader = Counting::new(jpeg(4, 54_000));
    assert_eq!(reader_type(&mut reader).ok(), Some(ImageType::Jpeg));
    assert_eq!(reader.readings, [(0, 4096)]);
}

#[test]
fn a_record_across_two_blocks_is_read_at_once() {
    // The frame begins two bytes before a multiple of 4096.
    let mut reader = Counting::new(jpeg(1, 5 * 4096 - 6));
    assert_eq!(reader_size(&mut reader).ok(), Some(pixels(7, 5)));
    assert_eq!(reader.readings, [(0, 4096), (4 * 4096, 2 * 4096)]);
}

#[test]
fn a_walk_from_block_to_block_reads_each_byte_once_and_seeks_no_more() {
    for chunks in [1 << 10, 1 << 16, 1 << 20] {
        let bytes = ilbm(chunks);
        let length = bytes.len();
        let mut reader = Counting::new(bytes);
        assert_eq!(reader_size(&mut reader).ok(), Some(pixels(320, 200)));
        let fetched: usize = reader.readings.iter().map(|reading| reading.1).sum();
        assert_eq!(fetched, length);
        assert!(
            reader.readings.len() <= 16,
            "{} readings",
            reader.readings.len()
        );
        // It asks for the offset and the length, and goes back to the beginning.
        assert_eq!(reader.calls, reader.readings.len() + 3);
    }
}

#[test]
fn a_walk_over_many_places_takes_few_readings() {
    let mut reader = Counting::new(jpeg(1_000, 3 * 4096 - 2));
    assert_eq!(reader_size(&mut reader).ok(), Some(pixels(7, 5)));
    let grown = reader.readings.iter().position(|reading| reading.1 > 4096);
    assert_eq!(grown, Some(65));
    assert!(
        reader.readings.len() <= 80,
        "{} readings",
        reader.readings.len()
    );
}

/// A JPEG without end: its first two bytes, and then segments of this many bytes, with their markers.
struct Endless {
    segment: u64,
    place: u64,
    given: u64,
}

impl Read for Endless {
    fn read(&mut self, room: &mut [u8]) -> io::Result<usize> {
        let [high, low] = (self.segment as u16 - 2).to_be_bytes();
        for byte in room.iter_mut() {
            *byte = match self.place {
                0 => 0xFF,
                1 => 0xD8,
                place => match (place - 2) % self.segment {
                    0 => 0xFF,
                    1 => 0xE1,
                    2 => high,
                    3 => low,
                    _ => 0,
                },
            };
            self.place += 1;
        }
        self.given += room.len() as u64;
        Ok(room.len())
    }
}

impl BufRead for Endless {
    fn fill_buf(&mut self) -> io::Result<&[u8]> {
        unreachable!("bytes are read, and not looked at")
    }

    fn consume(&mut self, _: usize) {}
}

impl Seek for Endless {
    fn seek(&mut self, to: SeekFrom) -> io::Result<u64> {
        self.place = match to {
            SeekFrom::Start(place) => place,
            SeekFrom::Current(_) => self.place,
            SeekFrom::End(_) => u64::MAX >> 1,
        };
        Ok(self.place)
    }
}

#[test]
fn a_walk_without_end_is_refused() {
    for segment in [4, 3 * 4096] {
        let mut endless = Endless {
            segment,
            place: 0,
            given: 0,
        };
        let refused = reader_size(&mut endless).expect_err("no size");
        assert_eq!(refused.to_string(), "Read budget is spent");
        assert_eq!(endless.given, 64 << 20);
    }
}

#[test]
fn a_reader_that_stands_behind_its_end_holds_no_image() {
    let mut reader = Cursor::new(jpeg(0, 2));
    reader.set_position(1 << 40);
    for answer in [
        reader_type(&mut reader).err(),
        reader_size(&mut reader).err(),
    ] {
        assert_eq!(
            answer.map(|error| error.to_string()),
            Some("failed to fill whole buffer".into())
        );
        reader.set_position(u64::MAX);
    }
}

/// A reader that claims to have read more bytes than its buffer has.
struct Boastful;

impl Read for Boastful {
    fn read(&mut self, block: &mut [u8]) -> io::Result<usize> {
        Ok(block.len() + 1)
    }
}

impl Seek for Boastful {
    fn seek(&mut self, to: SeekFrom) -> io::Result<u64> {
        Ok(if matches!(to, SeekFrom::End(_)) {
            100
        } else {
            0
        })
    }
}

impl BufRead for Boastful {
    fn fill_buf(&mut self) -> io::Result<&[u8]> {
        Ok(&[])
    }

    fn consume(&mut self, _: usize) {}
}

#[test]
fn a_reader_that_claims_more_than_its_buffer_is_an_error() {
    let calls = [
        reader_size(&mut Boastful).map(|_| ()),
        reader_type(Boastful).map(|_| ()),
        ImageType::Gif.reader_size(&mut Boastful).map(|_| ()),
    ];
    for call in calls {
        match call {
            Err(ImageError::IoError(error)) => assert_eq!(error.kind(), ErrorKind::InvalidData),
            other => panic!("{other:?}"),
        }
    }
}
