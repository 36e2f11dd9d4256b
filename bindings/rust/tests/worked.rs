//! Each test vector of the repository, through each call.

use imagesize::{blob_size, image_type, reader_size, reader_type, size, stream_probe};
use imagesize::{
    AtcCompression, ImageError, ImageResult, ImageSize, ImageType, Probed, StreamProbe,
};
use std::fs::{self, File};
use std::io::{self, BufRead, BufReader, Cursor, ErrorKind, Read, Seek, SeekFrom};
use std::path::{Path, PathBuf};

/// A PNG that ends before its size. The table has the result of the calls that leave PNG out.
const PNG: &[u8] = b"\x89PNG\r\n\x1a\n\0\0\0\r";

/// A file of the repository, which the package of a release has in its folder `vendor`.
fn shared(path: &str) -> String {
    let package = Path::new(env!("CARGO_MANIFEST_DIR"));
    let name = path.rsplit('/').next().unwrap_or(path);
    fs::read_to_string(package.join("vendor").join(name))
        .or_else(|_| fs::read_to_string(package.join("../..").join(path)))
        .expect("a file that examples/run or a release has")
}

/// The bytes of each test vector, and the line that is printed of it.
fn rows() -> Vec<(Vec<u8>, String)> {
    let text = shared("examples/out/worked.tsv");
    text.lines()
        .map(|row| {
            let mut cells = row.split('\t');
            let mut cell = || cells.next().expect("three cells in a row");
            match (bytes(cell()), cell()) {
                (bytes, _) if cfg!(feature = "png") && bytes == PNG => {
                    (bytes, "Png: failed to fill whole buffer".to_string())
                }
                (bytes, line) => (bytes, line.to_string()),
            }
        })
        .collect()
}

/// The bytes of each input that README says may surprise, and the line that is printed of it.
fn surprises() -> Vec<(Vec<u8>, String)> {
    let text = shared("examples/surprises.tsv");
    text.lines()
        .filter(|line| !line.starts_with('#'))
        .map(|row| {
            let cells: Vec<&str> = row.split('\t').collect();
            (bytes(cells[1]), cells[2].to_string())
        })
        .collect()
}

/// The bytes of a text in hex, which is `-` for none.
fn bytes(hex: &str) -> Vec<u8> {
    let digits = hex.strip_prefix('-').unwrap_or(hex);
    let byte = |at| u8::from_str_radix(&digits[at..at + 2], 16).expect("two digits a byte");
    (0..digits.len()).step_by(2).map(byte).collect()
}

/// The line that is printed of a type and a size.
fn line(kind: ImageResult<ImageType>, size: ImageResult<ImageSize>) -> String {
    match (kind, size) {
        (Ok(kind), Ok(ImageSize { width, height })) => format!("{kind:?} {width}x{height}"),
        (Ok(kind), Err(error)) => format!("{kind:?}: {error}"),
        (Err(_), Ok(_)) => "a size of no type".to_string(),
        (Err(kind), Err(size)) => {
            assert_eq!(kind.to_string(), size.to_string());
            size.to_string()
        }
    }
}

fn line_of(found: Probed) -> String {
    line(found.image_type(), found.size())
}

/// What a stream finds in these bytes, in pieces of this many. It finds the same in each later piece and at the end.
fn streamed(data: &[u8], piece: usize, total: Option<u64>) -> Probed {
    let mut probe = StreamProbe::new(total);
    let pushed: Vec<_> = data.chunks(piece).map(|chunk| probe.push(chunk)).collect();
    let ended = probe.finish();
    let mut found = pushed.into_iter().skip_while(Option::is_none);
    assert!(found.all(|later| later == Some(ended)));
    ended
}

/// A reader that gives one byte a read.
struct Trickle(Cursor<Vec<u8>>);

impl Read for Trickle {
    fn read(&mut self, room: &mut [u8]) -> io::Result<usize> {
        let one = room.len().min(1);
        self.0.read(&mut room[..one])
    }
}

impl BufRead for Trickle {
    fn fill_buf(&mut self) -> io::Result<&[u8]> {
        let rest = self.0.fill_buf()?;
        Ok(&rest[..rest.len().min(1)])
    }

    fn consume(&mut self, count: usize) {
        self.0.consume(count);
    }
}

impl Seek for Trickle {
    fn seek(&mut self, to: SeekFrom) -> io::Result<u64> {
        self.0.seek(to)
    }
}

/// A file in a folder of its own for this run, which is removed with it.
struct Scratch(PathBuf);

impl Scratch {
    fn new(name: &str, data: &[u8]) -> Scratch {
        let path = std::env::temp_dir().join(format!("imagesize-{}-{name}", std::process::id()));
        fs::write(&path, data).expect("a file that can be written");
        Scratch(path)
    }
}

impl Drop for Scratch {
    fn drop(&mut self) {
        let _ = fs::remove_file(&self.0);
    }
}

#[test]
fn bytes_have_the_worked_answers() {
    for (data, wanted) in rows() {
        assert_eq!(line(image_type(&data), blob_size(&data)), wanted);
    }
}

#[test]
fn what_may_surprise_is_as_the_readme_says() {
    assert_eq!(surprises().len(), 14);
    for (data, wanted) in surprises() {
        assert_eq!(line(image_type(&data), blob_size(&data)), wanted);
        let cursor = || Cursor::new(&data);
        assert_eq!(line(reader_type(cursor()), reader_size(cursor())), wanted);
    }
}

#[test]
fn readers_have_the_worked_answers() {
    for (data, wanted) in rows() {
        let cursor = || Cursor::new(&data);
        assert_eq!(line(reader_type(cursor()), reader_size(cursor())), wanted);
        let trickle = || Trickle(Cursor::new(data.clone()));
        assert_eq!(line(reader_type(trickle()), reader_size(trickle())), wanted);
    }
}

#[test]
fn files_have_the_worked_answers() {
    for (data, wanted) in rows() {
        let file = Scratch::new("worked", &data);
        let open = || BufReader::new(File::open(&file.0).expect("the file"));
        assert_eq!(line(reader_type(open()), reader_size(open())), wanted);
        assert_eq!(line(image_type(&data), size(&file.0)), wanted);
    }
}

#[test]
fn streams_have_the_worked_answers() {
    for (data, wanted) in rows() {
        for piece in [1, 2, 3, 7, 4096, data.len().max(1)] {
            for total in [None, Some(data.len() as u64)] {
                let found = streamed(&data, piece, total);
                assert_eq!(line_of(found), wanted, "{piece} of {total:?}");
            }
        }
        for stream in [
            &mut &data[..] as &mut dyn Read,
            &mut Trickle(Cursor::new(data.clone())),
        ] {
            let (found, read) = stream_probe(stream).expect("a reader that does not fail");
            assert_eq!(line_of(found), wanted);
            assert!(read <= data.len() as u64);
        }
    }
}

#[test]
fn a_stream_of_known_length_has_its_answer_with_the_last_byte() {
    for (data, wanted) in rows() {
        let mut probe = StreamProbe::new(Some(data.len() as u64));
        let found = probe.push(&[&data[..], b"and bytes past the end"].concat());
        assert_eq!(line_of(found.expect("the whole input")), wanted);
    }
}

#[test]
fn a_stream_that_ends_has_the_answer_of_its_bytes() {
    for (data, _) in rows().into_iter().filter(|row| row.0.len() <= 200) {
        for front in (0..=data.len()).map(|end| &data[..end]) {
            let wanted = line(image_type(front), blob_size(front));
            for total in [None, Some(data.len() as u64)] {
                assert_eq!(line_of(streamed(front, 5, total)), wanted, "{front:?}");
            }
        }
    }
}

#[test]
fn an_image_may_begin_where_the_reader_stands() {
    for (data, wanted) in rows() {
        let behind = [&[0xAB; 5000], &data[..]].concat();
        let mut reader = Cursor::new(behind);
        reader.set_position(5000);
        let kind = reader_type(&mut reader);
        reader.set_position(5000);
        assert_eq!(line(kind, reader_size(&mut reader)), wanted);
    }
}

#[test]
fn a_type_reads_the_size_wherever_the_reader_stands() {
    for (data, wanted) in rows() {
        let mut reader = Cursor::new(&data);
        let Ok(kind) = reader_type(&mut reader) else {
            continue;
        };
        reader.set_position(7);
        assert_eq!(line(Ok(kind), kind.reader_size(&mut reader)), wanted);
    }
}

#[test]
fn bytes_of_another_type_are_read_as_this_one() {
    let texture = ImageType::Atc(AtcCompression::Rgb);
    let rows: [(&[u8], ImageType, &str); 6] = [
        (b"GIF89ad\0d\0\0\0", texture, "100x6578489"),
        (b"GIF89ad\0d\0\0\0", ImageType::Gif, "100x100"),
        (
            b"P6\n640 480\n255\n",
            ImageType::Hdr,
            "Invalid HDR format identifier",
        ),
        (
            b"\0\0\x01\0\x01\0\x10",
            ImageType::Ico,
            "Hit end of file before finding size",
        ),
        (
            b"\0\0\x01\0\x01",
            ImageType::Ico,
            "failed to fill whole buffer",
        ),
        (b"", ImageType::Gif, "failed to fill whole buffer"),
    ];
    for (bytes, kind, wanted) in rows {
        let found = match kind.reader_size(&mut Cursor::new(bytes)) {
            Ok(ImageSize { width, height }) => format!("{width}x{height}"),
            Err(error) => error.to_string(),
        };
        assert_eq!(found, wanted, "{bytes:?} as {kind:?}");
    }
}

#[test]
fn no_type_refuses_the_bytes_of_another() {
    let kinds = || {
        rows()
            .into_iter()
            .filter_map(|(data, _)| image_type(&data).ok())
    };
    for (data, wanted) in rows() {
        for kind in kinds() {
            let answer = kind.reader_size(&mut Cursor::new(&data));
            assert!(
                !matches!(answer, Err(ImageError::NotSupported)),
                "{wanted} as {kind:?}"
            );
        }
    }
}

#[test]
fn refusals_have_the_kinds_of_the_crate() {
    for (data, wanted) in rows() {
        let Err(ImageError::IoError(error)) = blob_size(&data) else {
            continue;
        };
        let ends = ["failed to fill whole buffer", "Not enough data"];
        let kind = match ends.iter().any(|text| wanted.ends_with(text)) {
            true => ErrorKind::UnexpectedEof,
            false => ErrorKind::InvalidData,
        };
        assert_eq!(error.kind(), kind, "{wanted}");
    }
}

/// Numbers without a pattern, the same in each run.
struct Numbers(u64);

impl Numbers {
    fn below(&mut self, limit: usize) -> usize {
        self.0 ^= self.0 << 13;
        self.0 ^= self.0 >> 7;
        self.0 ^= self.0 << 17;
        (self.0 % limit as u64) as usize
    }
}

#[test]
fn changed_inputs_of_many_blocks_have_the_answers_of_their_bytes() {
    let mut numbers = Numbers(0x9E37_79B9_7F4A_7C15);
    for (worked, _) in rows().into_iter().filter(|row| !row.0.is_empty()) {
        for _ in 0..50 {
            let mut data = worked.clone();
            for _ in 0..1 + numbers.below(3) {
                // A length that grows leads to another block.
                let place = numbers.below(data.len());
                data[place] = numbers.below(256) as u8;
            }
            data.resize(worked.len() + numbers.below(80_000), 0);
            let wanted = line(image_type(&data), blob_size(&data));
            let cursor = || Cursor::new(&data);
            assert_eq!(line(reader_type(cursor()), reader_size(cursor())), wanted);
            let piece = 1 + numbers.below(10_000);
            assert_eq!(line_of(streamed(&data, piece, None)), wanted);
        }
    }
}
