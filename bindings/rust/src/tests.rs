//! The numbers of this package are those of the library, by its own names and by its header.

use crate::{sys, CompressionFamily, ImageError, ImageType};
use std::collections::{HashMap, HashSet};

extern "C" {
    fn imagesize_type_name(
        kind: u32,
        compression: u32,
        text: *mut u8,
        capacity: usize,
        written: *mut usize,
    ) -> u32;
    fn imagesize_compression_name(
        kind: u32,
        compression: u32,
        text: *mut u8,
        capacity: usize,
        written: *mut usize,
    ) -> u32;
}

/// The name that the library gives a type, such as "Gif" or "Dds(Bc7)"; empty if no type has the numbers.
fn library_name(kind: u32, compression: u32) -> String {
    // SAFETY: `text` passes valid pointers.
    let [name, way] = [imagesize_type_name, imagesize_compression_name].map(|call| {
        sys::text(|text, capacity, written| unsafe {
            call(kind, compression, text, capacity, written)
        })
    });
    if way.is_empty() {
        name
    } else {
        format!("{name}({way})")
    }
}

/// A file of the repository, which the package of a release has in its folder `vendor`.
fn shared(path: &str) -> String {
    let package = std::path::Path::new(env!("CARGO_MANIFEST_DIR"));
    let name = path.rsplit('/').next().unwrap_or(path);
    std::fs::read_to_string(package.join("vendor").join(name))
        .or_else(|_| std::fs::read_to_string(package.join("../..").join(path)))
        .expect("a file that examples/run or a release has")
}

fn header_text() -> String {
    shared("include/imagesize.h")
}

/// The constants of the header, by their names without `IMAGESIZE_`.
fn header() -> HashMap<String, u32> {
    header_text()
        .lines()
        .filter_map(|line| line.trim().strip_prefix("IMAGESIZE_")?.split_once(" = "))
        .filter_map(|(name, value)| {
            let digits = value.split(|c: char| !c.is_ascii_digit()).next()?;
            Some((name.to_string(), digits.parse().ok()?))
        })
        .collect()
}

/// How many constants an enum of the header has.
fn header_count(name: &str) -> usize {
    header_text()
        .lines()
        .skip_while(|line| !line.starts_with(name))
        .take_while(|line| !line.starts_with('}'))
        .filter(|line| line.contains(" = "))
        .count()
}

#[test]
fn types_have_the_librarys_numbers() {
    let mut named = HashSet::new();
    for kind in 0..256 {
        for compression in 0..64 {
            let found = ImageType::numbered(kind, compression);
            let name = found.map_or(String::new(), |found| format!("{found:?}"));
            assert_eq!(name, library_name(kind, compression));
            if let Some(found) = found {
                assert_eq!(found.numbers(), (kind, compression));
                named.insert(kind);
            }
        }
    }
    assert_eq!(named.len(), header_count("enum imagesize_type_number"));
}

#[cfg(feature = "png")]
#[test]
fn png_has_a_number_that_the_library_has_not() {
    assert_eq!(ImageType::numbered(sys::PNG, 0), Some(ImageType::Png));
    assert_eq!(ImageType::Png.numbers(), (sys::PNG, 0));
    assert_eq!(ImageType::numbered(sys::PNG, 1), None);
    assert_eq!(library_name(sys::PNG, 0), "");
}

#[test]
fn statuses_are_those_of_the_header() {
    let header = header();
    for (name, status) in [
        ("ANSWERED", sys::ANSWERED),
        ("NOT_SUPPORTED", sys::NOT_SUPPORTED),
        ("CORRUPTED_IMAGE", sys::CORRUPTED_IMAGE),
        ("END_OF_INPUT", sys::END_OF_INPUT),
        ("NOT_ENOUGH_DATA", sys::NOT_ENOUGH_DATA),
        ("BUDGET_SPENT", sys::BUDGET_SPENT),
        ("BYTES_WANTED", sys::BYTES_WANTED),
    ] {
        assert_eq!(header.get(name), Some(&status), "{name}");
    }
}

#[test]
fn the_memory_of_a_probe_has_the_size_of_the_header() {
    for (name, size) in [("STREAM", sys::STREAM_SIZE), ("ROUNDS", sys::ROUNDS_SIZE)] {
        let define = format!("#define IMAGESIZE_{name}_SIZE {size}");
        assert!(header_text().lines().any(|line| line == define), "{define}");
    }
    assert_eq!(std::mem::size_of::<sys::Stream>(), sys::STREAM_SIZE);
    assert_eq!(std::mem::size_of::<sys::Rounds>(), sys::ROUNDS_SIZE);
    let aligned = std::mem::align_of::<u64>();
    assert_eq!(std::mem::align_of::<sys::Stream>(), aligned);
    assert_eq!(std::mem::align_of::<sys::Rounds>(), aligned);
}

#[test]
fn each_error_prints_its_status_text() {
    let statuses = header_count("enum imagesize_status") as u32;
    for status in 1..statuses {
        let text = sys::status_text(status);
        assert!(!text.is_empty(), "{status}");
        assert_eq!(ImageError::of_status(status).to_string(), text);
    }
    assert_eq!(sys::status_text(statuses), "");
}

#[test]
fn families_are_those_of_the_header() {
    let header = header();
    let families = (1..256).flat_map(|kind| (0..64).map(move |way| (kind, way)));
    for found in families.filter_map(|(kind, way)| ImageType::numbered(kind, way)) {
        let name = match found.compression_family() {
            None => "NO_FAMILY",
            Some(CompressionFamily::BlockCompression) => "FAMILY_BLOCK_COMPRESSION",
            Some(CompressionFamily::Etc) => "FAMILY_ETC",
            Some(CompressionFamily::Eac) => "FAMILY_EAC",
            Some(CompressionFamily::Pvrtc) => "FAMILY_PVRTC",
            Some(CompressionFamily::Astc) => "FAMILY_ASTC",
            Some(CompressionFamily::Atc) => "FAMILY_ATC",
            Some(CompressionFamily::Uncompressed) => "FAMILY_UNCOMPRESSED",
        };
        let number = sys::compression_family(found.numbers());
        assert_eq!(header.get(name), Some(&number), "{found:?}");
    }
}

/// The bytes of each test vector of the repository that is no PNG.
fn worked() -> Vec<Vec<u8>> {
    let text = shared("examples/out/worked.tsv");
    let digits = |row: &str| row.split('\t').next().map(|hex| hex.replace('-', ""));
    let byte = |digits: &str| u8::from_str_radix(digits, 16).expect("two digits a byte");
    text.lines()
        .filter_map(digits)
        .map(|hex| {
            (0..hex.len())
                .step_by(2)
                .map(|at| byte(&hex[at..at + 2]))
                .collect()
        })
        .filter(|bytes: &Vec<u8>| !bytes.starts_with(b"\x89PNG\r\n\x1a\n"))
        .collect()
}

/// The result of rounds that bring at most so many bytes of each requested span, and their number. Each span begins after the last one.
fn by_rounds(bytes: &[u8], most: u64) -> (sys::Told, usize) {
    let mut rounds = sys::Rounds::new(bytes.len() as u64);
    let (mut next, mut count) = (0, 0);
    loop {
        let span = match rounds.answer() {
            sys::Parts::Told(told) => return (told, count),
            sys::Parts::Wanted(span) => span,
        };
        count += 1;
        assert!(span.start >= next && span.len > 0 && span.start + span.len <= bytes.len() as u64);
        next = span.start + 1;
        let end = span.start + span.len.min(most);
        rounds.supply(span.start, &bytes[span.start as usize..end as usize]);
    }
}

#[test]
fn rounds_lead_to_the_result_of_the_whole() {
    let inputs = worked();
    assert!(inputs.len() > 200);
    for bytes in inputs {
        let total = bytes.len() as u64;
        let all = sys::Span {
            start: 0,
            len: total,
        };
        let whole = sys::probe_parts(&bytes, &[all], total).told();
        for most in [1, 5, u64::MAX] {
            let (told, _) = by_rounds(&bytes, most);
            assert!(Some(told) == whole, "{bytes:?}, {most}");
        }
    }
}

#[test]
fn a_record_takes_two_rounds_at_most() {
    for segments in [10, 100] {
        let segment = [&b"\xff\xe0\xff\xff"[..], &[0; 65533]].concat();
        let frame = &b"\xff\xc0\0\x11\x08\0\x05\0\x07\x03\x01\x22\0\x02\x11\x01\x03\x11\x01"[..];
        let bytes = [&b"\xff\xd8"[..], &segment.repeat(segments), frame].concat();
        let (told, rounds) = by_rounds(&bytes, u64::MAX);
        assert_eq!(told.size().expect("a size").width, 7);
        assert!(rounds <= 2 * segments + 4, "{rounds}");
    }
}

/// A trap fits no variant of its own: callers match all three.
#[test]
fn a_trap_is_an_error_of_its_own() {
    match ImageError::of_status(sys::TRAPPED) {
        ImageError::IoError(error) => {
            assert_eq!(error.kind(), std::io::ErrorKind::Other);
            assert!(error
                .get_ref()
                .is_some_and(|inner| inner.is::<crate::Trapped>()));
        }
        error => panic!("{error:?}"),
    }
    for status in (1..=31).chain([254, 256]) {
        let error = ImageError::of_status(status);
        assert!(
            !matches!(error, ImageError::IoError(error) if error.kind() == std::io::ErrorKind::Other),
            "{status}"
        );
    }
}
