//! PNG is tried first: whole files, cut ones, and others that begin like one.
#![cfg(feature = "png")]

use imagesize::{
    blob_size, image_type, reader_size, reader_type, size, stream_probe, stream_size, ImageError,
    ImageResult, ImageSize, ImageType, StreamProbe,
};
use std::io::{self, Cursor, Write};
use std::process::{Command, Stdio};

// The signature, and the image header of an image of 640 by 480.
const PNG: &[u8] = b"\x89PNG\r\n\x1a\n\0\0\0\x0dIHDR\0\0\x02\x80\0\0\x01\xe0\x08\0\0\0\0";

const SIZE: ImageSize = ImageSize {
    width: 640,
    height: 480,
};

fn ends<T>(answer: ImageResult<T>) -> bool {
    matches!(answer, Err(ImageError::IoError(error)) if error.kind() == io::ErrorKind::UnexpectedEof)
}

fn is_unknown<T>(answer: ImageResult<T>) -> bool {
    matches!(answer, Err(ImageError::NotSupported))
}

#[test]
fn a_png_has_the_size_in_its_header() -> ImageResult<()> {
    let path = std::env::temp_dir().join(format!("imagesize-png-{}.png", std::process::id()));
    std::fs::write(&path, PNG)?;
    let of_file = size(&path);
    std::fs::remove_file(&path)?;
    assert_eq!(of_file?, SIZE);
    assert_eq!(blob_size(PNG)?, SIZE);
    assert_eq!(image_type(PNG)?, ImageType::Png);
    assert_eq!(image_type(&PNG[..8])?, ImageType::Png);
    assert_eq!(reader_size(Cursor::new(PNG))?, SIZE);
    assert_eq!(reader_type(Cursor::new(PNG))?, ImageType::Png);
    let mut behind = Cursor::new([b"abc", PNG].concat());
    behind.set_position(3);
    assert_eq!(reader_size(&mut behind)?, SIZE);
    Ok(())
}

#[test]
fn a_png_that_is_cut_ends() {
    for length in 0..24 {
        let cut = &PNG[..length];
        assert!(ends(blob_size(cut)), "{length}");
        assert!(ends(reader_size(Cursor::new(cut))), "{length}");
        assert_eq!(
            image_type(cut).ok(),
            (length >= 8).then_some(ImageType::Png)
        );
        assert!(ends(ImageType::Png.reader_size(&mut Cursor::new(cut))));
    }
}

#[test]
fn a_png_comes_in_pieces() -> ImageResult<()> {
    for total in [None, Some(PNG.len() as u64), Some(u64::MAX)] {
        for piece in 1..=PNG.len() {
            let mut probe = StreamProbe::new(total);
            let found: Vec<_> = PNG.chunks(piece).map(|chunk| probe.push(chunk)).collect();
            // The size ends with byte 24.
            for (at, found) in found.iter().enumerate() {
                assert_eq!(found.is_some(), (at + 1) * piece >= 24, "{at} of {piece}");
            }
            let ended = probe.finish();
            assert_eq!((ended.image_type()?, ended.size()?), (ImageType::Png, SIZE));
            assert!(found.into_iter().flatten().all(|found| found == ended));
        }
    }
    assert_eq!(stream_size(PNG)?, SIZE);
    Ok(())
}

#[test]
fn a_png_that_is_cut_ends_in_a_stream() {
    for length in 0..24 {
        let cut = &PNG[..length];
        let wanted = (length >= 8).then_some(ImageType::Png);
        let (found, read) = stream_probe(cut).expect("a reader that does not fail");
        assert_eq!((found.image_type().ok(), read), (wanted, length as u64));
        assert!(ends(found.size()), "{length}");
        // The bytes that are known to be the last ones have the result at once.
        let found = StreamProbe::new(Some(length as u64)).push(PNG);
        let found = found.expect("all bytes");
        assert_eq!(found.image_type().ok(), wanted);
        assert!(ends(found.size()), "{length}");
    }
}

#[test]
fn others_with_a_part_of_the_signature_are_none() {
    for bytes in [
        b"\x89PNG\r\n\x1a\r\0\0\0\x0dIHDR\0\0\x02\x80\0\0\x01\xe0",
        b"\x89PNG another file here..",
        b"\x09PNG\r\n\x1a\n\0\0\0\x0dIHDR\0\0\x02\x80\0\0\x01\xe0",
        b"\x8aMNG\r\n\x1a\n\0\0\0\x1cMHDR\0\0\x02\x80\0\0\x01\xe0",
    ] {
        assert!(is_unknown(blob_size(bytes)));
        assert!(is_unknown(image_type(bytes)));
        assert!(is_unknown(reader_size(Cursor::new(bytes))));
        assert!(is_unknown(reader_type(Cursor::new(bytes))));
        assert!(is_unknown(stream_size(&bytes[..])));
    }
}

#[test]
fn other_bytes_may_be_read_as_a_png() -> ImageResult<()> {
    let mut bytes = PNG.to_vec();
    bytes[..8].fill(7);
    assert!(is_unknown(blob_size(&bytes)));
    assert_eq!(ImageType::Png.reader_size(&mut Cursor::new(&bytes))?, SIZE);
    assert_eq!(
        ImageType::Gif.reader_size(&mut Cursor::new(PNG))?.width,
        0x0a1a
    );
    Ok(())
}

#[test]
fn the_queries_say_that_a_png_is_no_texture() {
    assert_eq!(ImageType::Png.compression_family(), None);
    assert_eq!(ImageType::Png.container_format(), None);
    assert!(!ImageType::Png.is_block_compressed());
    assert!(!ImageType::Png.is_multi_compression_container());
    assert!(ImageType::Ktx2 < ImageType::Png && ImageType::Png < ImageType::Pnm);
}

// What an encoder makes of a bitmap; nothing where there is no such program.
fn encoded(program: &str, arguments: &[&str], bitmap: &[u8]) -> io::Result<Vec<u8>> {
    let mut encoder = Command::new(program)
        .args(arguments)
        .stdin(Stdio::piped())
        .stdout(Stdio::piped())
        .spawn()?;
    encoder.stdin.take().expect("its input").write_all(bitmap)?;
    Ok(encoder.wait_with_output()?.stdout)
}

#[test]
fn files_of_encoders_have_their_size() -> ImageResult<()> {
    let bitmap = [b"P6 7 5 255\n".as_slice(), &[200; 3 * 7 * 5]].concat();
    let encoders: [(&str, &[&str]); 2] =
        [("pnmtopng", &[]), ("/usr/bin/convert", &["pnm:-", "png:-"])];
    for (program, arguments) in encoders {
        if let Ok(bytes) = encoded(program, arguments, &bitmap) {
            let size = blob_size(&bytes)?;
            assert_eq!((size.width, size.height), (7, 5), "{program}");
            assert_eq!(reader_type(Cursor::new(&bytes))?, ImageType::Png);
        }
    }
    Ok(())
}
