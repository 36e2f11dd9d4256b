//! What the types of the crate can do, and what the queries say.

use imagesize::{
    blob_size, AtcCompression, Compression, CompressionFamily, DdsCompression, ImageError,
    ImageResult, ImageSize, ImageType, PkmCompression, Probed, PvrtcCompression, StreamProbe,
};
use std::collections::{BTreeSet, HashSet};
use std::error::Error;
use std::fmt::Debug;
use std::hash::Hash;
use std::io;

fn is_plain<T: Copy + Debug + Ord + Hash + Send + Sync + 'static>() {}

#[test]
fn the_types_have_the_traits_of_the_crate() {
    is_plain::<ImageType>();
    is_plain::<ImageSize>();
    is_plain::<CompressionFamily>();
    is_plain::<AtcCompression>();
    is_plain::<Compression>();
    is_plain::<DdsCompression>();
    is_plain::<PkmCompression>();
    is_plain::<PvrtcCompression>();
}

#[test]
fn a_stream_can_be_sent_copied_and_printed() -> ImageResult<()> {
    fn is_sendable<T: Clone + Debug + Send + Sync + 'static>() {}
    is_sendable::<StreamProbe>();
    is_sendable::<Probed>();

    let mut probe = StreamProbe::new(None);
    assert_eq!(probe.push(b"GIF89a"), None);
    let mut sent = probe.clone();
    assert!(std::mem::size_of::<StreamProbe>() < 1400);
    assert_eq!(format!("{probe:?}"), "StreamProbe { .. }");
    let found = std::thread::spawn(move || sent.push(b"d\0e\0\0\0")).join();
    let found = found.expect("no panic").expect("a size");
    assert_eq!(found.size()?.height, 101);
    assert_eq!(
        format!("{found:?}"),
        "Probed { image_type: Ok(Gif), size: Ok(ImageSize { width: 100, height: 101 }) }"
    );
    assert!(probe.finish().size().is_err());
    Ok(())
}

#[test]
fn an_image_whose_records_are_malformed_has_its_own_error() {
    let icon_of_no_entries = b"\0\0\x01\0\0\0\0\0\0\0\0\0";
    assert!(matches!(
        blob_size(icon_of_no_entries),
        Err(ImageError::CorruptedImage)
    ));
    let text = b"no image, but a text";
    assert!(matches!(blob_size(text), Err(ImageError::NotSupported)));
}

#[test]
fn an_error_can_be_boxed_made_from_an_io_error_and_printed() {
    fn refused() -> ImageResult<ImageSize> {
        Err(io::Error::new(io::ErrorKind::PermissionDenied, "not yours"))?
    }
    let boxed: Box<dyn Error + Send + Sync> = refused().expect_err("an error").into();
    assert_eq!(boxed.to_string(), "not yours");
    assert!(boxed.source().is_none());
    let error = boxed.downcast::<ImageError>().expect("the error");
    assert!(
        matches!(*error, ImageError::IoError(error) if error.kind() == io::ErrorKind::PermissionDenied)
    );
    assert_eq!(
        ImageError::NotSupported.to_string(),
        "Could not decode image"
    );
    assert_eq!(
        ImageError::CorruptedImage.to_string(),
        "Hit end of file before finding size"
    );
}

#[test]
fn sizes_are_ordered_by_area_then_width_then_height() {
    let size = |width, height| ImageSize { width, height };
    let ordered = [
        size(0, 0),
        size(0, 9),
        size(9, 0),
        size(1, 1),
        size(2, 8),
        size(4, 4),
        size(1 << 32, 1 << 32),
        size(usize::MAX, usize::MAX),
    ];
    assert!(ordered.is_sorted_by(|a, b| a < b));
}

#[test]
fn types_are_ordered_as_they_are_listed() {
    let ordered = [
        ImageType::Aseprite,
        ImageType::Atc(AtcCompression::Rgb),
        ImageType::Atc(AtcCompression::Unknown),
        ImageType::Dds(DdsCompression::Rgb24),
        ImageType::Dds(DdsCompression::Unknown),
        ImageType::Heif(Compression::Av1),
        ImageType::Heif(Compression::Jpeg),
        ImageType::Heif(Compression::Unknown),
        ImageType::Webp,
    ];
    assert!(ordered.is_sorted_by(|a, b| a < b));
    assert_eq!(BTreeSet::from(ordered).len(), HashSet::from(ordered).len());
}

#[test]
fn the_queries_say_what_their_table_says() {
    use CompressionFamily::{Astc, Atc, BlockCompression, Eac, Etc, Pvrtc, Uncompressed};

    for (kind, family, container, many) in [
        (
            ImageType::Dds(DdsCompression::Bc1),
            Some(BlockCompression),
            Some("DDS"),
            true,
        ),
        (
            ImageType::Dds(DdsCompression::Bc7),
            Some(BlockCompression),
            Some("DDS"),
            true,
        ),
        (
            ImageType::Dds(DdsCompression::Rgb24),
            Some(Uncompressed),
            Some("DDS"),
            true,
        ),
        (
            ImageType::Dds(DdsCompression::Unknown),
            None,
            Some("DDS"),
            true,
        ),
        (
            ImageType::Etc2(PkmCompression::Etc1),
            Some(Etc),
            Some("PKM"),
            false,
        ),
        (
            ImageType::Eac(PkmCompression::EacRg),
            Some(Eac),
            Some("PKM"),
            false,
        ),
        (
            ImageType::Etc2(PkmCompression::Unknown),
            None,
            Some("PKM"),
            false,
        ),
        (
            ImageType::Pvrtc(PvrtcCompression::Pvrtc2BppRgb),
            Some(Pvrtc),
            Some("PowerVR"),
            true,
        ),
        (
            ImageType::Pvrtc(PvrtcCompression::Etc2Rgb),
            Some(Etc),
            Some("PowerVR"),
            true,
        ),
        (
            ImageType::Pvrtc(PvrtcCompression::EacR11),
            Some(Eac),
            Some("PowerVR"),
            true,
        ),
        (
            ImageType::Atc(AtcCompression::Unknown),
            Some(Atc),
            Some("PKM"),
            false,
        ),
        (ImageType::Astc, Some(Astc), Some("ASTC"), false),
        (ImageType::Heif(Compression::Av1), None, Some("HEIF"), false),
        (ImageType::Ktx2, None, Some("KTX2"), true),
        (ImageType::Gif, None, None, false),
    ] {
        assert_eq!(kind.compression_family(), family, "{kind:?}");
        assert_eq!(kind.is_block_compressed(), family == Some(BlockCompression));
        assert_eq!(kind.container_format(), container, "{kind:?}");
        assert_eq!(kind.is_multi_compression_container(), many, "{kind:?}");
    }
}
