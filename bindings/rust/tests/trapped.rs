//! A library each of whose calls is trapped. `bindings/rust/check` compiles the portable one with too little room for its stack, and
//! runs this test with it.

use imagesize::{
    blob_size, image_type, reader_size, reader_type, size, stream_probe, stream_size, ImageError,
    StreamProbe, Trapped,
};
use std::io::{Cursor, ErrorKind};

const GIF: &[u8] = b"GIF89a\x80\x02\xe0\x01\0\0";
const PNG: &[u8] = b"\x89PNG\r\n\x1a\n\0\0\0\rIHDR\0\0\0\x07\0\0\0\x05\x08\0\0\0\0";

fn check<T>(call: &str, result: Result<T, ImageError>) {
    match result {
        Err(ImageError::IoError(error)) => {
            assert_eq!(error.kind(), ErrorKind::Other, "{call}");
            assert!(
                error.get_ref().is_some_and(|inner| inner.is::<Trapped>()),
                "{call}"
            );
            assert_eq!(
                error.to_string(),
                "the portable library was trapped: this is a mistake in it",
                "{call}"
            );
        }
        Err(error) => panic!("{call}: {error:?}"),
        Ok(_) => panic!("{call} has a result"),
    }
}

#[test]
#[ignore = "it needs a library that is trapped"]
fn each_call_has_the_error_of_a_trap() {
    let path = std::env::temp_dir().join(format!("imagesize-trapped-{}.gif", std::process::id()));
    std::fs::write(&path, GIF).expect("a file");
    check("size", size(&path));
    std::fs::remove_file(&path).expect("the file");
    for image in [GIF, PNG] {
        check("blob_size", blob_size(image));
        check("reader_size", reader_size(Cursor::new(image)));
        check("stream_size", stream_size(image));
        let found = stream_probe(image).expect("the reader is read").0;
        check("stream_probe", found.size());
        let mut probe = StreamProbe::new(None);
        check("push", probe.push(image).expect("a result").size());
        check("finish", probe.finish().size());
    }
    check("image_type", image_type(GIF));
    check("reader_type", reader_type(Cursor::new(GIF)));
}
