//! What is no file of an image, and what a program written for the crate may do with the names.

use imagesize::{image_type, reader_size, size, stream_size, ImageError, ImageResult, ImageSize};
use std::fs::{self, File};
use std::io::{self, BufRead, BufReader, ErrorKind, Read, Seek, SeekFrom};
use std::path::{Path, PathBuf};

const GIF: &[u8] = b"GIF89a\x80\x02\xe0\x01\0\0";

/// A folder of its own for one test, which is removed with it.
struct Scratch(PathBuf);

impl Scratch {
    fn new(name: &str) -> Scratch {
        let path = std::env::temp_dir().join(format!("imagesize-{}-{name}", std::process::id()));
        fs::create_dir(&path).expect("a folder that can be made");
        Scratch(path)
    }

    fn file(&self, name: impl AsRef<Path>, bytes: &[u8]) -> PathBuf {
        let path = self.0.join(name);
        fs::write(&path, bytes).expect("a file that can be written");
        path
    }
}

impl Drop for Scratch {
    fn drop(&mut self) {
        let _ = fs::remove_dir_all(&self.0);
    }
}

fn io_error(answer: ImageResult<ImageSize>) -> io::Error {
    match answer {
        Err(ImageError::IoError(error)) => error,
        answer => panic!("{answer:?}"),
    }
}

#[test]
fn a_missing_file_is_the_error_of_the_system() {
    let folder = Scratch::new("missing");
    let error = io_error(size(folder.0.join("none.gif")));
    let system = File::open(folder.0.join("none.gif")).expect_err("no file");
    assert_eq!(error.raw_os_error(), system.raw_os_error());
    assert_eq!(error.kind(), ErrorKind::NotFound);
}

#[test]
fn an_empty_file_ends_too_early() {
    let folder = Scratch::new("empty");
    let error = io_error(size(folder.file("empty.gif", b"")));
    assert_eq!(error.kind(), ErrorKind::UnexpectedEof);
}

#[cfg(unix)]
#[test]
fn a_folder_is_the_error_of_the_system() {
    let folder = Scratch::new("folder");
    let error = io_error(size(&folder.0));
    assert!(error.raw_os_error().is_some(), "{error}");
}

#[cfg(unix)]
#[test]
fn a_pipe_is_the_error_of_the_system() {
    let folder = Scratch::new("pipe");
    let pipe = folder.0.join("pipe");
    let made = std::process::Command::new("mkfifo").arg(&pipe).status();
    assert!(made.is_ok_and(|status| status.success()), "a pipe");
    // No writer is waited for.
    let (found, seen) = std::sync::mpsc::channel();
    std::thread::spawn(move || found.send(io_error(size(&pipe)).kind()));
    let kind = seen.recv_timeout(std::time::Duration::from_secs(10));
    assert_eq!(kind, Ok(ErrorKind::NotSeekable));
}

#[cfg(unix)]
#[test]
fn a_pipe_is_read_as_a_stream() {
    let folder = Scratch::new("stream");
    let pipe = folder.0.join("pipe");
    let made = std::process::Command::new("mkfifo").arg(&pipe).status();
    assert!(made.is_ok_and(|status| status.success()), "a pipe");
    let name = pipe.clone();
    let writer = std::thread::spawn(move || fs::write(name, GIF));
    let found = stream_size(File::open(&pipe).expect("the pipe"));
    assert_eq!(found.ok().map(|size| size.width), Some(640));
    assert!(writer.join().is_ok_and(|wrote| wrote.is_ok()));
}

#[cfg(unix)]
#[test]
fn a_path_need_not_be_text() {
    use std::ffi::OsStr;
    use std::os::unix::ffi::OsStrExt;

    let folder = Scratch::new("names");
    let path = folder.file(OsStr::from_bytes(b"\xFF\xFE.gif"), GIF);
    assert_eq!(
        size(path).ok(),
        Some(ImageSize {
            width: 640,
            height: 480
        })
    );
}

#[test]
fn a_file_is_read_where_its_bytes_stand() {
    let directory = b"\x02\0\0\x01\x03\0\x01\0\0\0\x05\0\0\0\x01\x01\x04\0\x01\0\0\0\x07\0\0\0";
    let folder = Scratch::new("places");
    for place in [8, 4095, 4096, 10_000, 2_000_001_u32] {
        let mut tiff = [b"II*\0", &place.to_le_bytes()[..]].concat();
        tiff.resize(place as usize, 0);
        tiff.extend(directory);
        let found = size(folder.file("a.tif", &tiff)).ok();
        assert_eq!(
            found,
            Some(ImageSize {
                width: 5,
                height: 7
            }),
            "{place}"
        );
    }
}

/// A reader of a file that shrinks as soon as its length was asked for.
struct Shrinking(BufReader<File>);

impl Read for Shrinking {
    fn read(&mut self, room: &mut [u8]) -> io::Result<usize> {
        self.0.read(room)
    }
}

impl BufRead for Shrinking {
    fn fill_buf(&mut self) -> io::Result<&[u8]> {
        self.0.fill_buf()
    }

    fn consume(&mut self, count: usize) {
        self.0.consume(count);
    }
}

impl Seek for Shrinking {
    fn seek(&mut self, to: SeekFrom) -> io::Result<u64> {
        let place = self.0.seek(to)?;
        if let SeekFrom::End(_) = to {
            self.0.get_ref().set_len(8)?;
        }
        Ok(place)
    }
}

#[test]
fn a_file_that_shrinks_ends_too_early() {
    let folder = Scratch::new("shrinks");
    let path = folder.file("a.gif", GIF);
    let file = File::options()
        .read(true)
        .write(true)
        .open(path)
        .expect("the file");
    let error = io_error(reader_size(Shrinking(BufReader::new(file))));
    assert_eq!(error.kind(), ErrorKind::UnexpectedEof);
}

#[test]
fn calls_may_run_at_the_same_time() {
    let folder = Scratch::new("threads");
    let image = folder.file("a.gif", GIF);
    std::thread::scope(|threads| {
        for _ in 0..8 {
            threads.spawn(|| {
                for _ in 0..500 {
                    assert!(size(&image).is_ok() && image_type(GIF).is_ok());
                }
            });
        }
    });
}
