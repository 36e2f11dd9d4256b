//! A gate for uploads: the types that a site shows, of at most so many pixels.
//!
//!     gate FILE..

use imagesize::{Compression, ImageError, ImageSize, ImageType};
use std::fmt;
use std::fs::File;
use std::io::{BufRead, BufReader, Seek};

const MOST_PIXELS: usize = 50_000_000;

#[derive(Debug)]
enum Refusal {
    Type(ImageType),
    Pixels(ImageSize),
    Image(ImageError),
}

impl fmt::Display for Refusal {
    fn fmt(&self, f: &mut fmt::Formatter<'_>) -> fmt::Result {
        match self {
            Refusal::Type(kind) => write!(f, "{kind:?} is not taken here"),
            Refusal::Pixels(size) => write!(f, "{}x{} is too large", size.width, size.height),
            Refusal::Image(error) => error.fmt(f),
        }
    }
}

impl From<ImageError> for Refusal {
    fn from(error: ImageError) -> Refusal {
        Refusal::Image(error)
    }
}

fn admit<R: BufRead + Seek>(upload: &mut R) -> Result<ImageSize, Refusal> {
    let kind = imagesize::reader_type(&mut *upload)?;
    match kind {
        ImageType::Jpeg | ImageType::Gif | ImageType::Webp => {}
        #[cfg(feature = "png")]
        ImageType::Png => {}
        ImageType::Heif(Compression::Av1) => {}
        other => return Err(Refusal::Type(other)),
    }
    let size = kind.reader_size(upload)?;
    match size.width.checked_mul(size.height) {
        Some(pixels) if pixels <= MOST_PIXELS => Ok(size),
        _ => Err(Refusal::Pixels(size)),
    }
}

fn main() -> std::io::Result<()> {
    for name in std::env::args().skip(1) {
        let mut upload = BufReader::new(File::open(&name)?);
        match admit(&mut upload) {
            Ok(size) => println!("{name}: taken, {}x{}", size.width, size.height),
            Err(refusal) => println!("{name}: {refusal}"),
        }
    }
    Ok(())
}
