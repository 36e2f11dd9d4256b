//! An index of a gallery: the images of a folder with their sizes, the largest first.
//!
//!     gallery FOLDER

use imagesize::{size, ImageError, ImageSize};
use std::error::Error;
use std::path::PathBuf;
use std::{env, fs};

fn index(folder: &str) -> Result<Vec<(ImageSize, PathBuf)>, Box<dyn Error>> {
    let mut images = Vec::new();
    for entry in fs::read_dir(folder)? {
        let path = entry?.path();
        match size(&path) {
            Ok(size) => images.push((size, path)),
            Err(ImageError::NotSupported) => {}
            Err(error) => eprintln!("{}: {error}", path.display()),
        }
    }
    images.sort();
    images.reverse();
    Ok(images)
}

fn main() -> Result<(), Box<dyn Error>> {
    let folder = env::args().nth(1).unwrap_or_else(|| ".".to_string());
    for (ImageSize { width, height }, path) in index(&folder)? {
        println!("{width}x{height} {}", path.display());
    }
    Ok(())
}
