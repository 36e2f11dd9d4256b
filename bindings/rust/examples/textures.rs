//! A checker of textures: how each stores its pixels, and whether its sides fit the blocks of its compression.
//!
//!     textures FILE..

use imagesize::{blob_size, image_type, CompressionFamily, ImageResult, ImageType};
use std::collections::BTreeMap;

/// The type of a texture, and what is to say of it.
fn findings(bytes: &[u8]) -> ImageResult<(ImageType, Vec<&'static str>)> {
    let kind = image_type(bytes)?;
    let size = blob_size(bytes)?;
    let mut findings = Vec::new();
    match kind.compression_family() {
        None => findings.push("no compression that is known"),
        Some(CompressionFamily::Uncompressed) => findings.push("not compressed"),
        Some(_) if kind.is_block_compressed() && (size.width % 4 != 0 || size.height % 4 != 0) => {
            findings.push("its sides are no multiples of 4")
        }
        Some(_) => {}
    }
    if size.width == 0 || size.height == 0 {
        findings.push("no pixels");
    }
    if findings.is_empty() {
        findings.push("fine");
    }
    Ok((kind, findings))
}

fn main() -> std::io::Result<()> {
    let mut counts: BTreeMap<ImageType, usize> = BTreeMap::new();
    for name in std::env::args().skip(1) {
        match findings(&std::fs::read(&name)?) {
            Ok((kind, findings)) => {
                *counts.entry(kind).or_default() += 1;
                let container = kind.container_format().unwrap_or("no container");
                println!("{name}: {kind:?} in {container}: {}", findings.join(", "));
            }
            Err(error) => println!("{name}: {error}"),
        }
    }
    for (kind, count) in counts {
        println!("{count} {kind:?}");
    }
    Ok(())
}
