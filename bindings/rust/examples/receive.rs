//! Passes an image from standard input to standard output, if it is not too large. Nothing is written before its size is known.
//!
//!     receive < photo.jpg > copy.jpg

use imagesize::{Probed, StreamProbe};
use std::error::Error;
use std::io::{self, Read, Write};

const MOST_PIXELS: usize = 40_000_000;

/// Reads up to the size. Returns it, and the bytes that were read.
fn receive(input: &mut impl Read) -> io::Result<(Probed, Vec<u8>)> {
    let (mut probe, mut received, mut block) = (StreamProbe::new(None), Vec::new(), [0; 4096]);
    loop {
        let count = input.read(&mut block)?;
        received.extend(&block[..count]);
        match probe.push(&block[..count]) {
            Some(found) => return Ok((found, received)),
            None if count == 0 => return Ok((probe.finish(), received)),
            None => {}
        }
    }
}

fn main() -> Result<(), Box<dyn Error>> {
    let (mut input, mut output) = (io::stdin().lock(), io::stdout().lock());
    let (found, received) = receive(&mut input)?;
    let size = found.size()?;
    if size.width.saturating_mul(size.height) > MOST_PIXELS {
        return Err(format!("{}x{} is too large", size.width, size.height).into());
    }
    output.write_all(&received)?;
    io::copy(&mut input, &mut output)?;
    Ok(())
}
