//! `size COUNT FILE [stream]`: as many calls of `imagesize::size` on a file, for a tool that counts their instructions and system
//! calls. With `stream` the calls are those of `imagesize::stream_size`.

use imagesize::{ImageResult, ImageSize};
use std::env;
use std::fs::File;
use std::hint::black_box;

fn of_stream(path: &str) -> ImageResult<ImageSize> {
    imagesize::stream_size(File::open(path)?)
}

fn main() {
    let words: Vec<String> = env::args()
        .skip(1)
        .filter(|word| word != "--bench")
        .collect();
    let (count, path, call): (_, _, fn(&str) -> ImageResult<ImageSize>) = match &words[..] {
        [count, path] => (count, path, |path| imagesize::size(path)),
        [count, path, word] if word == "stream" => (count, path, of_stream),
        _ => return,
    };
    for _ in 0..count.parse().expect("a number of calls") {
        let _ = black_box(call(path));
    }
}
