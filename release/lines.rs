//! Prints the line of each file that is named, by the package that is a dependency.

fn main() {
    for path in std::env::args().skip(1) {
        let data = std::fs::read(&path).expect("the file");
        match (imagesize::image_type(&data), imagesize::size(&path)) {
            (Ok(kind), Ok(size)) => println!("{kind:?} {}x{}", size.width, size.height),
            (Ok(kind), Err(error)) => println!("{kind:?}: {error}"),
            (Err(error), _) => println!("{error}"),
        }
    }
}
