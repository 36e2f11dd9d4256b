//! The size of an image.

use std::cmp::Ordering;

/// The size of an image, in pixels.
///
/// Sizes are ordered by area, then by width, then by height.
///
/// ```
/// use imagesize::ImageSize;
///
/// let [wide, high] = [(8, 2), (4, 4)].map(|(width, height)| ImageSize { width, height });
/// assert!(wide > high);
/// ```
#[derive(Clone, Copy, Debug, PartialEq, Eq, Hash)]
pub struct ImageSize {
    /// The width in pixels.
    pub width: usize,
    /// The height in pixels.
    pub height: usize,
}

impl ImageSize {
    /// How many pixels there are, which 64 bits need not hold.
    fn area(&self) -> u128 {
        self.width as u128 * self.height as u128
    }
}

impl Ord for ImageSize {
    fn cmp(&self, other: &ImageSize) -> Ordering {
        let key = |size: &ImageSize| (size.area(), size.width, size.height);
        key(self).cmp(&key(other))
    }
}

impl PartialOrd for ImageSize {
    fn partial_cmp(&self, other: &ImageSize) -> Option<Ordering> {
        Some(self.cmp(other))
    }
}
