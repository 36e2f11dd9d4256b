//! The types of images, with their compressions and containers.

use crate::compression::{
    AtcCompression, Compression, CompressionFamily, DdsCompression, PkmCompression,
    PvrtcCompression,
};
use crate::input::Input;
use crate::{sys, ImageResult, ImageSize};
use std::io::{BufRead, Seek};

/// One of two words: the second, where there is the first.
macro_rules! second {
    ($first:tt, $second:tt) => {
        $second
    };
}

/// The numbers of a type, and of its compression where it has several.
macro_rules! numbers {
    ($number:literal) => {
        ($number, 0)
    };
    ($number:literal, $compression:expr) => {
        ($number, $compression.number())
    };
}

/// The type whose compression has this number. The number is 0 for a type without one.
macro_rules! of_compression {
    ($type:path, $number:expr) => {
        ($number == 0).then_some($type)
    };
    ($type:path, $number:expr, $compression:ident) => {
        $compression::numbered($number).map($type)
    };
}

/// Defines the types. Each has the number that `include/imagesize.h` gives it. PNG has one of its own.
macro_rules! types {
    (
        $(#[$about:meta])*
        pub enum $name:ident { $($(#[$type_about:meta])* $type:ident $(($compression:ident))? = $number:literal,)* }
    ) => {
        $(#[$about])*
        #[derive(Clone, Copy, Debug, PartialEq, Eq, PartialOrd, Ord, Hash)]
        pub enum $name { $($(#[$type_about])* $type $(($compression))?,)* }

        impl $name {
            /// The numbers of the type and of its compression.
            #[allow(unused_doc_comments)]
            pub(crate) fn numbers(&self) -> (u32, u32) {
                match self {
                    $($(#[$type_about])* $name::$type $((second!($compression, compression)))? =>
                        numbers!($number $(, second!($compression, compression))?),)*
                }
            }

            /// The type that has these numbers.
            #[allow(unused_doc_comments)]
            pub(crate) fn numbered(kind: u32, compression: u32) -> Option<$name> {
                match kind {
                    $($(#[$type_about])* $number => of_compression!($name::$type, compression $(, $compression)?),)*
                    _ => None,
                }
            }
        }
    };
}

types! {
    /// A type of image, with its compression if the type has one.
    ///
    /// Types are ordered as in the list below, and values of one type by their compressions.
    pub enum ImageType {
        // by bindings/lists.py: types
        /// Aseprite: animated sprites of the editor.
        Aseprite = 1,
        /// ASTC: adaptive scalable texture compression.
        Astc = 2,
        /// ATC: a texture, in a PKM file.
        Atc(AtcCompression) = 3,
        /// BMP: Windows bitmap.
        Bmp = 4,
        /// DDS: DirectDraw surface.
        Dds(DdsCompression) = 5,
        /// EAC: a texture, in a PKM file.
        Eac(PkmCompression) = 6,
        /// ETC2: a texture in ETC1 or ETC2, in a PKM file.
        Etc2(PkmCompression) = 7,
        /// OpenEXR.
        Exr = 8,
        /// Farbfeld.
        Farbfeld = 9,
        /// GIF: graphics interchange format.
        Gif = 10,
        /// HDR: Radiance RGBE.
        Hdr = 11,
        /// HEIF (HEIC, AVIF).
        Heif(Compression) = 12,
        /// ICO: Windows icon.
        Ico = 13,
        /// ILBM: interleaved bitmap, in an IFF file.
        Ilbm = 14,
        /// JPEG.
        Jpeg = 15,
        /// JPEG XL.
        Jxl = 16,
        /// KTX 2: Khronos texture, version 2.
        Ktx2 = 17,
        /// Portable network graphics, with the feature `png`.
        #[cfg(feature = "png")]
        Png = 1000,
        /// PNM: PBM, PGM and PPM.
        Pnm = 18,
        /// PVR: PowerVR texture.
        Pvrtc(PvrtcCompression) = 19,
        /// PSD: Photoshop document.
        Psd = 20,
        /// QOI: quite OK image.
        Qoi = 21,
        /// TGA: Truevision.
        Tga = 22,
        /// TIFF (BigTIFF).
        Tiff = 23,
        /// VTF: Valve texture.
        Vtf = 24,
        /// WebP.
        Webp = 25,
        // end of the list
    }
}

/// The names of all containers that the library knows.
const CONTAINERS: [&str; 6] = ["ASTC", "DDS", "HEIF", "KTX2", "PKM", "PowerVR"];

impl ImageType {
    /// Reads the size in pixels from the beginning of a reader, as a size of this type. The reader may be at any offset.
    ///
    /// The bytes may be of another type; they are still read by the layout of this one. The compression of the type does not
    /// matter. The reader's offset after the call is unspecified.
    ///
    /// # Errors
    ///
    /// The errors of [`reader_size`](crate::reader_size), except those about the type.
    ///
    /// ```
    /// use imagesize::ImageType;
    /// use std::io::Cursor;
    ///
    /// let mut reader = Cursor::new(b"GIF89a\x80\x02\xe0\x01\0\0");
    /// assert_eq!(ImageType::Gif.reader_size(&mut reader)?.height, 480);
    /// # Ok::<(), imagesize::ImageError>(())
    /// ```
    pub fn reader_size<R: BufRead + Seek>(&self, reader: &mut R) -> ImageResult<ImageSize> {
        Input::whole(reader)?.size_as(self)
    }

    /// The family of the compression, across types. It is `None` if the type is not a texture, or if the compression is
    /// unknown.
    ///
    /// ```
    /// use imagesize::{CompressionFamily, DdsCompression, ImageType};
    ///
    /// let texture = ImageType::Dds(DdsCompression::Bc7);
    /// assert_eq!(texture.compression_family(), Some(CompressionFamily::BlockCompression));
    /// ```
    pub fn compression_family(&self) -> Option<CompressionFamily> {
        Some(match sys::compression_family(self.numbers()) {
            1 => CompressionFamily::BlockCompression,
            2 => CompressionFamily::Etc,
            3 => CompressionFamily::Eac,
            4 => CompressionFamily::Pvrtc,
            5 => CompressionFamily::Astc,
            6 => CompressionFamily::Atc,
            7 => CompressionFamily::Uncompressed,
            _ => return None,
        })
    }

    /// Whether the image is a texture in one of the block compressions BC1 to BC7.
    ///
    /// ```
    /// use imagesize::{DdsCompression, ImageType};
    ///
    /// assert!(ImageType::Dds(DdsCompression::Bc7).is_block_compressed());
    /// ```
    pub fn is_block_compressed(&self) -> bool {
        sys::is_block_compressed(self.numbers())
    }

    /// The name of the container, for types whose images are in one.
    ///
    /// ```
    /// use imagesize::ImageType;
    ///
    /// assert_eq!(ImageType::Ktx2.container_format(), Some("KTX2"));
    /// ```
    pub fn container_format(&self) -> Option<&'static str> {
        let name = sys::container_format(self.numbers());
        CONTAINERS.into_iter().find(|known| *known == name)
    }

    /// Whether the container can hold textures of several compression families.
    ///
    /// ```
    /// use imagesize::ImageType;
    ///
    /// assert!(ImageType::Ktx2.is_multi_compression_container());
    /// ```
    pub fn is_multi_compression_container(&self) -> bool {
        sys::is_multi_compression_container(self.numbers())
    }
}
