//! How images of several ways to store pixels store them.

/// Defines an enum. Each value has the number that `include/imagesize.h` gives it.
macro_rules! numbered {
    (
        $(#[$about:meta])*
        pub enum $name:ident { $($(#[$value_about:meta])* $value:ident = $number:literal,)* }
    ) => {
        $(#[$about])*
        #[derive(Clone, Copy, Debug, PartialEq, Eq, PartialOrd, Ord, Hash)]
        pub enum $name { $($(#[$value_about])* $value,)* }

        impl $name {
            pub(crate) fn number(self) -> u32 {
                match self { $($name::$value => $number,)* }
            }

            pub(crate) fn numbered(number: u32) -> Option<$name> {
                match number { $($number => Some($name::$value),)* _ => None }
            }
        }
    };
}

numbered! {
    /// How an ATC texture stores its pixels.
    pub enum AtcCompression {
        /// No alpha.
        Rgb = 2,
        /// Alpha as it is.
        RgbaExplicit = 3,
        /// Alpha between two values of its block.
        RgbaInterpolated = 4,
        /// None of these.
        Unknown = 1,
    }
}

numbered! {
    /// How a DDS stores its pixels.
    pub enum DdsCompression {
        /// BC1, which is DXT1.
        Bc1 = 5,
        /// BC2, which is DXT3. The same with premultiplied alpha, DXT2, is `Unknown`.
        Bc2 = 6,
        /// BC3, which is DXT5. The same with premultiplied alpha, DXT4, is `Unknown`.
        Bc3 = 7,
        /// BC4, of one channel.
        Bc4 = 8,
        /// BC5, of two channels.
        Bc5 = 9,
        /// BC6H, of floats.
        Bc6h = 10,
        /// BC7.
        Bc7 = 11,
        /// 32 bits a pixel, with alpha.
        Rgba32 = 12,
        /// 24 bits a pixel.
        Rgb24 = 13,
        /// None of these.
        Unknown = 1,
    }
}

numbered! {
    /// How a HEIF stores its pixels.
    pub enum Compression {
        /// AV1, as in AVIF.
        Av1 = 14,
        /// HEVC, as in HEIC.
        Hevc = 15,
        /// JPEG.
        Jpeg = 16,
        /// None of these.
        Unknown = 1,
    }
}

numbered! {
    /// How a PKM file stores its pixels.
    pub enum PkmCompression {
        /// ETC1.
        Etc1 = 17,
        /// ETC2 with no alpha.
        Etc2 = 18,
        /// ETC2 with one bit of alpha.
        Etc2A1 = 19,
        /// ETC2 with eight bits of alpha.
        Etc2A8 = 20,
        /// EAC of one channel.
        EacR = 21,
        /// EAC of two channels.
        EacRg = 22,
        /// EAC of one signed channel.
        EacRSigned = 23,
        /// EAC of two signed channels.
        EacRgSigned = 24,
        /// None of these.
        Unknown = 1,
    }
}

numbered! {
    /// How a PowerVR texture stores its pixels.
    pub enum PvrtcCompression {
        /// PVRTC of 2 bits a pixel, with no alpha.
        Pvrtc2BppRgb = 25,
        /// PVRTC of 2 bits a pixel, with alpha.
        Pvrtc2BppRgba = 26,
        /// PVRTC of 4 bits a pixel, with no alpha.
        Pvrtc4BppRgb = 27,
        /// PVRTC of 4 bits a pixel, with alpha.
        Pvrtc4BppRgba = 28,
        /// ETC2 with no alpha.
        Etc2Rgb = 29,
        /// ETC2 with eight bits of alpha.
        Etc2Rgba = 30,
        /// ETC2 with one bit of alpha.
        Etc2RgbA1 = 31,
        /// EAC of one channel.
        EacR11 = 32,
        /// EAC of two channels.
        EacRg11 = 33,
        /// None of these.
        Unknown = 1,
    }
}

/// What the ways to store a texture's pixels have in common, across containers.
#[derive(Clone, Copy, Debug, PartialEq, Eq, PartialOrd, Ord, Hash)]
pub enum CompressionFamily {
    /// The block compressions BC1 to BC7.
    BlockCompression,
    /// ETC1 and ETC2.
    Etc,
    /// EAC, of one or two channels.
    Eac,
    /// PVRTC.
    Pvrtc,
    /// ASTC.
    Astc,
    /// ATC.
    Atc,
    /// No compression.
    Uncompressed,
}
