// The Rust module, unchanged, with what it expects around it: its errors, and the tag of the descriptor that carries the bodies. The program that
// has this as `mod rust` says `extern crate alloc;` and `use rust::error;` in its root.
pub mod error {
    use broadcast_common::len::FieldOverflow;

    #[derive(Debug)]
    pub enum Error {
        BufferTooShort {
            need: usize,
            have: usize,
            what: &'static str,
        },
        InvalidDescriptor {
            tag: u8,
            reason: &'static str,
        },
        FieldOverflow(FieldOverflow),
    }

    impl From<FieldOverflow> for Error {
        fn from(x: FieldOverflow) -> Self {
            Error::FieldOverflow(x)
        }
    }

    pub type Result<T> = core::result::Result<T, Error>;
}

pub mod mpeg2_extension {
    pub const TAG: u8 = 0x3F;
}

#[path = "mpegh_3d_audio.rs"]
pub mod mpegh_3d_audio;
