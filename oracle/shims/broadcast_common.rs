//! What the Rust module takes from the crate `broadcast-common`, and no more: two checks of a width and a macro that only displays.
#![no_std]

pub mod len {
    /// A value that its field cannot hold.
    #[derive(Debug, Clone, PartialEq, Eq)]
    pub struct FieldOverflow {
        pub field: &'static str,
    }

    pub fn fit_bits(v: u64, bits: u32, field: &'static str) -> Result<u64, FieldOverflow> {
        if v >> bits == 0 {
            Ok(v)
        } else {
            Err(FieldOverflow { field })
        }
    }

    pub fn fit_u8(v: usize, field: &'static str) -> Result<u8, FieldOverflow> {
        u8::try_from(v).map_err(|_| FieldOverflow { field })
    }
}

#[macro_export]
macro_rules! impl_spec_display {
    ($t:ty) => {};
}
