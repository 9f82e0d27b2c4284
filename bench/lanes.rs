//! Values of a width among packed bytes, read and written one by one, for the comparisons in plain Rust.

pub trait Lane {
    fn read(bytes: &[u8], at: usize) -> i64;
    fn write(bytes: &mut [u8], at: usize, value: i64);
}

pub struct Narrow<const BITS: usize>;

impl<const BITS: usize> Lane for Narrow<BITS> {
    fn read(bytes: &[u8], at: usize) -> i64 {
        let per = 8 / BITS;
        i64::from((bytes[at / per] >> (BITS * (at % per))) & ((1 << BITS) - 1))
    }
    fn write(bytes: &mut [u8], at: usize, value: i64) {
        let per = 8 / BITS;
        let from = BITS * (at % per);
        let mask = ((1u8 << BITS) - 1) << from;
        let byte = &mut bytes[at / per];
        *byte = *byte & !mask | (value as u8) << from;
    }
}

macro_rules! wide {
    ($name:ident, $int:ty, $size:literal) => {
        pub struct $name;
        impl Lane for $name {
            fn read(bytes: &[u8], at: usize) -> i64 {
                let part = bytes[$size * at..$size * at + $size].try_into().unwrap();
                <$int>::from_le_bytes(part) as i64
            }
            fn write(bytes: &mut [u8], at: usize, value: i64) {
                bytes[$size * at..$size * at + $size].copy_from_slice(&(value as $int).to_le_bytes());
            }
        }
    };
}

wide!(Wide8, i8, 1);
wide!(Wide16, i16, 2);
wide!(Wide32, i32, 4);
wide!(Wide64, i64, 8);

pub struct Nothing;

impl Lane for Nothing {
    fn read(_bytes: &[u8], _at: usize) -> i64 {
        0
    }
    fn write(_bytes: &mut [u8], _at: usize, _value: i64) {}
}
