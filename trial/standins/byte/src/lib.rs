//! Stand-in for `byte`: instead of bytes, an instruction gives its name, its tag and its fields,
//! all taken from its declaration by the derive.

pub use macros::{Measure, TryRead, TryWrite};

/// An instruction taken apart.
#[derive(Debug, Default)]
pub struct Parts {
    pub name: &'static str,
    pub tag: u8,
    /// In the order of the declaration, each with its own bits, zero-extended.
    pub fields: Vec<u64>,
}

impl Parts {
    pub fn of(item: &impl TryWrite) -> Self {
        let mut parts = Self::default();
        item.write(&mut parts);
        parts
    }
}

pub trait TryWrite {
    fn write(&self, parts: &mut Parts);
}

macro_rules! write_bits {
    ($($type:ty: $bits:expr;)*) => {
        $(impl TryWrite for $type {
            fn write(&self, parts: &mut Parts) {
                let bits: fn(Self) -> u64 = $bits;
                parts.fields.push(bits(*self));
            }
        })*
    };
}

write_bits! {
    bool: u64::from;
    u8: u64::from;
    u16: u64::from;
    u32: u64::from;
    u64: u64::from;
    i8: |value| value.cast_unsigned().into();
    i16: |value| value.cast_unsigned().into();
    i32: |value| value.cast_unsigned().into();
    i64: i64::cast_unsigned;
    f32: |value| value.to_bits().into();
    f64: f64::to_bits;
}

impl<T: TryWrite> TryWrite for Box<T> {
    fn write(&self, parts: &mut Parts) {
        (**self).write(parts);
    }
}

impl<T: TryWrite> TryWrite for Vec<T> {
    fn write(&self, parts: &mut Parts) {
        self.iter().for_each(|item| item.write(parts));
    }
}

impl<T: TryWrite, const N: usize> TryWrite for [T; N] {
    fn write(&self, parts: &mut Parts) {
        self.iter().for_each(|item| item.write(parts));
    }
}

/// The error of reading, which never happens here.
#[derive(Debug)]
pub enum Error {}
