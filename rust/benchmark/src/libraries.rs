//! What is timed: libraries with the same calls, over the same words and bytes.

use crate::words;
use proved::{FORCES, JOINT_WORDS, NEW_KIND, RESULT_WORDS, TABLE_WORDS};
use reference::FileKind;
use std::hint::black_box;

/// The calls, but for the sheet, whose plain side goes into a vector.
pub trait Library {
    fn read(bytes: &[u8], fields: &mut [u32; JOINT_WORDS], next: &mut usize) -> u32;
    fn write(fields: &[u32; JOINT_WORDS], buffer: &mut [u8], length: &mut usize) -> u32;
    fn allocate(count: usize, limits: &[u64], forces: &mut [u64; FORCES]) -> u32;
    fn load(table: &[u32; TABLE_WORDS], in_force: &mut [u32; TABLE_WORDS]) -> u32;
    fn work(
        table: &[u32; TABLE_WORDS],
        fields: &[u32; JOINT_WORDS],
        result: &mut [u64; RESULT_WORDS],
    ) -> u32;
}

macro_rules! library {
    ($name:ident, $calls:ident, $kind:expr) => {
        pub struct $name;

        impl Library for $name {
            fn read(bytes: &[u8], fields: &mut [u32; JOINT_WORDS], next: &mut usize) -> u32 {
                $calls::read(bytes, black_box($kind), fields, next)
            }

            fn write(fields: &[u32; JOINT_WORDS], buffer: &mut [u8], length: &mut usize) -> u32 {
                $calls::write(fields, buffer, length)
            }

            fn allocate(count: usize, limits: &[u64], forces: &mut [u64; FORCES]) -> u32 {
                $calls::allocate(count, limits, forces)
            }

            fn load(table: &[u32; TABLE_WORDS], in_force: &mut [u32; TABLE_WORDS]) -> u32 {
                $calls::load(table, in_force)
            }

            fn work(
                table: &[u32; TABLE_WORDS],
                fields: &[u32; JOINT_WORDS],
                result: &mut [u64; RESULT_WORDS],
            ) -> u32 {
                $calls::work(table, fields, result)
            }
        }
    };
}

library!(Proved, proved, NEW_KIND);
library!(Plain, words, FileKind::New);

/// The proved calls of an older library; without one the same again, which shows how far two times of one code lie apart.
#[cfg(not(feature = "before"))]
pub use self::Proved as Before;
#[cfg(not(feature = "before"))]
pub use proved::sheet as sheet_before;

#[cfg(feature = "before")]
library!(Before, before, NEW_KIND);
#[cfg(feature = "before")]
pub use before::sheet as sheet_before;
