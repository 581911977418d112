//! One side of a line: a library's call over all inputs, into buffers of its own that are used again.

use crate::libraries::Library;
use proved::{FORCES, JOINT_WORDS, RESULT_WORDS, TABLE_WORDS};
use reference::LONGEST_FILE;
use std::hint::black_box;

pub fn read<L: Library>(files: &[Vec<u8>]) -> impl FnMut() + '_ {
    let mut fields = [0; JOINT_WORDS];
    let mut next = 0;
    move || {
        for file in files {
            black_box(L::read(black_box(file), &mut fields, &mut next));
            black_box((&fields, next));
        }
    }
}

pub fn write<L: Library>(joints: &[[u32; JOINT_WORDS]]) -> impl FnMut() + '_ {
    let mut buffer = [0; LONGEST_FILE];
    let mut length = 0;
    move || {
        for fields in joints {
            black_box(L::write(black_box(fields), &mut buffer, &mut length));
            black_box((&buffer, length));
        }
    }
}

pub fn allocate<L: Library>(tables: &[Vec<u64>]) -> impl FnMut() + '_ {
    let mut forces = [0; FORCES];
    move || {
        for limits in tables {
            black_box(L::allocate(black_box(8), black_box(limits), &mut forces));
            black_box(&forces);
        }
    }
}

pub fn load<L: Library>(tables: &[[u32; TABLE_WORDS]]) -> impl FnMut() + '_ {
    let mut in_force = [0; TABLE_WORDS];
    move || {
        for table in tables {
            black_box(L::load(black_box(table), &mut in_force));
            black_box(&in_force);
        }
    }
}

pub fn work<'a, L: Library>(
    sizes: &'a [u32; TABLE_WORDS],
    joints: &'a [[u32; JOINT_WORDS]],
) -> impl FnMut() + 'a {
    let mut result = [0; RESULT_WORDS];
    move || {
        for fields in joints {
            black_box(L::work(black_box(sizes), black_box(fields), &mut result));
            black_box(&result);
        }
    }
}

/// By the call of a library, into an output that holds any sheet of the input, so that nothing is measured first.
pub fn sheet<'a>(
    call: impl Fn(&[u8], &mut [u8], &mut usize) -> u32 + 'a,
    input: &'a [u8],
) -> impl FnMut() + 'a {
    let mut output = vec![0; proved::longest_sheet(input.len())];
    let mut length = 0;
    move || {
        black_box(call(black_box(input), &mut output, &mut length));
        black_box((&output, length));
    }
}
