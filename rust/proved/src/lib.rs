//! The proved calls. A joint is 66 words of 32 bits: its fields in order (docs/rules.md, 2.1) with eight levers, 38 words, and the second
//! face's fields 1, 2, 6, 7 and 14 to 29 with eight levers, which are looked at only where field 1 is 16 to 24. N is by its two's
//! complement. A bolt table is 25 words: its count, twelve diameters and twelve areas, of which only the counted ones are looked at. Each
//! call but `rest` answers 0 where it did what it is for, and else one number that tells why not (`number`, `field`, `face`); then every
//! slice and place that was lent is as it was.

/// Words of a joint.
pub const JOINT_WORDS: usize = 66;
/// Where the second face's words begin in a joint.
pub const SECOND_FACE_FIELDS: usize = 38;
/// Words of a bolt table.
pub const TABLE_WORDS: usize = 25;
/// Most sizes of a bolt table.
pub const TABLE_SIZES: usize = 12;
/// Places of Allocate's answer.
pub const FORCES: usize = 8;
/// Words of a face's result: eight forces, sum, newton metres, cap, check (0 to 3 for F, B, K, S), governing force, and 1 or 0 for
/// bending, bolts, flange weld and web weld.
pub const FACE_WORDS: usize = 17;
/// Where the panel's verdict stands in a result: 1 if it passes, 0 if it fails or there is one face.
pub const PANEL: usize = 2 * FACE_WORDS;
/// Words of a result: those of the first face, those of the second, which are 0 where there is none, and the panel's.
pub const RESULT_WORDS: usize = PANEL + 1;
/// A file without field 30; it gives 15000 for it.
pub const OLD_KIND: u32 = 1;
/// A file with field 30. Any number but 1 is taken for this one.
pub const NEW_KIND: u32 = 2;
/// A lent slice is too short.
pub const SHORT: u32 = 100;
/// The sheet's output has no room for all lines.
pub const NO_ROOM: u32 = 101;

/// The refusal's number in an answer.
pub const fn number(answer: u32) -> u32 {
    answer & 255
}

/// The field in an answer, with refusal 10.
pub const fn field(answer: u32) -> u32 {
    answer >> 8 & 255
}

/// The face in an answer: 1 or 2 where Work refuses a joint with two faces, else 0.
pub const fn face(answer: u32) -> u32 {
    answer >> 16 & 255
}

/// No sheet of so many bytes is longer: it has at most a line for each 25 of them, and one for what is left. In an output that is shorter
/// the lines are measured before they are printed.
pub const fn longest_sheet(input: usize) -> usize {
    (input + 24) / 25 * 285
}

mod c {
    extern "C" {
        pub fn jinqewan_allocate(
            count: usize,
            limits: *const u64,
            limits_length: usize,
            forces: *mut u64,
            forces_length: usize,
        ) -> u32;
        pub fn jinqewan_read(
            bytes: *const u8,
            bytes_length: usize,
            kind: u32,
            fields: *mut u32,
            fields_length: usize,
            next: *mut usize,
        ) -> u32;
        pub fn jinqewan_rest(bytes: *const u8, bytes_length: usize, kind: u32) -> usize;
        pub fn jinqewan_write(
            fields: *const u32,
            fields_length: usize,
            buffer: *mut u8,
            buffer_length: usize,
            length: *mut usize,
        ) -> u32;
        pub fn jinqewan_built_in(table: *mut u32, table_length: usize) -> u32;
        pub fn jinqewan_load(
            table: *const u32,
            table_length: usize,
            in_force: *mut u32,
            in_force_length: usize,
        ) -> u32;
        pub fn jinqewan_work(
            table: *const u32,
            table_length: usize,
            fields: *const u32,
            fields_length: usize,
            result: *mut u64,
            result_length: usize,
        ) -> u32;
        pub fn jinqewan_sheet(
            input: *const u8,
            input_length: usize,
            output: *mut u8,
            output_length: usize,
            length: *mut usize,
        ) -> u32;
    }
}

pub fn allocate(count: usize, limits: &[u64], forces: &mut [u64]) -> u32 {
    unsafe {
        c::jinqewan_allocate(
            count,
            limits.as_ptr(),
            limits.len(),
            forces.as_mut_ptr(),
            forces.len(),
        )
    }
}

pub fn read(bytes: &[u8], kind: u32, fields: &mut [u32], next: &mut usize) -> u32 {
    unsafe {
        c::jinqewan_read(
            bytes.as_ptr(),
            bytes.len(),
            kind,
            fields.as_mut_ptr(),
            fields.len(),
            next,
        )
    }
}

/// The place where the bytes after the first joint begin.
pub fn rest(bytes: &[u8], kind: u32) -> usize {
    unsafe { c::jinqewan_rest(bytes.as_ptr(), bytes.len(), kind) }
}

/// A file of the new kind.
pub fn write(fields: &[u32], buffer: &mut [u8], length: &mut usize) -> u32 {
    unsafe {
        c::jinqewan_write(
            fields.as_ptr(),
            fields.len(),
            buffer.as_mut_ptr(),
            buffer.len(),
            length,
        )
    }
}

/// The five sizes built in, as a bolt table.
pub fn built_in(table: &mut [u32]) -> u32 {
    unsafe { c::jinqewan_built_in(table.as_mut_ptr(), table.len()) }
}

/// Puts a bolt table in force. One that isn't taken, by 16, 17 or 18, leaves the one before, and `work` goes on with that: look at the
/// answer.
pub fn load(table: &[u32], in_force: &mut [u32]) -> u32 {
    unsafe {
        c::jinqewan_load(
            table.as_ptr(),
            table.len(),
            in_force.as_mut_ptr(),
            in_force.len(),
        )
    }
}

/// By a bolt table. One that `load` would refuse has no sizes, so that field 4 is refused.
pub fn work(table: &[u32], fields: &[u32], result: &mut [u64]) -> u32 {
    unsafe {
        c::jinqewan_work(
            table.as_ptr(),
            table.len(),
            fields.as_ptr(),
            fields.len(),
            result.as_mut_ptr(),
            result.len(),
        )
    }
}

/// Of files of the new kind, by the bolts built in.
pub fn sheet(input: &[u8], output: &mut [u8], length: &mut usize) -> u32 {
    unsafe {
        c::jinqewan_sheet(
            input.as_ptr(),
            input.len(),
            output.as_mut_ptr(),
            output.len(),
            length,
        )
    }
}
