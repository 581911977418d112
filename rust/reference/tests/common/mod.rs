//! What a joint is refused for, its files, and the lines of a sheet, as several tests ask them.

use reference::{
    read, rest, sheet, work, write, FileKind, Joint, ReadRefusal, BUILT_IN, LONGEST_FILE,
};

pub const KINDS: [FileKind; 2] = [FileKind::Old, FileKind::New];

/// Number, field and face.
pub fn refusal(joint: &Joint) -> (u32, u32, u32) {
    let refusal = work(&BUILT_IN, joint).unwrap_err();
    (refusal.number(), refusal.field(), refusal.face)
}

pub fn file_of(joint: &Joint) -> Vec<u8> {
    let mut buffer = [0; LONGEST_FILE];
    let length = write(joint, &mut buffer).unwrap();
    buffer[..length].to_vec()
}

/// Of a joint with joint I's column, bolts and first face: its z is two bytes, after 47 of the fields before.
pub fn file_of_kind(joint: &Joint, kind: FileKind) -> Vec<u8> {
    let mut file = file_of(joint);
    if kind == FileKind::Old {
        file.drain(47..49);
    }
    file
}

/// A file of either kind reads back to its joint, with what follows left, and cut anywhere it ends too early.
pub fn assert_read_back(joint: &Joint) {
    for kind in KINDS {
        let file = file_of_kind(joint, kind);
        let followed = [&file[..], &[1, 2]].concat();
        assert_eq!(read(&followed, kind), Ok((*joint, &[1, 2][..])));
        assert_eq!(rest(&followed, kind), [1, 2]);
        for cut in 0..file.len() {
            assert_eq!(read(&file[..cut], kind), Err(ReadRefusal::BytesEnd));
            assert!(rest(&file[..cut], kind).is_empty());
        }
    }
}

pub fn lines(input: &[u8]) -> String {
    let mut out = Vec::new();
    sheet(input, &mut out);
    String::from_utf8(out).unwrap()
}
