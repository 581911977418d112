//! The plain calls over the same words and bytes as the proved ones. None is inlined, as the proved ones can't be.

use proved::{FACE_WORDS, FORCES, JOINT_WORDS, PANEL, RESULT_WORDS, TABLE_WORDS};
use reference::{BoltTable, FaceResult, FileKind, Joint, JointResult};

#[inline(never)]
pub fn read(file: &[u8], kind: FileKind, words: &mut [u32; JOINT_WORDS], next: &mut usize) -> u32 {
    match reference::read(file, kind) {
        Ok((joint, rest)) => {
            *words = joint.to_fields();
            *next = file.len() - rest.len();
            0
        }
        Err(refusal) => refusal as u32,
    }
}

#[inline(never)]
pub fn write(words: &[u32; JOINT_WORDS], buffer: &mut [u8], length: &mut usize) -> u32 {
    match reference::write(&Joint::from_fields(words), buffer) {
        Ok(size) => {
            *length = size;
            0
        }
        Err(refusal) => refusal as u32,
    }
}

#[inline(never)]
pub fn allocate(count: usize, limits: &[u64], forces: &mut [u64; FORCES]) -> u32 {
    match reference::allocate(count, limits) {
        Ok(shared) => {
            *forces = shared;
            0
        }
        Err(refusal) => refusal as u32,
    }
}

#[inline(never)]
pub fn load(words: &[u32; TABLE_WORDS], in_force: &mut [u32; TABLE_WORDS]) -> u32 {
    match BoltTable::from_words(words).check() {
        Ok(()) => {
            *in_force = *words;
            0
        }
        Err(refusal) => refusal as u32,
    }
}

#[inline(never)]
pub fn work(
    sizes: &[u32; TABLE_WORDS],
    words: &[u32; JOINT_WORDS],
    result: &mut [u64; RESULT_WORDS],
) -> u32 {
    match reference::work(&BoltTable::from_words(sizes), &Joint::from_fields(words)) {
        Ok(worked) => {
            put_result(&worked, result);
            0
        }
        Err(refusal) => refusal.number() + 256 * refusal.field() + 65536 * refusal.face,
    }
}

fn put_result(result: &JointResult, words: &mut [u64; RESULT_WORDS]) {
    let (first, rest) = words.split_at_mut(FACE_WORDS);
    put_face(&result.face, first);
    match &result.other {
        None => rest.fill(0),
        Some(other) => {
            put_face(&other.face, &mut rest[..FACE_WORDS]);
            rest[PANEL - FACE_WORDS] = u64::from(other.panel_passes);
        }
    }
}

fn put_face(result: &FaceResult, words: &mut [u64]) {
    words[..8].copy_from_slice(&result.forces);
    words[8..].copy_from_slice(&[
        result.sum,
        result.newton_metres,
        result.cap,
        result.check as u64,
        result.governing_force,
        u64::from(result.verdicts.bending),
        u64::from(result.verdicts.bolts),
        u64::from(result.verdicts.flange_weld),
        u64::from(result.verdicts.web_weld),
    ]);
}
