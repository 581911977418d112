//! The sheet: joint files of the new kind end to end in, a line for each face out. Its bolts are those built in.

use crate::bolt_table::BUILT_IN;
use crate::file::{read, FileKind};
use crate::joint::Joint;
use crate::outcome::{FaceResult, JointResult, WorkRefusal};
use crate::work::work;

/// Bytes of the longest input that is taken.
pub const LONGEST_INPUT: usize = 65536;

/// Adds the input's lines to `out`.
pub fn sheet(input: &[u8], out: &mut Vec<u8>) {
    if input.len() > LONGEST_INPUT {
        out.extend_from_slice(b"R 4\n");
        return;
    }
    let mut rest = input;
    let mut number = 0;
    while !rest.is_empty() {
        number += 1;
        match read(rest, FileKind::New) {
            Err(refusal) => {
                refusal_line(number, refusal as u32, 0, 0, out);
                return;
            }
            Ok((joint, after)) => {
                joint_lines(number, &joint, &work(&BUILT_IN, &joint), out);
                rest = after;
            }
        }
    }
}

fn joint_lines(
    number: u64,
    joint: &Joint,
    worked: &Result<JointResult, WorkRefusal>,
    out: &mut Vec<u8>,
) {
    match worked {
        Ok(result) => result_lines(number, joint, result, out),
        Err(refusal) => refusal_line(number, refusal.number(), refusal.field(), refusal.face, out),
    }
}

/// A line, or of two faces a line for each, both with the panel's verdict.
fn result_lines(number: u64, joint: &Joint, result: &JointResult, out: &mut Vec<u8>) {
    let Some(other) = &result.other else {
        return face_line(number, joint.face.rows, &result.face, None, out);
    };
    let panel = Some(other.panel_passes);
    face_line(number, joint.first_of_two().rows, &result.face, panel, out);
    face_line(number, joint.other.rows, &other.face, panel, out);
}

fn face_line(
    number: u64,
    rows: u32,
    result: &FaceResult,
    panel_passes: Option<bool>,
    out: &mut Vec<u8>,
) {
    decimal(number, out);
    spaced(u64::from(rows), out);
    for &force in &result.forces[..rows as usize] {
        spaced(force, out);
    }
    spaced(result.sum, out);
    spaced(result.newton_metres, out);
    spaced(result.cap, out);
    let verdicts = &result.verdicts;
    out.extend_from_slice(&[
        b' ',
        result.check.letter(),
        b' ',
        letter(verdicts.bending),
        b' ',
        letter(verdicts.bolts),
        b' ',
        letter(verdicts.flange_weld),
        b' ',
        letter(verdicts.web_weld),
    ]);
    if let Some(passes) = panel_passes {
        out.extend_from_slice(&[b' ', letter(passes)]);
    }
    out.push(b'\n');
}

fn letter(passes: bool) -> u8 {
    if passes {
        b'P'
    } else {
        b'F'
    }
}

/// Field and face are 0 where none is told.
fn refusal_line(number: u64, refusal: u32, field: u32, face: u32, out: &mut Vec<u8>) {
    decimal(number, out);
    out.extend_from_slice(b" R");
    spaced(u64::from(refusal), out);
    for told in [field, face] {
        if told != 0 {
            spaced(u64::from(told), out);
        }
    }
    out.push(b'\n');
}

fn spaced(value: u64, out: &mut Vec<u8>) {
    out.push(b' ');
    decimal(value, out);
}

fn decimal(mut value: u64, out: &mut Vec<u8>) {
    let mut digits = [0; 20];
    let mut at = digits.len();
    loop {
        at -= 1;
        digits[at] = b'0' + (value % 10) as u8;
        value /= 10;
        if value == 0 {
            break;
        }
    }
    out.extend_from_slice(&digits[at..]);
}
