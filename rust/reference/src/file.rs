//! Joint files: numbers in groups of seven bits, lowest first, the top bit set when more follow.

use crate::joint::{
    Face, Joint, COUNTS, FIELDS, HEAD, ONE_FACED_FIELDS, OWN, RAISED_COUNTS, ROWS, SECOND_FACE,
};

/// A file of one face, of eight rows, whose numbers but the row count take five bytes each.
const LONGEST_ONE_FACED: usize = 1 + (ONE_FACED_FIELDS - 1) * 5;
/// The same of two faces.
pub const LONGEST_FILE: usize = 2 + (FIELDS - 2) * 5;

/// Where the axial force stands among the fields before the levers, and among a second face's own.
const AXIAL: usize = 26;
const OWN_AXIAL: usize = 17;
/// Where the distance to the column end stands: last before the levers.
const END_DISTANCE: usize = HEAD - 1;
/// What a file of the old kind gives for that distance.
const FAR_FROM_THE_END: u32 = 15000;

#[derive(Clone, Copy, Debug, PartialEq, Eq)]
pub enum FileKind {
    /// without the distance to the column end
    Old,
    New,
}

impl FileKind {
    /// How many fields before the first face's levers the file has.
    fn head(self) -> usize {
        match self {
            FileKind::Old => END_DISTANCE,
            FileKind::New => HEAD,
        }
    }
}

#[derive(Clone, Copy, Debug, PartialEq, Eq)]
pub enum ReadRefusal {
    BytesEnd = 1,
    NumberForm = 2,
    RowCount = 3,
}

#[derive(Clone, Copy, Debug, PartialEq, Eq)]
pub enum WriteRefusal {
    RowCount = 3,
    ShortBuffer = 5,
    SpareLever = 6,
}

/// The joint that the bytes begin with, and the bytes after it.
pub fn read(bytes: &[u8], kind: FileKind) -> Result<(Joint, &[u8]), ReadRefusal> {
    let mut fields = [0; ONE_FACED_FIELDS];
    fields[END_DISTANCE] = FAR_FROM_THE_END;
    let (head, levers) = fields.split_at_mut(HEAD);
    let rest = read_face(bytes, rows_of_first, &mut head[..kind.head()], levers)?;
    head[AXIAL] = signed(head[AXIAL]) as u32;
    if !RAISED_COUNTS.contains(&fields[0]) {
        return Ok((Joint::one_faced(&fields), rest));
    }
    let (other, rest) = read_second_face(rest)?;
    let joint = Joint {
        other,
        ..Joint::one_faced(&fields)
    };
    Ok((joint, rest))
}

fn read_second_face(bytes: &[u8]) -> Result<(Face, &[u8]), ReadRefusal> {
    let mut fields = [0; OWN + ROWS];
    let (own, levers) = fields.split_at_mut(OWN);
    let rest = read_face(bytes, rows_of_second, own, levers)?;
    own[OWN_AXIAL] = signed(own[OWN_AXIAL]) as u32;
    Ok((Face::from_own_fields(&fields), rest))
}

/// A face's numbers: a row count, judged before the next is looked at, all others before the levers, and a lever for each row. Answers
/// the bytes after them.
fn read_face<'a>(
    bytes: &'a [u8],
    rows_of: impl Fn(u32) -> Option<usize>,
    numbers: &mut [u32],
    levers: &mut [u32],
) -> Result<&'a [u8], ReadRefusal> {
    let (count, rest) = read_number(bytes)?;
    let rows = rows_of(count).ok_or(ReadRefusal::RowCount)?;
    numbers[0] = count;
    let rest = read_numbers(rest, &mut numbers[1..])?;
    read_numbers(rest, &mut levers[..rows])
}

/// Field 1 of the first face, whether or not a second follows.
fn rows_of_first(count: u32) -> Option<usize> {
    if RAISED_COUNTS.contains(&count) {
        return Some((count - SECOND_FACE) as usize);
    }
    rows_of_second(count)
}

fn rows_of_second(count: u32) -> Option<usize> {
    COUNTS.contains(&count).then_some(count as usize)
}

/// The bytes after the first joint; none when it can't be read.
pub fn rest(bytes: &[u8], kind: FileKind) -> &[u8] {
    match read(bytes, kind) {
        Ok((_, rest)) => rest,
        Err(_) => &[],
    }
}

/// Puts the joint's file, of the new kind, at the front of the buffer and answers its length. Each refusal is tried on both faces before
/// the next.
pub fn write(joint: &Joint, buffer: &mut [u8]) -> Result<usize, WriteRefusal> {
    let (rows, other_rows) = row_counts(joint).ok_or(WriteRefusal::RowCount)?;
    let has_spare = |face: &Face, rows: usize| face.levers[rows..].iter().any(|&lever| lever != 0);
    if has_spare(&joint.face, rows) || other_rows.is_some_and(|rows| has_spare(&joint.other, rows))
    {
        return Err(WriteRefusal::SpareLever);
    }
    let longest = other_rows.map_or(LONGEST_ONE_FACED, |_| LONGEST_FILE);
    if let Some(front) = buffer.get_mut(..longest) {
        return Ok(put_joint(front, joint, rows, other_rows));
    }
    let mut file = [0; LONGEST_FILE];
    let length = put_joint(&mut file, joint, rows, other_rows);
    let Some(front) = buffer.get_mut(..length) else {
        return Err(WriteRefusal::ShortBuffer);
    };
    front.copy_from_slice(&file[..length]);
    Ok(length)
}

/// Rows of the first face, and of the second where there is one.
fn row_counts(joint: &Joint) -> Option<(usize, Option<usize>)> {
    let rows = rows_of_first(joint.face.rows)?;
    if !joint.is_two_faced() {
        return Some((rows, None));
    }
    Some((rows, Some(rows_of_second(joint.other.rows)?)))
}

/// The count of bytes put.
fn put_joint(file: &mut [u8], joint: &Joint, rows: usize, other_rows: Option<usize>) -> usize {
    let mut head = joint.head();
    head[AXIAL] = stored(joint.face.loads.axial);
    let at = put_numbers(file, 0, &head);
    let at = put_numbers(file, at, &joint.face.levers[..rows]);
    let Some(other_rows) = other_rows else {
        return at;
    };
    let mut own = joint.other.own_fields();
    own[OWN_AXIAL] = stored(joint.other.loads.axial);
    let at = put_numbers(file, at, &own);
    put_numbers(file, at, &joint.other.levers[..other_rows])
}

fn read_numbers<'a>(bytes: &'a [u8], numbers: &mut [u32]) -> Result<&'a [u8], ReadRefusal> {
    let mut rest = bytes;
    for number in numbers {
        (*number, rest) = read_number(rest)?;
    }
    Ok(rest)
}

/// A number is judged at its last byte, but a fifth byte above 15 there and then.
#[inline]
fn read_number(bytes: &[u8]) -> Result<(u32, &[u8]), ReadRefusal> {
    let (&first, mut rest) = bytes.split_first().ok_or(ReadRefusal::BytesEnd)?;
    let mut value = u32::from(first & 0x7f);
    let mut last = first;
    let mut shift = 7;
    while last & 0x80 != 0 {
        (last, rest) = rest
            .split_first()
            .map(|(&byte, after)| (byte, after))
            .ok_or(ReadRefusal::BytesEnd)?;
        let past_32_bits = shift == 28 && last > 15;
        if last == 0 || past_32_bits {
            return Err(ReadRefusal::NumberForm);
        }
        value |= u32::from(last & 0x7f) << shift;
        shift += 7;
    }
    Ok((value, rest))
}

/// From `at` on; the place after them.
fn put_numbers(file: &mut [u8], at: usize, numbers: &[u32]) -> usize {
    numbers
        .iter()
        .fold(at, |at, &number| put_number(file, at, number))
}

#[inline]
fn put_number(file: &mut [u8], mut at: usize, mut value: u32) -> usize {
    while value > 0x7f {
        file[at] = value as u8 | 0x80;
        value >>= 7;
        at += 1;
    }
    file[at] = value as u8;
    at + 1
}

/// N is stored as 2N, or −2N − 1 when negative.
fn stored(axial: i32) -> u32 {
    ((axial << 1) ^ (axial >> 31)) as u32
}

fn signed(stored: u32) -> i32 {
    (stored >> 1) as i32 ^ -((stored & 1) as i32)
}

#[cfg(test)]
mod tests {
    use super::*;

    #[test]
    fn axial_forces_are_stored_by_their_rule() {
        for axial in [0, 1, -1, 7, -7, 10_000_000, -10_000_000, i32::MAX, i32::MIN] {
            let wide = i64::from(axial);
            let rule = if axial < 0 { -2 * wide - 1 } else { 2 * wide };
            assert_eq!(i64::from(stored(axial)), rule);
            assert_eq!(signed(stored(axial)), axial);
        }
    }
}
