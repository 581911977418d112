//! Random byte streams: files end to end, cut, flipped, spliced, and plain noise.

use crate::joints::any_joint;
use crate::random::Random;
use reference::{write, FileKind, Joint, BUILT_IN, LONGEST_FILE, LONGEST_INPUT};

/// Numbers of a file before the distance to the column end, which the old kind lacks.
const NUMBERS_BEFORE_END_DISTANCE: usize = 29;

/// The joint's file, of the new kind; none where it can't be written.
pub fn file_of(joint: &Joint) -> Vec<u8> {
    let mut buffer = [0; LONGEST_FILE];
    let length = write(joint, &mut buffer).unwrap_or(0);
    buffer[..length].to_vec()
}

/// The joint's file of this kind; none where it can't be written.
pub fn file_of_kind(joint: &Joint, kind: FileKind) -> Vec<u8> {
    let mut file = file_of(joint);
    if kind == FileKind::Old && !file.is_empty() {
        let start = numbers_length(&file, NUMBERS_BEFORE_END_DISTANCE);
        let end = start + numbers_length(&file[start..], 1);
        file.drain(start..end);
    }
    file
}

/// How many bytes the first numbers of a file take.
fn numbers_length(file: &[u8], count: usize) -> usize {
    let last_bytes = (0..file.len()).filter(|&place| file[place] < 0x80);
    last_bytes.take(count).last().map_or(0, |place| place + 1)
}

/// Mostly of files of this kind.
pub fn stream(random: &mut Random, kind: FileKind) -> Vec<u8> {
    if random.one_in(16) {
        return noise(random);
    }
    let files = random.below(6);
    let mut bytes: Vec<u8> = (0..files)
        .flat_map(|_| file_of_kind(&any_joint(random, &BUILT_IN), kind))
        .collect();
    for _ in 0..random.below(4) {
        damage(random, &mut bytes);
    }
    if random.one_in(500) {
        stretch(random, &mut bytes);
    }
    bytes
}

fn noise(random: &mut Random) -> Vec<u8> {
    let length = random.below(60);
    let narrow = random.one_in(2);
    let byte = |random: &mut Random| {
        if narrow {
            random.pick(&[0, 1, 8, 9, 15, 16, 17, 24, 25, 0x7f, 0x80, 0x81, 0xff])
        } else {
            random.next() as u8
        }
    };
    (0..length).map(|_| byte(random)).collect()
}

fn damage(random: &mut Random, bytes: &mut Vec<u8>) {
    if bytes.is_empty() {
        bytes.push(random.next() as u8);
        return;
    }
    let place = random.below(bytes.len() as u64) as usize;
    match random.below(8) {
        7 => bytes[place] = random.pick(&[0, 1, 8, 9, 15, 16, 17, 24, 25]),
        0 => bytes.truncate(place),
        1 => bytes[place] ^= 1 << random.below(8),
        2 => bytes[place] = random.pick(&[0, 0x0f, 0x10, 0x7f, 0x80, 0xff]),
        3 => drop(bytes.drain(..place)),
        4 => bytes.insert(place, random.next() as u8),
        5 => {
            // a number in a form that isn't its shortest
            bytes[place] |= 0x80;
            bytes.insert(place + 1, 0);
        }
        _ => {
            let piece = file_of(&any_joint(random, &BUILT_IN));
            let from = random.below(piece.len() as u64 + 1) as usize;
            let end = (place + random.below(20) as usize).min(bytes.len());
            bytes.splice(place..end, piece[from..].iter().copied());
        }
    }
}

/// Repeats the bytes to about the longest input that the sheet takes.
fn stretch(random: &mut Random, bytes: &mut Vec<u8>) {
    if bytes.is_empty() {
        bytes.push(1);
    }
    let length = LONGEST_INPUT - 2 + random.below(5) as usize;
    *bytes = bytes.iter().copied().cycle().take(length).collect();
}

#[cfg(test)]
mod tests {
    use super::*;
    use reference::{read, Face};

    #[test]
    fn the_old_kind_lacks_the_distance_to_the_column_end() {
        let mut random = Random::new(1);
        for _ in 0..10_000 {
            let mut joint = any_joint(&mut random, &BUILT_IN);
            let file = file_of_kind(&joint, FileKind::Old);
            if !file.is_empty() {
                joint.column.end_distance = 15000;
                if !joint.is_two_faced() {
                    joint.other = Face::default();
                }
                assert_eq!(read(&file, FileKind::Old), Ok((joint, &[][..])));
            }
        }
    }
}
