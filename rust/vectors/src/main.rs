//! Reads a file of stored vectors on standard input, works what each should come to from the plain reading, and writes the file to
//! standard output. Where nothing is amiss these are the very same bytes. A line that can't be read, or a printed figure that isn't met
//! as its line says, is told on standard error; then nothing is written and the exit status is 1.

mod call;
mod expected;
mod items;
mod line;

use line::renewed;
use std::io::{self, Read, Write};
use std::process::ExitCode;

fn main() -> ExitCode {
    match run() {
        Ok(()) => ExitCode::SUCCESS,
        Err(troubles) => {
            eprintln!("{troubles}");
            ExitCode::FAILURE
        }
    }
}

fn run() -> Result<(), String> {
    let mut input = Vec::new();
    let mut output = Vec::new();
    io::stdin()
        .read_to_end(&mut input)
        .map_err(|error| format!("standard input: {error}"))?;
    renew(&input, &mut output)?;
    io::stdout()
        .write_all(&output)
        .map_err(|error| format!("standard output: {error}"))
}

/// Adds the renewed lines to `output`. The trouble of each line is told, a line for each.
fn renew(input: &[u8], output: &mut Vec<u8>) -> Result<(), String> {
    let mut troubles = Vec::new();
    for (number, line) in (1..).zip(input.split_inclusive(|&byte| byte == b'\n')) {
        match renew_line(line) {
            Ok(renewed) => output.extend_from_slice(renewed.as_bytes()),
            Err(why) => troubles.push(format!("line {number}: {why}")),
        }
    }
    if troubles.is_empty() {
        Ok(())
    } else {
        Err(troubles.join("\n"))
    }
}

/// A line with its line feed.
fn renew_line(line: &[u8]) -> Result<String, String> {
    let line = std::str::from_utf8(line).map_err(|_| "it isn't UTF-8")?;
    let line = line
        .strip_suffix('\n')
        .ok_or("it doesn't end in a line feed")?;
    Ok(renewed(line)? + "\n")
}

/// The checked joint I (docs/rules.md, 14).
#[cfg(test)]
const JOINT_I: &str = "1 0 88 20 275 275 275 5283 2087 132 96 127 4765 3071 1657 118 67 2000 200 900 0 600 80 60 2000 1 0 57000 50000 15000 2400 0 0 0 0 0 0 0";

/// The same on a second face.
#[cfg(test)]
const SECOND_FACE_I: &str =
    "1 0 275 275 3071 1657 118 67 2000 200 900 0 600 80 60 2000 1 0 57000 50000 2400 0 0 0 0 0 0 0";

/// The bolt table built in.
#[cfg(test)]
const BUILT_IN_TABLE: &str = "5 12 16 20 24 30 0 0 0 0 0 0 0 843 1570 2450 3530 5610 0 0 0 0 0 0 0";

#[cfg(test)]
mod tests {
    use super::*;

    #[test]
    fn every_bad_line_is_told() {
        let mut output = Vec::new();
        let input = b"# heading\nwrok 1 =\n\nallocate 1 5 =\nread 9 =\n\xff\n// note";
        assert_eq!(
            renew(input, &mut output).unwrap_err(),
            "line 2: `wrok` is no kind of vector\n\
             line 5: item 1, `9`: not bytes\n\
             line 6: it isn't UTF-8\n\
             line 7: it doesn't end in a line feed"
        );
    }

    #[test]
    fn no_input() {
        let mut output = Vec::new();
        assert_eq!(renew(b"", &mut output), Ok(()));
        assert!(output.is_empty());
    }

    #[test]
    fn lines_keep_their_order() {
        let mut output = Vec::new();
        renew(b"# a\n\nallocate 1 5 =\n// b\n", &mut output).unwrap();
        assert_eq!(output, b"# a\n\nallocate 1 5 = 0 5 0 0 0 0 0 0 0\n// b\n");
    }
}
