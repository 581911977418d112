//! One line of a file of vectors.

use crate::call::Call;
use crate::expected::expected;

/// The line with what is expected worked anew. Headings, notes and empty lines stay as they are.
pub fn renewed(line: &str) -> Result<String, String> {
    if line.is_empty() || line.starts_with('#') || line.starts_with("//") {
        return Ok(line.to_string());
    }
    let (asked, note) = parts(line)?;
    let items = expected(&Call::of(asked)?)?;
    Ok(format!("{asked} ={items}{note}"))
}

/// What stands before the sign ` =`, and the note at the end. What is expected stands between them and isn't looked at.
fn parts(line: &str) -> Result<(&str, &str), String> {
    let (asked, after) = line.split_once(" =").ok_or("there is no ` =`")?;
    if !(after.is_empty() || after.starts_with(' ')) {
        return Err("something stands against the `=`".to_string());
    }
    let note = after.find(" //").map_or("", |start| &after[start..]);
    Ok((asked, note))
}

#[cfg(test)]
mod tests {
    use super::*;

    #[test]
    fn copied_lines() {
        for line in ["", "# heading", "#", "// note", "//", "#work ="] {
            assert_eq!(renewed(line).unwrap(), line);
        }
    }

    #[test]
    fn what_is_expected_is_not_looked_at() {
        let right = "allocate 1 5 = 0 5 0 0 0 0 0 0 0";
        for line in [
            "allocate 1 5 =",
            "allocate 1 5 = ",
            "allocate 1 5 = 7",
            "allocate 1 5 = anything = at all /",
            right,
        ] {
            assert_eq!(renewed(line).unwrap(), right);
        }
    }

    #[test]
    fn notes_are_kept() {
        for note in [" // a note", " //  = // two", " // ", " //"] {
            let right = format!("allocate 1 5 = 0 5 0 0 0 0 0 0 0{note}");
            assert_eq!(renewed(&format!("allocate 1 5 ={note}")).unwrap(), right);
            assert_eq!(
                renewed(&format!("allocate 1 5 = 8 8{note}")).unwrap(),
                right
            );
            assert_eq!(renewed(&right).unwrap(), right);
        }
    }

    #[test]
    fn bad_lines() {
        for line in [
            "allocate 1 5",
            "allocate 1 5=",
            "allocate 1 5 =0 5 0 0 0 0 0 0 0",
            "allocate 1 5  = 0",
            " allocate 1 5 =",
            "allocate\t1 5 =",
            "allocate 1 5 // note",
            "allocate 1 5 // note =",
            "/ note",
            " # heading",
        ] {
            assert!(renewed(line).is_err(), "{line}");
        }
    }
}
