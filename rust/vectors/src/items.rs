//! The items of a vector: numbers, bytes, joints and bolt tables, each with one space before it.

use reference::{BoltTable, Joint, FIELDS, ONE_FACED_FIELDS, TABLE_WORDS};
use std::fmt::Write;
use std::ops::RangeInclusive;

/// Where the axial forces of both faces stand: the numbers that may be below 0.
const AXIALS: [usize; 2] = [26, 55];

/// How many of a joint's numbers a line has.
#[derive(Clone, Copy, Debug, PartialEq)]
pub enum Form {
    /// 38, without those of a second face, which are 0
    Short,
    /// 66, with those of a second face
    Long,
}

impl Form {
    fn numbers(self) -> usize {
        match self {
            Form::Short => ONE_FACED_FIELDS,
            Form::Long => FIELDS,
        }
    }
}

/// A vector's word and items, taken one after the other. Items count from 1.
pub struct Items<'a> {
    left: std::str::Split<'a, char>,
    taken: usize,
}

impl<'a> Items<'a> {
    /// The word that a text begins with, and the items after it.
    pub fn of(text: &'a str) -> (&'a str, Items<'a>) {
        let mut left = text.split(' ');
        let word = left.next().unwrap_or_default();
        (word, Items { left, taken: 0 })
    }

    /// A number in base ten, without leading zeros or a sign.
    pub fn number(&mut self, range: RangeInclusive<u64>) -> Result<u64, String> {
        let item = self.item()?;
        number(item)
            .filter(|value| range.contains(value))
            .ok_or_else(|| {
                let (low, high) = range.into_inner();
                self.amiss(item, &format!("not a number from {low} to {high}"))
            })
    }

    /// All numbers that are left, of any size.
    pub fn numbers(&mut self) -> Result<Vec<u64>, String> {
        let count = self.left.clone().count();
        (0..count).map(|_| self.number(0..=u64::MAX)).collect()
    }

    /// The fields in file order with spare levers.
    pub fn joint(&mut self, form: Form) -> Result<Joint, String> {
        let mut fields = [0; FIELDS];
        for (place, field) in fields[..form.numbers()].iter_mut().enumerate() {
            *field = if AXIALS.contains(&place) {
                self.signed()? as u32
            } else {
                self.word()?
            };
        }
        Ok(Joint::from_fields(&fields))
    }

    /// The count, twelve diameters and twelve areas, spare ones too.
    pub fn bolt_table(&mut self) -> Result<BoltTable, String> {
        let mut words = [0; TABLE_WORDS];
        for word in &mut words {
            *word = self.word()?;
        }
        Ok(BoltTable::from_words(&words))
    }

    /// The form of the joint that comes next, with so many items after it: a long one where there are enough.
    pub fn form(&self, after: usize) -> Form {
        if self.left.clone().count() >= FIELDS + after {
            Form::Long
        } else {
            Form::Short
        }
    }

    /// Two lower-case digits a byte, or a hyphen for none.
    pub fn bytes(&mut self) -> Result<Vec<u8>, String> {
        let item = self.item()?;
        bytes(item).ok_or_else(|| self.amiss(item, "not bytes"))
    }

    /// No item is left.
    pub fn end(&mut self) -> Result<(), String> {
        match self.left.next() {
            None => Ok(()),
            Some(item) => Err(format!("`{item}` stands after the last item")),
        }
    }

    fn word(&mut self) -> Result<u32, String> {
        Ok(self.number(0..=u64::from(u32::MAX))? as u32)
    }

    fn signed(&mut self) -> Result<i32, String> {
        let item = self.item()?;
        signed(item).ok_or_else(|| {
            let why = format!("not a number from {} to {}", i32::MIN, i32::MAX);
            self.amiss(item, &why)
        })
    }

    fn item(&mut self) -> Result<&'a str, String> {
        self.taken += 1;
        self.left
            .next()
            .ok_or_else(|| format!("item {} is missing", self.taken))
    }

    fn amiss(&self, item: &str, why: &str) -> String {
        format!("item {}, `{item}`: {why}", self.taken)
    }
}

fn number(item: &str) -> Option<u64> {
    let is_plain = item.bytes().all(|byte| byte.is_ascii_digit());
    let leads_with_zero = item.len() > 1 && item.starts_with('0');
    if is_plain && !leads_with_zero {
        item.parse().ok()
    } else {
        None
    }
}

fn signed(item: &str) -> Option<i32> {
    match item.strip_prefix('-') {
        None => i32::try_from(number(item)?).ok(),
        Some("0") => None,
        Some(size) => i32::try_from(-i64::try_from(number(size)?).ok()?).ok(),
    }
}

fn bytes(item: &str) -> Option<Vec<u8>> {
    if item == "-" {
        return Some(Vec::new());
    }
    if item.is_empty() || item.len() % 2 == 1 {
        return None;
    }
    let digit = |byte: u8| match byte {
        b'0'..=b'9' => Some(byte - b'0'),
        b'a'..=b'f' => Some(byte - b'a' + 10),
        _ => None,
    };
    item.as_bytes()
        .chunks(2)
        .map(|pair| Some(16 * digit(pair[0])? + digit(pair[1])?))
        .collect()
}

/// The items of an answer, each with one space before it.
#[derive(Default)]
pub struct Answer {
    text: String,
}

impl Answer {
    pub fn number(mut self, value: u64) -> Answer {
        self.put(format_args!(" {value}"));
        self
    }

    pub fn numbers(self, values: &[u64]) -> Answer {
        values
            .iter()
            .fold(self, |answer, &value| answer.number(value))
    }

    pub fn joint(mut self, joint: &Joint, form: Form) -> Answer {
        let fields = joint.to_fields();
        for (place, &field) in fields[..form.numbers()].iter().enumerate() {
            if AXIALS.contains(&place) {
                self.put(format_args!(" {}", field as i32));
            } else {
                self.put(format_args!(" {field}"));
            }
        }
        self
    }

    pub fn bolt_table(self, table: &BoltTable) -> Answer {
        self.numbers(&table.to_words().map(u64::from))
    }

    pub fn bytes(mut self, bytes: &[u8]) -> Answer {
        self.text.push(' ');
        if bytes.is_empty() {
            self.text.push('-');
        }
        for byte in bytes {
            self.put(format_args!("{byte:02x}"));
        }
        self
    }

    pub fn text(self) -> String {
        self.text
    }

    fn put(&mut self, item: std::fmt::Arguments) {
        self.text.write_fmt(item).expect("a string takes any text");
    }
}

#[cfg(test)]
mod tests {
    use super::*;

    #[test]
    fn numbers_in_base_ten() {
        assert_eq!(number("0"), Some(0));
        assert_eq!(number("18446744073709551615"), Some(u64::MAX));
        for item in [
            "",
            "00",
            "01",
            "+1",
            "-1",
            "1.0",
            "1e3",
            "ff",
            "18446744073709551616",
        ] {
            assert_eq!(number(item), None, "{item}");
        }
    }

    #[test]
    fn axial_forces_in_base_ten() {
        assert_eq!(signed("-2147483648"), Some(i32::MIN));
        assert_eq!(signed("2147483647"), Some(i32::MAX));
        assert_eq!(signed("-10"), Some(-10));
        for item in [
            "",
            "-",
            "-0",
            "-01",
            "--1",
            "+1",
            "2147483648",
            "-2147483649",
        ] {
            assert_eq!(signed(item), None, "{item}");
        }
    }

    #[test]
    fn bytes_in_base_sixteen() {
        assert_eq!(bytes("-"), Some(vec![]));
        assert_eq!(bytes("00a5ff"), Some(vec![0, 0xa5, 0xff]));
        for item in ["", "0", "A5", "a5f", "0x", "--", "+1", "é"] {
            assert_eq!(bytes(item), None, "{item}");
        }
    }

    #[test]
    fn items_are_counted() {
        let (word, mut items) = Items::of("cell 7 19");
        assert_eq!(word, "cell");
        assert_eq!(items.number(0..=9), Ok(7));
        assert_eq!(
            items.number(1..=18).unwrap_err(),
            "item 2, `19`: not a number from 1 to 18"
        );
        assert_eq!(items.number(0..=9).unwrap_err(), "item 3 is missing");
        assert_eq!(items.end(), Ok(()));
    }
}
