//! Cases as they are written: blocks, keys, texts, numbers and bytes.

use std::collections::VecDeque;

/// The most bytes or numbers that a value stands for; what is longer is a slip.
const MOST: usize = 1 << 24;

/// A case: its name, and its keys with their values, in order.
#[derive(Clone, Debug, Default, PartialEq, Eq)]
pub struct Case {
    pub name: String,
    lines: Vec<(String, String)>,
}

/// The cases of a file. A block that does not begin with a name is a case too, without one.
pub fn cases(contents: &str) -> Vec<Case> {
    let mut cases = vec![];
    let mut block = VecDeque::new();
    for line in contents.lines().chain([""]) {
        if line.starts_with('#') {
            continue;
        }
        if !line.is_empty() {
            let (key, value) = line.split_once(' ').unwrap_or((line, ""));
            block.push_back((key.to_string(), value.to_string()));
        } else if !block.is_empty() {
            cases.push(case(std::mem::take(&mut block)));
        }
    }
    cases
}

fn case(mut block: VecDeque<(String, String)>) -> Case {
    let name = match block.front() {
        Some((key, name)) if key == "case" => name.clone(),
        _ => String::new(),
    };
    if !name.is_empty() {
        block.pop_front();
    }
    Case { name, lines: block.into() }
}

impl Case {
    /// All values of a key, one for each of its lines.
    pub fn all(&self, key: &str) -> Vec<&str> {
        self.lines.iter().filter(|(name, _)| name == key).map(|(_, value)| value.as_str()).collect()
    }

    /// Whether a key stands there.
    pub fn has(&self, key: &str) -> bool {
        !self.all(key).is_empty()
    }

    /// The value of a key that may be absent and stands once at most.
    pub fn optional(&self, key: &str) -> Result<Option<&str>, String> {
        match self.all(key)[..] {
            [] => Ok(None),
            [value] => Ok(Some(value)),
            _ => Err(format!("`{key}` more than once")),
        }
    }

    /// The value of a key that stands once.
    pub fn one(&self, key: &str) -> Result<&str, String> {
        self.optional(key)?.ok_or(format!("`{key}` is missing"))
    }

    /// Whether the case holds while requests 1 to `in_force` are in force.
    pub fn holds(&self, in_force: u32) -> Result<bool, String> {
        if self.name.is_empty() {
            return Err("its block does not begin with a name".to_string());
        }
        let range = list(self.one("landed")?)?;
        let &[low, high] = &range[..] else {
            return Err("`landed` is not two numbers".to_string());
        };
        Ok((low..=high).contains(&(in_force as u64)))
    }

    /// An error if there is a key that the call does not have.
    pub fn only(&self, keys: &[&str]) -> Result<(), String> {
        let always = ["landed", "call", "note", "open", "reading", "answer"];
        match self.lines.iter().find(|(key, _)| !always.contains(&&**key) && !keys.contains(&&**key)) {
            Some((key, _)) => Err(format!("`{key}` is unknown here")),
            None => Ok(()),
        }
    }

    /// One number.
    pub fn number<T: TryFrom<u64>>(&self, key: &str) -> Result<T, String> {
        number(self.one(key)?)
    }

    /// The text of all lines of a key, none if it is absent.
    pub fn text(&self, key: &str) -> Result<Option<Vec<u8>>, String> {
        joined(&self.all(key), text)
    }

    /// The numbers of all lines of a key.
    pub fn numbers<T: TryFrom<u64> + Copy>(&self, key: &str) -> Result<Option<Vec<T>>, String> {
        joined(&self.all(key), list)
    }

    /// The bytes of a key.
    pub fn bytes(&self, key: &str) -> Result<Vec<u8>, String> {
        bytes(self.one(key)?)
    }

    /// The lines but the answer, long ones cut.
    pub fn show(&self) -> String {
        let line = |(key, value): &(String, String)| match value.char_indices().nth(2_000) {
            Some((at, _)) => format!("  {key} {} and so on\n", &value[..at]),
            None => format!("  {key} {value}\n"),
        };
        self.lines.iter().filter(|(key, _)| key != "answer").map(line).collect()
    }
}

/// The parts of several lines in one list.
fn joined<T>(lines: &[&str], part: fn(&str) -> Result<Vec<T>, String>) -> Result<Option<Vec<T>>, String> {
    if lines.is_empty() {
        return Ok(None);
    }
    let parts: Result<Vec<Vec<T>>, String> = lines.iter().map(|line| part(line)).collect();
    Ok(Some(parts?.into_iter().flatten().collect()))
}

/// A decimal number.
pub fn number<T: TryFrom<u64>>(digits: &str) -> Result<T, String> {
    let wrong = || format!("{digits:.40?} is no number that fits here");
    if digits.is_empty() || !digits.bytes().all(|byte| byte.is_ascii_digit()) {
        return Err(wrong());
    }
    digits.parse().ok().and_then(|value: u64| T::try_from(value).ok()).ok_or_else(wrong)
}

fn repeated<T: Copy>(count: usize, list: &[T]) -> Result<Vec<T>, String> {
    match count.checked_mul(list.len()) {
        Some(..=MOST) => Ok(list.repeat(count)),
        _ => Err("too long".to_string()),
    }
}

/// What stands after `repeat N`, and N; a value without it stands once.
fn counted(value: &str) -> Result<(usize, &str), String> {
    match value.strip_prefix("repeat ") {
        None => Ok((1, value)),
        Some(rest) => {
            let (count, rest) = rest.split_once(' ').ok_or("`repeat` of nothing")?;
            Ok((number(count)?, rest))
        }
    }
}

/// The parts of a list, each as often as it says; `-` is a list of none.
fn parts<T: Copy>(value: &str, part: fn(&str) -> Result<Vec<T>, String>) -> Result<Vec<T>, String> {
    if value == "-" {
        return Ok(vec![]);
    }
    let mut whole = vec![];
    for written in value.split(' ') {
        let (count, rest) = match written.split_once('*') {
            Some((count, rest)) => (number(count)?, rest),
            None => (1, written),
        };
        whole.extend(repeated(count, &part(rest)?)?);
    }
    Ok(whole)
}

/// Decimal numbers.
pub fn list<T: TryFrom<u64> + Copy>(value: &str) -> Result<Vec<T>, String> {
    let (count, rest) = counted(value)?;
    repeated(count, &parts(rest, |digits| Ok(vec![number(digits)?]))?)
}

/// A decimal number that may have a minus sign before it.
fn signed(digits: &str) -> Result<i16, String> {
    let value = match digits.strip_prefix('-') {
        Some(digits) => -number::<u32>(digits).map(i64::from)?,
        None => number::<u32>(digits)?.into(),
    };
    i16::try_from(value).map_err(|_| format!("{digits:.40?} is no number that fits here"))
}

/// Decimal numbers, each of which may have a minus sign.
pub fn signed_list(value: &str) -> Result<Vec<i16>, String> {
    let (count, rest) = counted(value)?;
    repeated(count, &parts(rest, |digits| Ok(vec![signed(digits)?]))?)
}

/// Bytes in hex, two digits each.
pub fn bytes(value: &str) -> Result<Vec<u8>, String> {
    parts(value, |digits| {
        let wrong = || format!("{digits:.40?} is not hex");
        if digits.is_empty() || digits.len() % 2 != 0 || !digits.bytes().all(|byte| byte.is_ascii_hexdigit())
        {
            return Err(wrong());
        }
        let pair = |at: usize| u8::from_str_radix(&digits[at..at + 2], 16).map_err(|_| wrong());
        (0..digits.len()).step_by(2).map(pair).collect()
    })
}

/// A text in double quotes.
pub fn text(value: &str) -> Result<Vec<u8>, String> {
    let (count, rest) = counted(value)?;
    let inner = rest.strip_prefix('"').and_then(|rest| rest.strip_suffix('"')).ok_or("no text in quotes")?;
    repeated(count, &unescaped(inner.as_bytes())?)
}

fn unescaped(mut inner: &[u8]) -> Result<Vec<u8>, String> {
    let mut bytes = vec![];
    while let Some((&first, rest)) = inner.split_first() {
        let (byte, rest) = match (first, rest) {
            (b'\\', [b'n', rest @ ..]) => (b'\n', rest),
            (b'\\', [b't', rest @ ..]) => (b'\t', rest),
            (b'\\', [same @ (b'"' | b'\\'), rest @ ..]) => (*same, rest),
            (b'\\', [b'x', high, low, rest @ ..]) => (hex_digit(*high)? << 4 | hex_digit(*low)?, rest),
            (b'\\' | b'"', _) => return Err("a quote or backslash that stands for nothing".to_string()),
            _ => (first, rest),
        };
        bytes.push(byte);
        inner = rest;
    }
    Ok(bytes)
}

fn hex_digit(digit: u8) -> Result<u8, String> {
    let value = (digit as char).to_digit(16).ok_or("a digit that is not hex")?;
    Ok(value as u8)
}

#[cfg(test)]
mod tests {
    use super::*;

    #[test]
    fn blocks() {
        let cases =
            cases("# a comment\n\ncase one\nnote a b\n# another\nbudget 7\n\n\ncase two\nrow 1\nrow 2\n");
        assert_eq!(cases.len(), 2);
        assert_eq!((&*cases[0].name, cases[0].one("note")), ("one", Ok("a b")));
        assert_eq!(cases[0].number("budget"), Ok(7u16));
        assert_eq!(cases[1].all("row"), ["1", "2"]);
        assert!(cases[1].one("row").is_err() && cases[1].one("note").is_err());
        assert_eq!(cases[1].only(&["row"]), Ok(()));
        assert!(cases[0].only(&["row"]).is_err());
    }

    #[test]
    fn ranges() {
        let case = &cases("case a\nlanded 2 6\n")[0];
        assert_eq!([1, 2, 6, 7].map(|in_force| case.holds(in_force)), [false, true, true, false].map(Ok));
        for damaged in ["case a\n", "case a\nlanded 1\n", "case a\nlanded 1 x\n", "landed 1 2\n"] {
            assert!(cases(damaged)[0].holds(1).is_err(), "{damaged:?}");
        }
    }

    #[test]
    fn texts() {
        assert_eq!(text(r#""a\n\t\"\\\x00\xFf;""#), Ok(b"a\n\t\"\\\x00\xff;".to_vec()));
        assert_eq!(text(r#"repeat 3 "ab""#), Ok(b"ababab".to_vec()));
        assert_eq!(text(r#""""#), Ok(vec![]));
        assert_eq!(text("\"\u{e4}\""), Ok(vec![0xc3, 0xa4]));
        for damaged in [r#"""#, "a", r#""a"b""#, r#""\q""#, r#""\x1""#, r#""\""#, r#"repeat "a""#, ""] {
            assert!(text(damaged).is_err(), "{damaged}");
        }
    }

    #[test]
    fn lists() {
        assert_eq!(list::<u16>("1 3*0 65535"), Ok(vec![1, 0, 0, 0, 65_535]));
        assert_eq!(list::<u16>("repeat 2 7 2*8"), Ok(vec![7, 8, 8, 7, 8, 8]));
        assert_eq!(list::<u16>("-"), Ok(vec![]));
        for damaged in ["", "65536", "-1", "1  2", "1*", "*1", "+1", "repeat 2", "9999999999*1", "0x1"] {
            assert!(list::<u16>(damaged).is_err(), "{damaged}");
        }
        assert_eq!(signed_list("-1 2*-1000 32767 -32768 0"), Ok(vec![-1, -1000, -1000, 32_767, -32_768, 0]));
        assert_eq!(signed_list("-"), Ok(vec![]));
        for damaged in ["", "32768", "-32769", "- 1", "1 -", "--1", "+1", "-2*1", "2*", "1-", "-99999999999"]
        {
            assert!(signed_list(damaged).is_err(), "{damaged}");
        }
        assert_eq!(bytes("00 2*ff 0aB1"), Ok(vec![0, 255, 255, 10, 177]));
        assert_eq!(bytes("-"), Ok(vec![]));
        for damaged in ["", "0", "+1", "0g", "000", "2*0", "\u{e4}"] {
            assert!(bytes(damaged).is_err(), "{damaged}");
        }
    }

    #[test]
    fn several_lines_are_one() {
        let case = &cases("case a\ntext \"ab\"\ntext repeat 2 \"c\"\nstored 1 2\nstored 2*3\n")[0];
        assert_eq!(case.text("text"), Ok(Some(b"abcc".to_vec())));
        assert_eq!(case.numbers("stored"), Ok(Some(vec![1u16, 2, 3, 3])));
        assert_eq!(case.text("program"), Ok(None));
    }
}
