//! Sets of characters, as msdf-atlas-gen writes them, and ranges like `A..Z`.

use std::collections::BTreeSet;
use std::str::FromStr;

/// Characters in order, each once.
#[derive(Clone, Debug, PartialEq, Eq)]
pub struct Charset(pub BTreeSet<char>);

impl Charset {
    /// The printable characters of ASCII.
    pub fn ascii() -> Charset {
        Charset((' '..='~').collect())
    }
}

/// Items with commas or spaces between: `A..Z`, `A`, `'A'`, `"ABC"`, `65`, `0x41`, `['A', 'Z']`, `[65, 90]`.
impl FromStr for Charset {
    type Err = String;

    fn from_str(text: &str) -> Result<Charset, String> {
        let mut set = BTreeSet::new();
        let mut rest = text;
        while let Some(start) = rest.find(|c: char| !between(c)) {
            rest = &rest[start..];
            rest = item(rest, &mut set).ok_or_else(|| format!("cannot read this from '{rest}' on"))?;
            if !rest.is_empty() && !rest.starts_with(between) {
                return Err(format!("a comma is missing before '{rest}'"));
            }
        }
        if set.is_empty() { Err("no characters".to_owned()) } else { Ok(Charset(set)) }
    }
}

fn between(c: char) -> bool {
    c == ',' || c.is_whitespace()
}

/// Adds the first item's characters to the set; the rest of the text.
fn item<'a>(text: &'a str, set: &mut BTreeSet<char>) -> Option<&'a str> {
    let mut chars = text.chars();
    if let (Some(first), Some('.'), Some('.'), Some(last)) = (chars.next(), chars.next(), chars.next(), chars.next()) {
        range(first, last, set)?;
        return Some(chars.as_str());
    }
    if let Some(inside) = text.strip_prefix('[') {
        let (first, rest) = character(inside.trim_start())?;
        let rest = rest.trim_start().strip_prefix(',')?;
        let (last, rest) = character(rest.trim_start())?;
        range(first, last, set)?;
        return rest.trim_start().strip_prefix(']');
    }
    if text.starts_with('"') {
        let (string, rest) = quoted(text, '"')?;
        set.extend(string.chars());
        return Some(rest);
    }
    let (c, rest) = character(text)?;
    set.insert(c);
    Some(rest)
}

fn range(first: char, last: char, set: &mut BTreeSet<char>) -> Option<()> {
    set.extend(first..=last);
    (first <= last).then_some(())
}

/// One character: quoted, by its number, or as it is where it stands alone and is no digit.
fn character(text: &str) -> Option<(char, &str)> {
    if text.starts_with('\'') {
        let (string, rest) = quoted(text, '\'')?;
        let mut chars = string.chars();
        return chars.next().filter(|_| chars.next().is_none()).map(|c| (c, rest));
    }
    let mut chars = text.chars();
    let first = chars.next()?;
    if !first.is_ascii_digit() && chars.next().is_none_or(between) {
        return Some((first, &text[first.len_utf8()..]));
    }
    let end = text.find(|c: char| !c.is_ascii_alphanumeric()).unwrap_or(text.len());
    let (number, rest) = text.split_at(end);
    let value = match number.strip_prefix("0x").or(number.strip_prefix("0X")) {
        Some(digits) => u32::from_str_radix(digits, 16),
        None => number.parse(),
    };
    value.ok().and_then(char::from_u32).map(|c| (c, rest))
}

/// What stands in quotes at the start, where `\n`, `\r`, `\t` and `\0` are as in C, and a backslash takes any other
/// character as it is.
fn quoted(text: &str, quote: char) -> Option<(String, &str)> {
    let mut chars = text.strip_prefix(quote)?.chars();
    let mut string = String::new();
    loop {
        match chars.next()? {
            c if c == quote => return Some((string, chars.as_str())),
            '\\' => string.push(match chars.next()? {
                'n' => '\n',
                'r' => '\r',
                't' => '\t',
                '0' => '\0',
                c => c,
            }),
            c => string.push(c),
        }
    }
}

#[cfg(test)]
mod tests {
    use super::*;

    fn set(text: &str) -> Result<String, String> {
        text.parse().map(|Charset(set)| set.into_iter().collect())
    }

    #[test]
    fn ranges_and_items() {
        assert_eq!(set("A..E"), Ok("ABCDE".into()));
        assert_eq!(set("c..d, 0..2 'z' \"az\""), Ok("012acdz".into()));
        assert_eq!(set("['A', 'C'], 0x61, 98, [0x30,50]"), Ok("012ABCab".into()));
        assert_eq!(set(r"'\'' '\\'"), Ok("'\\".into()));
        assert_eq!(set(r#"'\n' '\t' "\r\0\"n""#), Ok("\0\t\n\r\"n".into()));
        assert_eq!(set("., .. /"), Err("cannot read this from '.. /' on".into()));
        assert_eq!(set("'.' é &"), Ok("&.é".into()));
        assert_eq!(Charset::ascii().0.len(), 95);
    }

    #[test]
    fn what_is_none() {
        for text in
            ["", " , ", "Z..A", "AB", "7.", "'AB'", "''", "'A", "[65", "[65 90]", "0x", "0xD800", "1114112", "'A''B'", "[90,65]"]
        {
            assert!(set(text).is_err(), "{text}");
        }
    }
}
