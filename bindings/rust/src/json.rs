//! As much of JSON as answers and replies have.

use std::iter::Peekable;
use std::str::Chars;

/// A text as JSON writes it.
pub(crate) fn quoted(text: &str) -> String {
    let mut quoted = String::from('"');
    for letter in text.chars() {
        match letter {
            '"' | '\\' => quoted.extend(['\\', letter]),
            '\0'..='\x1f' => quoted.push_str(&format!("\\u{:04x}", u32::from(letter))),
            _ => quoted.push(letter),
        }
    }
    quoted.push('"');
    quoted
}

/// Answers and replies nest less deep. (A value that nests without end would use up the stack.)
const MOST_DEPTH: usize = 16;

/// A value of an answer, in which numbers are whole.
#[derive(Clone, Debug, PartialEq, Eq)]
pub(crate) enum Value {
    Number(i128),
    Text(String),
    Array(Vec<Value>),
    Object(Vec<(String, Value)>),
}

impl Value {
    /// The value that a text is, if it is one.
    pub(crate) fn read(text: &str) -> Option<Value> {
        let mut letters = text.chars().peekable();
        let value = value(&mut letters, MOST_DEPTH)?;
        letters.next().is_none().then_some(value)
    }

    pub(crate) fn number<T: TryFrom<i128>>(&self) -> Option<T> {
        match self {
            Value::Number(number) => T::try_from(*number).ok(),
            _ => None,
        }
    }

    pub(crate) fn text(&self) -> Option<&str> {
        match self {
            Value::Text(text) => Some(text),
            _ => None,
        }
    }

    pub(crate) fn items(&self) -> Option<&[Value]> {
        match self {
            Value::Array(items) => Some(items),
            _ => None,
        }
    }

    /// What each item of an array is read as.
    pub(crate) fn each<T>(&self, item: impl Fn(&Value) -> Option<T>) -> Option<Vec<T>> {
        self.items()?.iter().map(item).collect()
    }

    pub(crate) fn member(&self, name: &str) -> Option<&Value> {
        match self {
            Value::Object(members) => {
                let found = members.iter().find(|(it, _)| it == name);
                found.map(|(_, value)| value)
            }
            _ => None,
        }
    }
}

type Letters<'t> = Peekable<Chars<'t>>;

fn value(letters: &mut Letters<'_>, depth: usize) -> Option<Value> {
    let below = depth.checked_sub(1)?;
    match letters.peek()? {
        '[' => Some(Value::Array(between(letters, ']', |it| value(it, below))?)),
        '{' => Some(Value::Object(between(letters, '}', |it| {
            member(it, below)
        })?)),
        '"' => Some(Value::Text(text(letters)?)),
        _ => Some(Value::Number(number(letters)?)),
    }
}

fn member(letters: &mut Letters<'_>, depth: usize) -> Option<(String, Value)> {
    let name = text(letters)?;
    letters.next_if_eq(&':')?;
    Some((name, value(letters, depth)?))
}

/// The items up to what closes them, with commas between them.
fn between<T>(
    letters: &mut Letters<'_>,
    close: char,
    item: impl Fn(&mut Letters<'_>) -> Option<T>,
) -> Option<Vec<T>> {
    let mut items = Vec::new();
    letters.next()?;
    if letters.next_if_eq(&close).is_some() {
        return Some(items);
    }
    loop {
        items.push(item(letters)?);
        match letters.next()? {
            ',' => {}
            it if it == close => return Some(items),
            _ => return None,
        }
    }
}

fn text(letters: &mut Letters<'_>) -> Option<String> {
    letters.next_if_eq(&'"')?;
    let mut text = String::new();
    loop {
        match letters.next()? {
            '"' => return Some(text),
            '\\' => text.push(escaped(letters)?),
            letter => text.push(letter),
        }
    }
}

/// The letter that stands behind a backslash. (No reply has one as a pair of surrogates.)
fn escaped(letters: &mut Letters<'_>) -> Option<char> {
    match letters.next()? {
        letter @ ('"' | '\\' | '/') => Some(letter),
        'b' => Some('\x08'),
        'f' => Some('\x0c'),
        'n' => Some('\n'),
        'r' => Some('\r'),
        't' => Some('\t'),
        'u' => {
            let digits: String = letters.take(4).collect();
            char::from_u32(u32::from_str_radix(&digits, 16).ok()?)
        }
        _ => None,
    }
}

fn number(letters: &mut Letters<'_>) -> Option<i128> {
    let mut digits = String::new();
    while let Some(letter) = letters.next_if(|it| matches!(it, '-' | '0'..='9')) {
        digits.push(letter);
    }
    digits.parse().ok()
}

#[cfg(test)]
mod tests {
    use super::{Value, quoted};

    #[test]
    fn reads_what_is_written() {
        let row = Value::read(r#"[{"above":18446744073709551615,"node":"/a"},[],{},-5]"#).unwrap();
        let items = row.items().unwrap();
        assert_eq!(items[0].member("above").unwrap().number(), Some(u64::MAX));
        assert_eq!(items[0].member("node").unwrap().text(), Some("/a"));
        assert_eq!(items[1], Value::Array(vec![]));
        assert_eq!(items[2], Value::Object(vec![]));
        assert_eq!(items[3].number(), Some(-5_i64));
        for wrong in ["", "[", "[1,]", "[1 2]", "{\"a\"}", "\"a", "1]", "x"] {
            assert_eq!(Value::read(wrong), None, "{wrong}");
        }
    }

    #[test]
    fn reads_escapes() {
        let hint = Value::read(r#""no \"/c\" \\ \/\b\f\n\r\t\u00e9""#).unwrap();
        assert_eq!(hint.text(), Some("no \"/c\" \\ /\u{8}\u{c}\n\r\té"));
        for wrong in [r#""\x""#, r#""\u12""#, r#""\ud800""#, r#""\"#] {
            assert_eq!(Value::read(wrong), None, "{wrong}");
        }
    }

    #[test]
    fn what_nests_without_end_is_no_value() {
        for (depth, is_read) in [(15, true), (16, false), (1_000_000, false)] {
            let text = format!("{}1{}", "[".repeat(depth), "]".repeat(depth));
            assert_eq!(Value::read(&text).is_some(), is_read, "{depth}");
        }
    }

    #[test]
    fn escapes_what_json_does() {
        assert_eq!(quoted("/a\"\\\n"), r#""/a\"\\\u000a""#);
    }
}
