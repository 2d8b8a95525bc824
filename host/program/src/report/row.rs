//! A row of named values, written as a JSON object or as a line of CSV.

use std::borrow::Cow;

use robequarry::text::Escaped;

#[derive(Clone, Debug, PartialEq)]
pub enum Value<'a> {
    /// `null`; in CSV an empty field.
    Nothing,
    Number(i64),
    /// Our own words, and what has been escaped.
    Text(Cow<'a, str>),
    /// A name, which CSV escapes so that it can be read back.
    Name(Cow<'a, str>),
    /// `[1,2]`; in CSV `1 2`.
    Pair(i32, i32),
    /// `[[1,2],[3,4]]`; in CSV `1 2 3 4`.
    Pairs(Vec<(i32, i32)>),
    /// `[1,"a"]`. CSV has none.
    List(Vec<Value<'a>>),
    /// An object in an object. CSV has none.
    Object(Vec<(Cow<'a, str>, Value<'a>)>),
}

/// Names and values in their order.
pub type Row<'a> = Vec<(&'static str, Value<'a>)>;

impl<'a> Value<'a> {
    pub fn text(text: impl Into<Cow<'a, str>>) -> Self {
        Value::Text(text.into())
    }

    pub fn name(name: impl Into<Cow<'a, str>>) -> Self {
        Value::Name(name.into())
    }

    pub fn number(number: impl TryInto<i64>) -> Self {
        number.try_into().map_or(Value::Nothing, Value::Number)
    }

    /// The value, or nothing.
    pub fn perhaps(value: Option<Value<'a>>) -> Self {
        value.unwrap_or(Value::Nothing)
    }
}

/// A number in decimal: rows are mostly numbers, and this is several times as fast as a format string.
fn decimal(out: &mut Vec<u8>, number: i64) {
    let mut digits = [0; 20];
    let mut at = digits.len();
    let mut rest = number.unsigned_abs();
    loop {
        at -= 1;
        digits[at] = b'0' + (rest % 10) as u8;
        rest /= 10;
        if rest == 0 {
            break;
        }
    }
    if number < 0 {
        out.push(b'-');
    }
    out.extend_from_slice(&digits[at..]);
}

/// Two numbers with something between them.
fn pair(out: &mut Vec<u8>, (a, b): (i32, i32), between: u8) {
    decimal(out, a.into());
    out.push(between);
    decimal(out, b.into());
}

/// Things with something between them.
fn list<T>(out: &mut Vec<u8>, things: &[T], between: u8, mut each: impl FnMut(&mut Vec<u8>, &T)) {
    for (i, thing) in things.iter().enumerate() {
        if i > 0 {
            out.push(between);
        }
        each(out, thing);
    }
}

pub fn json_line(out: &mut Vec<u8>, row: &Row) {
    out.push(b'{');
    list(out, row, b',', |out, (name, value)| field(out, name, value));
    out.extend_from_slice(b"}\n");
}

fn field(out: &mut Vec<u8>, name: &str, value: &Value) {
    json_text(out, name);
    out.push(b':');
    json(out, value);
}

fn json(out: &mut Vec<u8>, value: &Value) {
    match value {
        Value::Nothing => out.extend_from_slice(b"null"),
        Value::Number(number) => decimal(out, *number),
        Value::Text(text) | Value::Name(text) => json_text(out, text),
        Value::Pair(a, b) => json_pair(out, &(*a, *b)),
        Value::Pairs(pairs) => {
            out.push(b'[');
            list(out, pairs, b',', json_pair);
            out.push(b']');
        }
        Value::List(values) => {
            out.push(b'[');
            list(out, values, b',', json);
            out.push(b']');
        }
        Value::Object(fields) => {
            out.push(b'{');
            list(out, fields, b',', |out, (name, value)| field(out, name, value));
            out.push(b'}');
        }
    }
}

fn json_pair(out: &mut Vec<u8>, numbers: &(i32, i32)) {
    out.push(b'[');
    pair(out, *numbers, b',');
    out.push(b']');
}

/// A string with everything escaped that JSON, or a terminal, would take for something else.
fn json_text(out: &mut Vec<u8>, text: &str) {
    out.push(b'"');
    let mut rest = text;
    while let Some(at) = rest.find(|char: char| char.is_control() || char == '"' || char == '\\') {
        let special = rest[at..].chars().next().expect("there is a character");
        out.extend_from_slice(&rest.as_bytes()[..at]);
        match special {
            '"' | '\\' => out.extend_from_slice(&[b'\\', special as u8]),
            _ => out.extend_from_slice(format!("\\u{:04x}", special as u32).as_bytes()),
        }
        rest = &rest[at + special.len_utf8()..];
    }
    out.extend_from_slice(rest.as_bytes());
    out.push(b'"');
}

/// The first line of a CSV.
pub fn csv_names(out: &mut Vec<u8>, names: &[&str]) {
    out.extend_from_slice(names.join(",").as_bytes());
    out.push(b'\n');
}

pub fn csv_line(out: &mut Vec<u8>, row: &Row) {
    list(out, row, b',', |out, (_, value)| match value {
        Value::Nothing | Value::List(_) | Value::Object(_) => {}
        Value::Number(number) => decimal(out, *number),
        Value::Text(text) => csv_text(out, text),
        Value::Name(name) => csv_text(out, &Escaped(name).to_string()),
        Value::Pair(a, b) => pair(out, (*a, *b), b' '),
        Value::Pairs(pairs) => list(out, pairs, b' ', |out, numbers| pair(out, *numbers, b' ')),
    });
    out.push(b'\n');
}

/// A field, in quotes where it needs them.
fn csv_text(out: &mut Vec<u8>, text: &str) {
    if text.contains([',', '"']) || text.starts_with(' ') || text.ends_with(' ') {
        out.extend_from_slice(format!("\"{}\"", text.replace('"', "\"\"")).as_bytes());
    } else {
        out.extend_from_slice(text.as_bytes());
    }
}

#[cfg(test)]
mod tests {
    use super::*;

    #[test]
    fn numbers_in_decimal() {
        for number in [0, 7, -1, 10, 255, -32_768, i64::MAX, i64::MIN] {
            let mut out = Vec::new();
            decimal(&mut out, number);
            assert_eq!(String::from_utf8(out).unwrap(), number.to_string());
        }
    }

    #[test]
    fn rows_in_both_forms() {
        let row: Row = vec![
            ("a", Value::Nothing),
            ("b", Value::Number(-3)),
            ("c", Value::name("x, \"y\"\u{1b}\\")),
            ("d", Value::Pair(1, 2)),
            ("e", Value::Pairs(vec![(1, 2), (3, -4)])),
            ("f", Value::List(vec![Value::Number(1), Value::Nothing, Value::text("z")])),
        ];
        let (mut json, mut csv) = (Vec::new(), Vec::new());
        json_line(&mut json, &row);
        csv_line(&mut csv, &row);
        let expected = r#"{"a":null,"b":-3,"c":"x, \"y\"\u001b\\","d":[1,2],"e":[[1,2],[3,-4]],"f":[1,null,"z"]}"#;
        assert_eq!(String::from_utf8(json).unwrap(), format!("{expected}\n"));
        assert_eq!(String::from_utf8(csv).unwrap(), ",-3,\"x, \"\"y\"\"\\u{1b}\\\",1 2,1 2 3 -4,\n");
    }

    /// RFC 8259, section 7: quotation mark, reverse solidus and U+0000 to U+001F must be escaped, and all else may stand as it is.
    #[test]
    fn strings_of_json() {
        let written = |text: &str| {
            let mut out = Vec::new();
            json_text(&mut out, text);
            String::from_utf8(out).unwrap()
        };
        for number in 0..0x20 {
            let char = char::from_u32(number).unwrap().to_string();
            assert_eq!(written(&char), format!("\"\\u{number:04x}\""));
        }
        assert_eq!(written("\"\\/"), "\"\\\"\\\\/\"");
        assert_eq!(written("\u{1D11E} \u{e9}"), "\"\u{1D11E} \u{e9}\"");
        assert_eq!(written("\u{7f}\u{9b}"), "\"\\u007f\\u009b\"");
    }

    /// RFC 4180, section 2: fields with a separator or a quote are in quotes, and a quote in them stands twice.
    #[test]
    fn fields_of_csv() {
        for (text, expected) in [("a b", "a b"), ("a,b", "\"a,b\""), ("a\"b", "\"a\"\"b\""), ("", ""), (" a", "\" a\"")] {
            let mut out = Vec::new();
            csv_text(&mut out, text);
            assert_eq!(String::from_utf8(out).unwrap(), expected);
        }
    }
}
