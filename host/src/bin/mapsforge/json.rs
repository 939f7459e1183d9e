//! JSON: values, and how they are written.

use std::fmt::{self, Write};

/// A value. Names of an object stand as they are given, each once.
#[derive(Clone, Debug, PartialEq)]
pub enum Value {
    Null,
    Bool(bool),
    Whole(u64),
    Signed(i64),
    /// A number with so many decimals; no number where it is infinite or none.
    Decimal(f64, usize),
    Text(String),
    List(Vec<Value>),
    Object(Vec<(String, Value)>),
}

impl Value {
    pub fn text(text: impl Into<String>) -> Value {
        Value::Text(text.into())
    }

    pub fn optional<T>(value: Option<T>, make: impl FnOnce(T) -> Value) -> Value {
        value.map_or(Value::Null, make)
    }

    pub fn texts(texts: impl IntoIterator<Item = String>) -> Value {
        Value::List(texts.into_iter().map(Value::Text).collect())
    }

    /// An object of names that are known.
    pub fn object<const N: usize>(fields: [(&str, Value); N]) -> Value {
        Value::Object(fields.into_iter().map(|(name, value)| (name.into(), value)).collect())
    }

    /// The object with a field more.
    pub fn with(self, name: &str, value: Value) -> Value {
        match self {
            Value::Object(mut fields) => {
                fields.push((name.into(), value));
                Value::Object(fields)
            }
            other => other,
        }
    }
}

/// A text in quotes. What is no plain letter is escaped, so that a terminal shows it and does not act on it.
fn quoted(text: &str, f: &mut fmt::Formatter<'_>) -> fmt::Result {
    f.write_char('"')?;
    for letter in text.chars() {
        match letter {
            '"' => f.write_str("\\\"")?,
            '\\' => f.write_str("\\\\")?,
            '\n' => f.write_str("\\n")?,
            '\r' => f.write_str("\\r")?,
            '\t' => f.write_str("\\t")?,
            letter if crate::output::is_unseen(letter) => {
                for half in letter.encode_utf16(&mut [0; 2]) {
                    write!(f, "\\u{half:04x}")?;
                }
            }
            letter => f.write_char(letter)?,
        }
    }
    f.write_char('"')
}

fn separated<T>(
    f: &mut fmt::Formatter<'_>,
    [open, close]: [char; 2],
    items: &[T],
    mut each: impl FnMut(&T, &mut fmt::Formatter<'_>) -> fmt::Result,
) -> fmt::Result {
    f.write_char(open)?;
    for (k, item) in items.iter().enumerate() {
        if k > 0 {
            f.write_char(',')?;
        }
        each(item, f)?;
    }
    f.write_char(close)
}

impl fmt::Display for Value {
    fn fmt(&self, f: &mut fmt::Formatter<'_>) -> fmt::Result {
        match self {
            Value::Null => f.write_str("null"),
            Value::Bool(value) => write!(f, "{value}"),
            Value::Whole(value) => write!(f, "{value}"),
            Value::Signed(value) => write!(f, "{value}"),
            Value::Decimal(value, _) if !value.is_finite() => f.write_str("null"),
            Value::Decimal(value, decimals) => write!(f, "{value:.decimals$}"),
            Value::Text(text) => quoted(text, f),
            Value::List(items) => separated(f, ['[', ']'], items, |item, f| write!(f, "{item}")),
            Value::Object(fields) => separated(f, ['{', '}'], fields, |(name, value), f| {
                quoted(name, f)?;
                write!(f, ":{value}")
            }),
        }
    }
}

#[cfg(test)]
mod tests {
    use super::Value;

    #[test]
    fn values() {
        let value = Value::object([
            ("a\"b", Value::text("line\nend\u{1b}\u{202e}\u{e0041} ø")),
            ("list", Value::List(vec![Value::Null, Value::Bool(true), Value::Signed(-3)])),
        ])
        .with("at", Value::Decimal(0.1 + 0.2, 6))
        .with("none", Value::Decimal(f64::NAN, 6));
        assert_eq!(
            value.to_string(),
            "{\"a\\\"b\":\"line\\nend\\u001b\\u202e\\udb40\\udc41 ø\",\
             \"list\":[null,true,-3],\"at\":0.300000,\"none\":null}"
        );
    }
}
