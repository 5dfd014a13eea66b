//! JSON, written.

use std::fmt::{self, Display, Formatter};

/// What scripts are given.
#[derive(Clone, Debug, PartialEq)]
pub enum Value {
    Null,
    Truth(bool),
    Number(u64),
    Text(String),
    List(Vec<Value>),
    Record(Vec<(&'static str, Value)>),
}

impl From<bool> for Value {
    fn from(truth: bool) -> Self {
        Value::Truth(truth)
    }
}

impl From<u32> for Value {
    fn from(number: u32) -> Self {
        Value::Number(u64::from(number))
    }
}

impl From<usize> for Value {
    fn from(number: usize) -> Self {
        Value::Number(number as u64)
    }
}

impl From<String> for Value {
    fn from(text: String) -> Self {
        Value::Text(text)
    }
}

impl From<&str> for Value {
    fn from(text: &str) -> Self {
        Value::Text(text.to_string())
    }
}

impl<T: Into<Value>> From<Option<T>> for Value {
    fn from(value: Option<T>) -> Self {
        value.map_or(Value::Null, Into::into)
    }
}

impl<T: Into<Value>> FromIterator<T> for Value {
    fn from_iter<I: IntoIterator<Item = T>>(values: I) -> Self {
        Value::List(values.into_iter().map(Into::into).collect())
    }
}

impl Display for Value {
    fn fmt(&self, f: &mut Formatter) -> fmt::Result {
        match self {
            Value::Null => f.write_str("null"),
            Value::Truth(truth) => write!(f, "{truth}"),
            Value::Number(number) => write!(f, "{number}"),
            Value::Text(text) => write_text(f, text),
            Value::List(values) => {
                f.write_str("[")?;
                separated(f, values, |f, value| write!(f, "{value}"))?;
                f.write_str("]")
            }
            Value::Record(fields) => {
                f.write_str("{")?;
                separated(f, fields, |f, (name, value)| write!(f, "\"{name}\":{value}"))?;
                f.write_str("}")
            }
        }
    }
}

fn separated<T>(f: &mut Formatter, items: &[T], write: fn(&mut Formatter, &T) -> fmt::Result) -> fmt::Result {
    for (place, item) in items.iter().enumerate() {
        if place > 0 {
            f.write_str(",")?;
        }
        write(f, item)?;
    }
    Ok(())
}

fn write_text(f: &mut Formatter, text: &str) -> fmt::Result {
    f.write_str("\"")?;
    for character in text.chars() {
        match character {
            '"' | '\\' => write!(f, "\\{character}")?,
            control if control < ' ' => write!(f, "\\u{:04x}", u32::from(control))?,
            _ => write!(f, "{character}")?,
        }
    }
    f.write_str("\"")
}

#[cfg(test)]
mod tests {
    use super::*;

    #[test]
    fn every_form_is_written() {
        let value = Value::Record(vec![
            ("none", Value::Null),
            ("truth", true.into()),
            ("number", u32::MAX.into()),
            ("text", "a \"b\" \\ \u{1} \n".into()),
            ("list", [1u32, 2].into_iter().collect()),
            ("empty", Value::List(Vec::new())),
        ]);
        let first = r#"{"none":null,"truth":true,"number":4294967295,"text":"a \"b\" \\ \u0001 \u000a","#;
        let last = r#""list":[1,2],"empty":[]}"#;
        assert_eq!(value.to_string(), format!("{first}{last}"));
    }
}
