//! JSON values, written on one line.
use nibgravel_numbers::Number;
use std::fmt;

#[derive(Clone, Debug, PartialEq)]
pub enum Json {
    Null,
    Truth(bool),
    Whole(u64),
    Signed(i64),
    Real(f64),
    Text(String),
    List(Vec<Json>),
    Object(Vec<(&'static str, Json)>),
}

impl Json {
    pub fn list<T: Into<Json>>(values: impl IntoIterator<Item = T>) -> Json {
        Json::List(values.into_iter().map(Into::into).collect())
    }

    /// As a line of its own.
    pub fn line(&self) -> String {
        format!("{self}\n")
    }
}

impl fmt::Display for Json {
    fn fmt(&self, f: &mut fmt::Formatter) -> fmt::Result {
        match self {
            Json::Null => f.write_str("null"),
            Json::Truth(value) => write!(f, "{value}"),
            Json::Whole(value) => write!(f, "{value}"),
            Json::Signed(value) => write!(f, "{value}"),
            // The shortest decimal that reads back to the same double, without an exponent.
            Json::Real(value) if value.is_finite() => write!(f, "{value}"),
            Json::Real(_) => f.write_str("null"),
            Json::Text(value) => quoted(f, value),
            Json::List(values) => {
                f.write_str("[")?;
                for (k, value) in values.iter().enumerate() {
                    write!(f, "{}{value}", comma(k))?;
                }
                f.write_str("]")
            }
            Json::Object(fields) => {
                f.write_str("{")?;
                for (k, (name, value)) in fields.iter().enumerate() {
                    write!(f, "{}\"{name}\":{value}", comma(k))?;
                }
                f.write_str("}")
            }
        }
    }
}

fn comma(k: usize) -> &'static str {
    if k == 0 {
        ""
    } else {
        ","
    }
}

fn quoted(f: &mut fmt::Formatter, text: &str) -> fmt::Result {
    f.write_str("\"")?;
    for letter in text.chars() {
        match letter {
            '"' => f.write_str("\\\"")?,
            '\\' => f.write_str("\\\\")?,
            '\n' => f.write_str("\\n")?,
            _ if letter.is_control() => write!(f, "\\u{:04x}", letter as u32)?,
            _ => write!(f, "{letter}")?,
        }
    }
    f.write_str("\"")
}

impl From<&str> for Json {
    fn from(value: &str) -> Json {
        Json::Text(value.to_string())
    }
}

impl From<String> for Json {
    fn from(value: String) -> Json {
        Json::Text(value)
    }
}

impl From<bool> for Json {
    fn from(value: bool) -> Json {
        Json::Truth(value)
    }
}

impl From<u64> for Json {
    fn from(value: u64) -> Json {
        Json::Whole(value)
    }
}

impl From<Number> for Json {
    fn from(number: Number) -> Json {
        u64::from(u8::from(number)).into()
    }
}

impl From<usize> for Json {
    fn from(value: usize) -> Json {
        Json::Whole(value as u64)
    }
}

impl From<i64> for Json {
    fn from(value: i64) -> Json {
        Json::Signed(value)
    }
}

impl From<f64> for Json {
    fn from(value: f64) -> Json {
        Json::Real(value)
    }
}

#[cfg(test)]
mod tests {
    use super::*;

    #[test]
    fn a_line_of_each_kind() {
        let value = Json::Object(vec![
            ("text", "a\"\\\n\u{1}é".into()),
            ("most", u64::MAX.into()),
            ("least", i64::MIN.into()),
            ("volume", (8_000.0 / 6_000_000.0).into()),
            ("none", f64::NAN.into()),
            ("list", Json::list([true, false])),
        ]);
        let expected =
            "{\"text\":\"a\\\"\\\\\\n\\u0001é\",\"most\":18446744073709551615,\"least\":-9223372036854775808,\
                        \"volume\":0.0013333333333333333,\"none\":null,\"list\":[true,false]}\n";
        assert_eq!(value.line(), expected);
    }
}
