//! As much JSON as the rows need.
use crate::numbers::Refusal;

pub trait Json {
    fn json(&self) -> String;
}

macro_rules! as_displayed {
    ($($t:ty),*) => { $(impl Json for $t { fn json(&self) -> String { self.to_string() } })* };
}
as_displayed!(bool, u8, u32, u64, usize, i64, i128);

impl Json for f64 {
    /// The shortest decimals that read back as the same double.
    fn json(&self) -> String {
        format!("{self:?}")
    }
}

impl Json for str {
    fn json(&self) -> String {
        format!("\"{}\"", self.replace('\n', "\\n"))
    }
}

impl<T: Json> Json for [T] {
    fn json(&self) -> String {
        format!("[{}]", self.iter().map(|x| x.json()).collect::<Vec<_>>().join(","))
    }
}

impl<T: Json> Json for Vec<T> {
    fn json(&self) -> String {
        self[..].json()
    }
}

impl<T: Json, const N: usize> Json for [T; N] {
    fn json(&self) -> String {
        self[..].json()
    }
}

/// An object, its fields in the order in which they are put.
#[derive(Default)]
pub struct Object {
    fields: Vec<String>,
}

impl Object {
    pub fn of_kind(kind: &str) -> Object {
        Object::default().put("kind", kind)
    }

    /// An answer's object, with what it is.
    pub fn that_is(what: &str) -> Object {
        Object::default().put("is", what)
    }

    pub fn put<T: Json + ?Sized>(mut self, name: &str, value: &T) -> Object {
        self.fields.push(format!("\"{name}\":{}", value.json()));
        self
    }
}

impl Json for Object {
    fn json(&self) -> String {
        format!("{{{}}}", self.fields.join(","))
    }
}

pub fn refused(refusal: Refusal) -> Object {
    Object::that_is("refused").put("number", &refusal.number).put("place", &refusal.place)
}
