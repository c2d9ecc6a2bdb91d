//! What a key of the rules is bound to.

/// A value that is bound to a key: a number, or a text that is a name (1 to 24 bytes of `a`..`z`, `0`..`9`, `-`, `_`,
/// `.` with a letter first). A [`Local`](crate::Local) has a value of any type.
///
/// ```
/// # use balkreyn::{Realm, Refusal, Value};
/// let seen = Realm::new()?.run(|cx| cx.bind("tenant", "acme", |cx| cx.get("tenant")))?;
/// assert_eq!(seen, Some(Value::Text("acme".to_owned())));
/// # Ok::<(), Refusal>(())
/// ```
#[derive(Clone, Debug, PartialEq, Eq)]
pub enum Value {
    /// A number.
    Number(i64),
    /// A text.
    Text(String),
}

impl Value {
    /// As a script says it.
    #[doc(hidden)]
    pub fn word(&self) -> String {
        match self {
            Value::Number(number) => number.to_string(),
            Value::Text(text) => text.clone(),
        }
    }
}

impl From<i64> for Value {
    fn from(number: i64) -> Value {
        Value::Number(number)
    }
}

impl From<&str> for Value {
    fn from(text: &str) -> Value {
        Value::Text(text.to_owned())
    }
}
