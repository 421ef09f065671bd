//! The fields of a line. Fields that a command doesn't have are ignored, and the last one of a field given twice
//! counts.
use serde::Deserialize;
use serde_json::Value;

/// The texts and whole numbers of a line; `None` if one is missing or has another form.
#[derive(Default, Deserialize)]
#[serde(default)]
pub struct Fields<'a> {
    pub cmd: Option<&'a str>,
    pub who: Option<&'a str>,
    pub at: Option<u64>,
    #[serde(rename = "ref")]
    pub reference: Option<&'a str>,
    pub cents: Option<u64>,
    pub id: Option<&'a str>,
    pub to: Option<&'a str>,
    pub stamp: Option<u64>,
    pub from: Option<&'a str>,
    pub reason: Option<&'a str>,
    pub max: Option<u64>,
    pub skip: Option<u64>,
    pub count: Option<u64>,
}

impl<'a> Fields<'a> {
    /// Reads a line of the usual form: an object in which no field is given twice, texts have no escapes, and all known
    /// fields have their form.
    pub fn usual(line: &'a str) -> Option<Self> {
        if line.trim_start().starts_with('{') {
            serde_json::from_str(line).ok()
        } else {
            None
        }
    }
}

impl<'a> From<&'a Value> for Fields<'a> {
    fn from(value: &'a Value) -> Self {
        let text = |name| value.get(name).and_then(Value::as_str);
        let whole = |name| value.get(name).and_then(Value::as_u64);
        Fields {
            cmd: text("cmd"),
            who: text("who"),
            at: whole("at"),
            reference: text("ref"),
            cents: whole("cents"),
            id: text("id"),
            to: text("to"),
            stamp: whole("stamp"),
            from: text("from"),
            reason: text("reason"),
            max: whole("max"),
            skip: whole("skip"),
            count: whole("count"),
        }
    }
}
