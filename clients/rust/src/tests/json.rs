//! As much of JSON as clients/vectors.json has: objects, arrays and texts without escapes.

use std::collections::HashMap;

#[derive(Debug)]
pub(super) enum Json {
    Object(HashMap<String, Json>),
    Array(Vec<Json>),
    Text(String),
}

impl Json {
    pub(super) fn parse(text: &str) -> Json {
        let mut rest = text;
        let parsed = value(&mut rest);
        assert!(rest.trim_start().is_empty(), "more behind the value");
        parsed
    }

    /// The field of an object, where it has that.
    pub(super) fn get(&self, name: &str) -> Option<&Json> {
        match self {
            Json::Object(fields) => fields.get(name),
            _ => panic!("{self:?} is no object"),
        }
    }

    pub(super) fn text(&self, name: &str) -> &str {
        match self.get(name) {
            Some(Json::Text(text)) => text,
            other => panic!("{name} is {other:?}, and no text"),
        }
    }

    pub(super) fn number(&self, name: &str) -> u64 {
        self.text(name).parse().expect("a number")
    }

    pub(super) fn array(&self, name: &str) -> &[Json] {
        match self.get(name) {
            Some(Json::Array(items)) => items,
            other => panic!("{name} is {other:?}, and no array"),
        }
    }
}

fn value(rest: &mut &str) -> Json {
    *rest = rest.trim_start();
    match rest.chars().next() {
        Some('{') => Json::Object(object(rest)),
        Some('[') => Json::Array(array(rest)),
        Some('"') => Json::Text(text(rest)),
        other => panic!("{other:?} begins no value"),
    }
}

fn object(rest: &mut &str) -> HashMap<String, Json> {
    let mut fields = HashMap::new();
    expect(rest, '{');
    while !ends(rest, '}', fields.is_empty()) {
        let name = text(rest);
        expect(rest, ':');
        fields.insert(name, value(rest));
    }
    fields
}

fn array(rest: &mut &str) -> Vec<Json> {
    let mut items = Vec::new();
    expect(rest, '[');
    while !ends(rest, ']', items.is_empty()) {
        items.push(value(rest));
    }
    items
}

fn text(rest: &mut &str) -> String {
    expect(rest, '"');
    let (inside, after) = rest.split_once('"').expect("the end of a text");
    assert!(!inside.contains('\\'), "an escape");
    *rest = after;
    inside.to_string()
}

/// Whether the list ends here; a comma parts its items.
fn ends(rest: &mut &str, end: char, is_first: bool) -> bool {
    *rest = rest.trim_start();
    if let Some(after) = rest.strip_prefix(end) {
        *rest = after;
        return true;
    }
    if !is_first {
        expect(rest, ',');
    }
    false
}

fn expect(rest: &mut &str, sign: char) {
    *rest = rest
        .trim_start()
        .strip_prefix(sign)
        .unwrap_or_else(|| panic!("no {sign} where one must be"));
}
