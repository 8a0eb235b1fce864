//! Lookups by the Rust's `get` and its twelve typed getters, and by its `get` under a limit; along a path one after another.

use bson::{error::Result as RawResult, spec::ElementType as Type};
use bson::{RawBsonRef as Value, RawDocument};

use crate::bytes;
use crate::step::{kind, Element, Kind, Limit, Refusal, Steps};
use crate::value::{starred, Content, Reading};

/// A path may have so many keys; the Rust has no paths.
pub const MOST_KEYS: usize = 201;

/// A part `get KEY` or `path PATH`, or with a tag `typed KEY TAG` or `path-typed PATH TAG`.
pub struct Question<'c> {
    pub part: &'c str,
    keys: Vec<Vec<u8>>,
    tag: Option<u8>,
}

impl<'c> Question<'c> {
    pub fn read(part: &'c str) -> Result<Self, String> {
        let fields: Vec<_> = part.split(' ').collect();
        let (word, field, tag) = match fields[..] {
            [word @ ("get" | "path"), field] => (word, field, None),
            [word @ ("typed" | "path-typed"), field, tag] if tag.len() == 2 => {
                (word, field, Some(bytes(tag)?[0]))
            }
            _ => return Err(format!("no lookup by a key or a path: `{part}`")),
        };
        let given = bytes(field)?;
        let keys = match word {
            "get" | "typed" => vec![given],
            _ => keys_of(&given).map(Vec::from).collect(),
        };
        Ok(Self { part, keys, tag })
    }

    /// Whether these are more keys than a path may have, which is refused before all else.
    pub fn is_too_long(&self) -> bool {
        self.keys.len() > MOST_KEYS
    }

    /// The answer, which is a mere star where the Rust has no such call.
    pub fn ask(&self, doc: &RawDocument, limit: Limit) -> String {
        let texts = self.keys.iter().map(|key| std::str::from_utf8(key).ok());
        let Some(keys) = texts.collect::<Option<Vec<_>>>() else {
            return "*".into();
        };
        let way = along(doc, &keys, limit);
        let Some(answer) = way.answer(self.tag, limit) else {
            return "*".into();
        };
        let (place, found) = find(doc.as_bytes(), way.doc, way.key.as_bytes(), limit);
        let reading = found.as_ref().map(Reading::of);
        let held = reading.is_some_and(|reading| match answer {
            Err("unexpected-type") => reading.judged,
            _ => reading.starred,
        });
        // The Rust has no typed getter under a limit.
        let lent = self.tag.is_some() && limit.is_some() && !way.ends;
        let answer = match answer {
            Ok(value) => {
                let element = found.expect("a lookup answers what iteration yields");
                format!("{place} {}", Content::of(&element, value))
            }
            Err(kind) => Refusal(kind, place).to_string(),
        };
        starred(answer, held || lent)
    }
}

/// The keys of a path, which have a zero byte between them.
pub fn keys_of(path: &[u8]) -> impl Iterator<Item = &[u8]> {
    path.split(|byte| *byte == 0)
}

/// Where one lookup after another leads: the document that is searched last, and the key there.
pub struct Way<'a, 'k> {
    pub doc: &'a RawDocument,
    pub key: &'k str,
    /// More keys are left, but what is found here is no document and no array.
    pub ends: bool,
}

/// Goes along the keys of a path by `get`, through documents and arrays.
pub fn along<'a, 'k>(doc: &'a RawDocument, keys: &[&'k str], limit: Limit) -> Way<'a, 'k> {
    let (last, before) = keys.split_last().expect("a path has a key");
    let mut doc = doc;
    for key in before {
        doc = match call(doc, key, None, limit) {
            Some(Ok(Value::Document(inner))) => inner,
            Some(Ok(Value::Array(inner))) => inner.as_doc(),
            _ => {
                let ends = true;
                return Way { doc, key, ends };
            }
        };
    }
    let ends = false;
    Way {
        doc,
        key: last,
        ends,
    }
}

impl<'a> Way<'a, '_> {
    /// The answer of the last lookup, where there is such a call; of one on the way its refusal, else that of the type.
    pub fn answer(&self, tag: Option<u8>, limit: Limit) -> Option<Result<Value<'a>, Kind>> {
        if !self.ends {
            return call(self.doc, self.key, tag, limit);
        }
        let found = call(self.doc, self.key, None, limit)?;
        Some(found.and(Err("unexpected-type")))
    }
}

/// The answer of `get`, or of the getter for the tag; None where there is no such getter.
pub fn call<'a>(
    doc: &'a RawDocument,
    key: &str,
    tag: Option<u8>,
    limit: Limit,
) -> Option<Result<Value<'a>, Kind>> {
    let answer = match (tag, limit) {
        (None, None) => doc.get(key),
        (None, Some(most)) => doc.get_with_max_cstr_parse_len(key, most),
        (Some(tag), None) => typed(doc, key, tag)?.map(Some),
        (Some(tag), Some(_)) => return typed_under(doc, key, tag, limit),
    };
    Some(match answer {
        Ok(found) => found.ok_or("not-present"),
        Err(error) => Err(kind(&error)),
    })
}

/// The stand-in for a getter under a limit, which the Rust does not have: its `get` under the limit, then the type.
fn typed_under<'a>(
    doc: &'a RawDocument,
    key: &str,
    tag: u8,
    limit: Limit,
) -> Option<Result<Value<'a>, Kind>> {
    let found = call(doc, key, None, limit)?;
    Some(
        found.and_then(|value| match value.element_type() as u8 == tag {
            true => Ok(value),
            false => Err("unexpected-type"),
        }),
    )
}

fn typed<'a>(doc: &'a RawDocument, key: &str, tag: u8) -> Option<RawResult<Value<'a>>> {
    Some(match Type::from(tag)? {
        Type::Double => doc.get_f64(key).map(Value::Double),
        Type::String => doc.get_str(key).map(Value::String),
        Type::EmbeddedDocument => doc.get_document(key).map(Value::Document),
        Type::Array => doc.get_array(key).map(Value::Array),
        Type::Binary => doc.get_binary(key).map(Value::Binary),
        Type::ObjectId => doc.get_object_id(key).map(Value::ObjectId),
        Type::Boolean => doc.get_bool(key).map(Value::Boolean),
        Type::DateTime => doc.get_datetime(key).map(Value::DateTime),
        Type::RegularExpression => doc.get_regex(key).map(Value::RegularExpression),
        Type::Int32 => doc.get_i32(key).map(Value::Int32),
        Type::Timestamp => doc.get_timestamp(key).map(Value::Timestamp),
        Type::Int64 => doc.get_i64(key).map(Value::Int64),
        _ => return None,
    })
}

/// The first element of the key in a document inside the outermost one, and its place, or where iteration is refused or ends.
pub fn find<'a>(
    outer: &'a [u8],
    doc: &'a RawDocument,
    key: &[u8],
    limit: Limit,
) -> (usize, Option<Element<'a>>) {
    let mut steps = Steps::new(outer, doc, limit);
    while let Some(Ok(element)) = steps.next() {
        if element.raw.key().as_str().as_bytes() == key {
            return (element.place, Some(element));
        }
    }
    (steps.at, None)
}
