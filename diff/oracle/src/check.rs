//! The whole check: a walk over the Rust's iteration and values, and the Rust's own walk beside it.

use bson::{Document, RawBsonRef, RawDocument, Utf8Lossy};

use crate::step::{kind, Kind, Limit, Refusal, Steps};
use crate::value::Reading;

const MAX_DEPTH: u32 = 200;

pub struct Walk<'a> {
    outer: &'a [u8],
    /// The same at every level.
    limit: Limit,
    pub verdict: Result<(), Refusal>,
    /// The place of the first key of an array that is not its position in decimal, where the strict check ends (19).
    pub bad_key: Option<usize>,
    pub count: usize,
    /// A value was met that only a stand-in accepted or refused.
    pub judged: bool,
    /// A value was met whose strict and lossy readings disagree.
    pub differs: bool,
}

pub fn walk(doc: &RawDocument, limit: Limit) -> Walk<'_> {
    let mut walk = Walk {
        outer: doc.as_bytes(),
        limit,
        verdict: Ok(()),
        bad_key: None,
        count: 0,
        judged: false,
        differs: false,
    };
    walk.verdict = walk.inside(doc, false, 0);
    walk
}

impl<'a> Walk<'a> {
    /// The values of a document or array, which have this depth, and those inside them.
    fn inside(&mut self, doc: &'a RawDocument, array: bool, depth: u32) -> Result<(), Refusal> {
        let steps = Steps::new(self.outer, doc, self.limit);
        for (position, step) in steps.enumerate() {
            let element = step?;
            if array && element.raw.key().as_str() != position.to_string() {
                self.bad_key = self.bad_key.or(Some(element.place));
            }
            let reading = Reading::of(&element);
            self.judged |= reading.judged;
            self.differs |= reading.differs;
            let value = reading.value.map_err(|kind| Refusal(kind, element.place))?;
            if depth > MAX_DEPTH {
                return Err(Refusal("recursion", element.place));
            }
            self.count += 1;
            match value {
                RawBsonRef::Document(inner) => self.inside(inner, false, depth + 1)?,
                RawBsonRef::Array(inner) => self.inside(inner.as_doc(), true, depth + 1)?,
                RawBsonRef::JavaScriptCodeWithScope(code) => {
                    self.inside(code.scope, false, depth + 2)?
                }
                _ => {}
            }
        }
        Ok(())
    }

    /// The verdict of the Rust's own walk, where it is another.
    /// That walk refuses no text and has no limit, so a refusal as UTF-8 or as too long is not compared.
    pub fn deep_differs(&self, doc: &RawDocument) -> Option<Kind> {
        let word = |refused: Option<Kind>| refused.unwrap_or("accepted");
        let ours = word(self.verdict.as_ref().err().map(|refusal| refusal.0));
        let deep = Utf8Lossy::<Document>::try_from(doc);
        let deep = word(deep.err().map(|error| kind(&error)));
        let compared = !["utf8", "too-long"].contains(&ours);
        (compared && ours != deep).then_some(deep)
    }
}
