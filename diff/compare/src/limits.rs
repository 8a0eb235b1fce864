//! Under which limits a slice is asked: such as lie around the sizes of its own keys, patterns and options.

use std::collections::BTreeSet;
use std::iter::once;

use bson::{RawBsonRef as Value, RawDocument};
use oracle::step::{Limit, Steps};

use crate::panics::caught;
use crate::rng::Rng;

/// No limit, and every one that may tell something about a slice.
pub fn all(bytes: &[u8]) -> impl Iterator<Item = Limit> {
    once(None).chain(telling(bytes).into_iter().map(Some))
}

/// Two that may tell something.
pub fn two(bytes: &[u8], rng: &mut Rng) -> [usize; 2] {
    let mut left = telling(bytes);
    [(); 2].map(|()| left.swap_remove(rng.below(left.len())))
}

/// The least and the largest limit, and for each text such as refuse and accept it, by one byte.
fn telling(bytes: &[u8]) -> Vec<usize> {
    let sizes = caught(|| {
        let mut sizes = BTreeSet::new();
        if let Ok(doc) = RawDocument::from_bytes(bytes) {
            gather(bytes, doc, &mut sizes);
        }
        sizes
    });
    let around = |size: usize| [size.saturating_sub(1), size, size + 1];
    let around = sizes.unwrap_or_default().into_iter().flat_map(around);
    let each: BTreeSet<_> = around.chain([0, usize::MAX]).collect();
    each.into_iter().collect()
}

/// Takes the sizes of the zero-ended texts of a document and of those inside it, as far as the Rust's steps go.
fn gather(outer: &[u8], doc: &RawDocument, sizes: &mut BTreeSet<usize>) {
    let mut steps = Steps::new(outer, doc, None);
    while let Some(step) = steps.next() {
        let Ok(element) = step else {
            // What is refused may be the key, the pattern or the options.
            let rest = outer.get(steps.at + 1..).unwrap_or(b"");
            let texts = rest.split(|byte| *byte == 0).take(3);
            return sizes.extend(texts.map(<[u8]>::len));
        };
        sizes.insert(element.raw.key().len());
        match element.raw.value() {
            Ok(Value::RegularExpression(regex)) => {
                sizes.extend([regex.pattern.len(), regex.options.len()]);
            }
            Ok(Value::Document(inner)) => gather(outer, inner, sizes),
            Ok(Value::Array(inner)) => gather(outer, inner.as_doc(), sizes),
            Ok(Value::JavaScriptCodeWithScope(code)) => gather(outer, code.scope, sizes),
            _ => {}
        }
    }
}
