//! Nesting around depth 200, through documents, arrays and scopes mixed (13), and code with scope in bad shape (12).

use crate::damage::mend;
use crate::draft::Draft;
use crate::rng::Rng;
use crate::texts::{Text, Texts};

/// The depth that RULES.md allows; inside a scope it is two more.
const MOST: usize = 200;

/// A nest whose innermost value lies around the deepest depth. Paths lead through those without a scope.
pub fn nest(rng: &mut Rng) -> Draft {
    let mut draft = Draft::default();
    let scopes = !rng.once_in(4);
    let depth = MOST - 5 + rng.below(8);
    let mut open = vec![(draft.begin(), None)];
    let mut reached = 0;
    while reached < depth {
        let tags: &[u8] = if scopes {
            &[0x03, 0x04, 0x03, 0x04, 0x0F]
        } else {
            &[0x03, 0x04]
        };
        let tag = rng.pick(tags);
        reached += if tag == 0x0F { 2 } else { 1 };
        let bad = rng.once_in(500);
        let key = rng.pick(&[b"" as &[u8], b"1", b"00"]);
        draft.head(tag, if bad { key } else { b"0" });
        let scope = (tag == 0x0F).then(|| {
            let start = draft.begin();
            draft.string(b"");
            start
        });
        open.push((draft.begin(), scope));
    }
    innermost(&mut draft, rng);
    close(&mut draft, open, rng);
    draft
}

/// A value, or one that is refused before its depth is; under a key that in an array is mostly good.
fn innermost(draft: &mut Draft, rng: &mut Rng) {
    let (tag, value): (u8, &[u8]) = rng.pick(&[
        (0x0A, b"" as &[u8]),
        (0x0A, b""),
        (0x08, b"\x02"),
        (0x14, b""),
        (0x02, b"\x02\0\0\0\xFF\0"),
        (0x03, b"\x05\0\0\0\0"),
        (0x0F, b"\x0E\0\0\0\x01\0\0\0\0\x05\0\0\0\0"),
    ]);
    draft.head(tag, rng.pick(&[b"0", b"0", b"0", b"1"]));
    draft.bytes.extend(value);
}

fn close(draft: &mut Draft, open: Vec<(usize, Option<usize>)>, rng: &mut Rng) {
    for (start, scope) in open.into_iter().rev() {
        if rng.once_in(100) {
            draft.head(0x0A, b"1");
        }
        draft.zero();
        draft.end(start);
        if let Some(scope) = scope {
            draft.end(scope);
        }
    }
}

/// A code with scope of which size, code and scope are each good or bad; something is behind it, or the document ends in it.
pub fn code_with_scope(rng: &mut Rng) -> Draft {
    let mut draft = Draft::default();
    draft.begin();
    draft.head(0x0F, rng.pick(&[b"" as &[u8], b"a"]));
    let start = draft.begin();
    code(&mut draft, rng);
    draft.bytes.extend(rng.pick(&SCOPES));
    draft.end(start);
    if rng.once_in(3) {
        let size = rng.below(SIZES) as i32;
        draft.bytes[start..start + 4].copy_from_slice(&size.to_le_bytes());
    }
    let behind = rng.below(24);
    draft
        .bytes
        .extend((0..behind).map(|_| rng.pick(&[0, 0x0A, 0x0A, 5])));
    if rng.once_in(4) {
        draft.bytes.truncate(start + 2 + rng.below(SIZES));
    }
    draft.zero();
    mend(&mut draft.bytes);
    draft
}

/// The sizes that are tried are below this.
const SIZES: usize = 21;

const SCOPES: [&[u8]; 12] = [
    b"\x05\0\0\0\0",
    b"\x05\0\0\0\0",
    b"\x08\0\0\0\x0A\0\0\0",
    b"\x08\0\0\0\x14\0\0\0",
    b"",
    b"\x05",
    b"\x05\0",
    b"\x05\0\0",
    b"\x05\0\0\0",
    b"\x05\0\0\0\x01",
    b"\x06\0\0\0\0",
    b"\xFF\xFF\xFF\xFF\0",
];

fn code(draft: &mut Draft, rng: &mut Rng) {
    let texts = Texts::Mixed;
    let code = match rng.below(2) {
        0 => rng.pick(&[b"" as &[u8], b"a", b"\xFF", b"\xC3"]).to_vec(),
        _ => Text { rng, texts }.string(),
    };
    let start = draft.bytes.len();
    draft.string(&code);
    if rng.once_in(6) {
        draft.bytes[start] = rng.pick(&[0, 1, 2, 5, 0xFF]);
    }
    if rng.once_in(12) {
        draft.bytes[start + 3] = rng.pick(&[0x80, 0xFF]);
    }
    if rng.once_in(12) {
        draft.bytes.pop();
    }
}
