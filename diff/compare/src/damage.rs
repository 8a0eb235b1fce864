//! Damage to a draft: length fields, bytes, cuts, zeros, tags; the header is mended behind some of it.

use crate::draft::Draft;
use crate::rng::Rng;

const TELLING: [u8; 16] = [
    0, 1, 2, 3, 4, 5, 8, 0x0B, 0x0C, 0x0F, 0x13, 0x14, 0x7F, 0x80, 0xC3, 0xFF,
];

pub fn damage(draft: &mut Draft, rng: &mut Rng) {
    match rng.below(8) {
        0..=2 => length(draft, rng),
        3 => byte(draft, rng),
        4 => cut(draft, rng),
        5 => zero(draft, rng),
        6 => tag(draft, rng),
        _ => shift(draft, rng),
    }
}

/// One off, negative, huge, small, or such that the value ends near the terminator.
fn length(draft: &mut Draft, rng: &mut Rng) {
    let at = rng.pick(&draft.lengths);
    let Some(field) = draft.bytes.get(at..at + 4) else {
        return;
    };
    let old = i32::from_le_bytes(field.try_into().expect("four bytes"));
    let rest = (draft.bytes.len() - at) as i32;
    let new = match rng.below(8) {
        0 => old.wrapping_sub(1),
        1 => old.wrapping_add(1),
        2 => old.wrapping_neg(),
        3 => rng.pick(&[-1, i32::MIN, i32::MAX, i32::MAX - 4, 0x0100_0000]),
        4 => rng.below(6) as i32,
        5 => rest + 1 - rng.below(8) as i32,
        6 => old.wrapping_add(rng.below(16) as i32 - 8),
        _ => rng.next() as i32,
    };
    draft.bytes[at..at + 4].copy_from_slice(&new.to_le_bytes());
}

fn byte(draft: &mut Draft, rng: &mut Rng) {
    let at = rng.below(draft.bytes.len());
    let byte = &mut draft.bytes[at];
    *byte = match rng.below(4) {
        0 => byte.wrapping_add(1),
        1 => byte.wrapping_sub(1),
        2 => rng.byte(),
        _ => rng.pick(&TELLING),
    };
}

/// Anywhere, or in a length field or near it.
fn cut(draft: &mut Draft, rng: &mut Rng) {
    let length = match rng.below(2) {
        0 => rng.below(draft.bytes.len()),
        _ => rng.pick(&draft.lengths) + rng.below(7),
    };
    let length = length.max(1);
    draft.bytes.truncate(length);
    if rng.once_in(2) {
        draft.bytes.push(0);
    }
    mend_some(draft, rng);
}

/// A zero is dropped, doubled, or moved by one.
fn zero(draft: &mut Draft, rng: &mut Rng) {
    let at = rng.pick(&draft.zeros).min(draft.bytes.len() - 1);
    match rng.below(3) {
        0 if draft.bytes.len() > 1 => {
            draft.bytes.remove(at);
        }
        1 => draft.bytes.insert(at, 0),
        _ => {
            let other = (at + 1).min(draft.bytes.len() - 1);
            draft.bytes.swap(at, other);
        }
    }
    mend_some(draft, rng);
}

fn tag(draft: &mut Draft, rng: &mut Rng) {
    if draft.tags.is_empty() {
        return byte(draft, rng);
    }
    let at = rng.pick(&draft.tags).min(draft.bytes.len() - 1);
    draft.bytes[at] = match rng.below(4) {
        0 => rng.byte(),
        1 => rng.pick(&[0xFF, 0x7F, 0x00, 0x14]),
        _ => rng.below(0x15) as u8,
    };
}

/// Bytes are put in or taken out.
fn shift(draft: &mut Draft, rng: &mut Rng) {
    let at = rng.below(draft.bytes.len());
    let count = 1 + rng.below(4);
    if rng.once_in(2) {
        let end = (at + count).min(draft.bytes.len());
        draft.bytes.drain(at..end);
    } else {
        let new: Vec<u8> = (0..count).map(|_| rng.pick(&TELLING)).collect();
        draft.bytes.splice(at..at, new);
    }
    draft.bytes.push(0);
    mend_some(draft, rng);
}

/// Mostly mends the header, so that the document is still admitted.
fn mend_some(draft: &mut Draft, rng: &mut Rng) {
    if !rng.once_in(5) {
        mend(&mut draft.bytes);
    }
}

/// Makes the header the slice's length, where there is a header.
pub fn mend(bytes: &mut [u8]) {
    let length = (bytes.len() as i32).to_le_bytes();
    if let Some(header) = bytes.get_mut(..4) {
        header.copy_from_slice(&length);
    }
}
