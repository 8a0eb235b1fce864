//! Which keys are looked up in a document: those that it has, those next to damage, and such as it has not.

use oracle::step::Element;

/// As many keys are searched for one that is repeated.
const REMEMBERED: usize = 8;

/// Keys of the document at hand, as parts of it.
pub struct Asked<'a> {
    bytes: &'a [u8],
    met: [&'a [u8]; REMEMBERED],
    count: usize,
    last: Option<&'a [u8]>,
    repeated: Option<&'a [u8]>,
    /// Of the first element whose value is refused.
    damaged: Option<&'a [u8]>,
    /// Of the element whose step is refused.
    stopped: Option<&'a [u8]>,
}

impl<'a> Asked<'a> {
    pub fn new(bytes: &'a [u8]) -> Self {
        Self {
            bytes,
            met: [b""; REMEMBERED],
            count: 0,
            last: None,
            repeated: None,
            damaged: None,
            stopped: None,
        }
    }

    /// Takes the key of an element, whose value was read or refused.
    pub fn meet(&mut self, element: &Element<'a>, read: bool) {
        let key = element.raw.key().as_str().as_bytes();
        let known = &self.met[..self.count.min(REMEMBERED)];
        if known.contains(&key) {
            self.repeated = Some(key);
        } else if self.count < REMEMBERED {
            self.met[self.count] = key;
            self.count += 1;
        }
        if !read {
            self.damaged = self.damaged.or(Some(key));
        }
        self.last = Some(key);
    }

    /// Takes the key at which the steps ended or were refused, if there is one.
    pub fn stopped_at(&mut self, at: usize) {
        let rest = self.bytes.get(at + 1..).unwrap_or(b"");
        let end = rest.iter().position(|byte| *byte == 0);
        self.stopped = end.map(|end| &rest[..end]);
    }

    fn first(&self) -> Option<&'a [u8]> {
        (self.count > 0).then_some(self.met[0])
    }

    /// The keys that the document has, or seems to have at its damage; none twice.
    pub fn own(&self) -> impl Iterator<Item = &'a [u8]> {
        let all = [
            self.first(),
            self.last,
            self.repeated,
            self.damaged,
            self.stopped,
        ];
        (0..all.len()).filter_map(move |index| {
            let key = all[index]?;
            (!all[..index].contains(&Some(key))).then_some(key)
        })
    }

    /// Keys near the first one and others: absent ones, but for the empty key. The fourth and the last are not UTF-8.
    pub fn absent(&self) -> [&'a [u8]; 6] {
        let first = self.first().unwrap_or(b"");
        let with_zero = match self.first() {
            Some(_) => &self.bytes[5..5 + first.len() + 1],
            None => b"\0",
        };
        let shorter = &first[..first.len().saturating_sub(1)];
        [b"", shorter, with_zero, b"\xFF", b"zzz", b"a\xC3"]
    }
}
