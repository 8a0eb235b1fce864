//! The library's calls for reading, lent Rust's slices.

use boundary::{Element, Stepped, Value, Verdict};
use oracle::step::Limit;

/// A slice, and the limit under which the library is asked about it.
#[derive(Clone, Copy)]
pub struct Lent<'a> {
    pub bytes: &'a [u8],
    pub limit: Limit,
}

/// Calls the first function, or, where there is a limit, the second with it.
macro_rules! call {
    ($lent:ident, $plain:ident or $under:ident($($given:expr),*)) => {{
        let (at, length) = ($lent.bytes.as_ptr(), $lent.bytes.len());
        // Safety: the header asks for slices that may be read, and Rust's are.
        match $lent.limit {
            None => unsafe { boundary::$plain(at, length $(, $given)*) },
            Some(limit) => unsafe { boundary::$under(at, length $(, $given)*, limit) },
        }
    }};
}

impl Lent<'_> {
    pub fn check(self) -> Verdict {
        call!(self, fringewell_check or fringewell_check_under())
    }

    pub fn check_strict(self) -> Verdict {
        call!(self, fringewell_check_strict or fringewell_check_strict_under())
    }

    /// A lookup, typed where there is a tag.
    pub fn lookup(self, key: &[u8], tag: Option<u8>) -> Value {
        let (at, size) = (key.as_ptr(), key.len());
        match tag {
            Some(tag) => {
                call!(self, fringewell_lookup_typed or fringewell_lookup_typed_under(at, size, tag))
            }
            None => call!(self, fringewell_lookup or fringewell_lookup_under(at, size)),
        }
    }

    /// A lookup by a path, typed where there is a tag.
    pub fn path(self, path: &[u8], tag: Option<u8>) -> Value {
        let (at, size) = (path.as_ptr(), path.len());
        match tag {
            Some(tag) => {
                call!(self, fringewell_path_typed or fringewell_path_typed_under(at, size, tag))
            }
            None => call!(self, fringewell_path or fringewell_path_under(at, size)),
        }
    }

    pub fn step(self, offset: usize, ended: bool) -> Stepped {
        call!(self, fringewell_step or fringewell_step_under(offset, ended))
    }

    pub fn next(self, offset: usize, ended: bool) -> Element {
        call!(self, fringewell_next or fringewell_next_under(offset, ended))
    }

    pub fn read(self, place: usize) -> Value {
        call!(self, fringewell_read or fringewell_read_under(place))
    }
}

/// Knows no limit.
pub fn is_empty(document: &[u8]) -> Verdict {
    // Safety: as above.
    unsafe { boundary::fringewell_is_empty(document.as_ptr(), document.len()) }
}
