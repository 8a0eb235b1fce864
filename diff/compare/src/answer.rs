//! What each side answers, in one form that can be compared, and the part of a case that was asked.

use std::fmt;

use boundary::{Element, Stepped, Value, Verdict, Written};
use bson::spec::ElementType;
use oracle::step::{Kind, Limit};
use oracle::value::Content;

const NO_ZERO: u32 = 5;
const NOT_UTF8: u32 = 6;
const TOO_LONG: u32 = 22;

const STRAY: Kind = "a number that this call does not give";

/// An element, and its framed value by offset and size.
#[derive(Clone, Copy, Debug, PartialEq)]
pub struct Framed {
    pub place: usize,
    pub tag: u8,
    pub value: (usize, usize),
}

/// An element that a step yields, its key by offset and size, and the cursor behind it.
#[derive(Clone, Copy, Debug, PartialEq)]
pub struct Yielded {
    pub framed: Framed,
    pub key: (usize, usize),
    pub next: usize,
}

#[derive(Clone, Copy, Debug, PartialEq)]
pub enum Answer {
    Refused {
        kind: Kind,
        place: usize,
    },
    Count(usize),
    /// Of a lookup, or of a reading at a place.
    Value(Framed, Content),
    Step(Yielded),
    /// A step and the reading of what it yields: the content, or why it is refused.
    Next(Yielded, Result<Content, Kind>),
    End {
        next: usize,
    },
    /// A step that is refused, and the cursor behind it.
    Stopped {
        kind: Kind,
        place: usize,
        next: usize,
    },
    /// The kind alone, or that the document is accepted.
    Verdict(Kind),
    /// The bytes that a writer has used.
    Used(usize),
    /// How many of the written bytes are as the Rust wrote them.
    Wrote(usize),
    /// The Rust is at odds with itself.
    Torn(&'static str),
    /// The library's fields are not such as the header promises.
    Odd([usize; 8]),
}

/// The library's answer, with the number in it.
#[derive(Clone, Copy)]
pub struct Said {
    pub answer: Answer,
    pub number: u32,
}

/// The numbers that a call may give: one of another call's, or of another limit's, would be wrong too.
#[derive(Clone, Copy)]
pub struct Numbers {
    malformed: &'static [u32],
    limited: bool,
    /// One that the Rust does not have.
    added: Option<u32>,
}

impl Numbers {
    fn new(malformed: &'static [u32], limit: Limit) -> Self {
        Self {
            malformed,
            limited: limit.is_some(),
            added: None,
        }
    }

    /// Of the strict check.
    pub fn or_bad_key(self) -> Self {
        let added = Some(19);
        Self { added, ..self }
    }

    /// Of a path.
    pub fn or_long_path(self) -> Self {
        let added = Some(21);
        Self { added, ..self }
    }

    pub fn admission() -> Self {
        Self::new(&[1, 2, 3], None)
    }

    pub fn step(limit: Limit) -> Self {
        Self::new(&[4, 5, 7, 8, 9, 10], limit)
    }

    /// Of what a step yields: the limit was asked for by then.
    fn yielded() -> Self {
        Self::new(&[1, 2, 3, 8, 9, 10, 11, 12], None)
    }

    pub fn reading(limit: Limit) -> Self {
        Self::new(&[1, 2, 3, 4, 5, 7, 8, 9, 10, 11, 12], limit)
    }

    /// RULES.md, "Numbers returned", the Rust's kinds; under a limit 22 is in the place of 5.
    fn kind(&self, number: u32) -> Kind {
        match number {
            NO_ZERO if self.limited => STRAY,
            TOO_LONG if self.limited => "too-long",
            NOT_UTF8 => "utf8",
            13 => "recursion",
            16 => "not-present",
            17 => "unexpected-type",
            _ if self.added == Some(number) => "added",
            _ if self.malformed.contains(&number) => "malformed",
            _ => STRAY,
        }
    }
}

impl Said {
    /// `rest` are the fields that a refusal leaves 0, `given` the answer where there is none.
    fn new(number: u32, place: usize, numbers: Numbers, rest: &[usize], given: Answer) -> Self {
        let answer = match number {
            0 => given,
            _ if any(rest) => odd(rest),
            _ => Answer::Refused {
                kind: numbers.kind(number),
                place,
            },
        };
        Self { answer, number }
    }

    pub fn verdict(said: Verdict, numbers: Numbers) -> Self {
        let given = match said.place {
            0 => Answer::Count(said.count),
            place => odd(&[place, said.count]),
        };
        Self::new(said.number, said.place, numbers, &[said.count], given)
    }

    /// A lookup, or a reading at a place.
    pub fn value(said: Value, numbers: Numbers) -> Self {
        let fields = fields(&said);
        let given = match content(&said) {
            Some(content) => Answer::Value(framed(&said), content),
            None => odd(&fields),
        };
        Self::new(said.number, said.place, numbers, &fields, given)
    }

    pub fn step(said: Stepped, numbers: Numbers) -> Self {
        let yielded = Yielded {
            framed: Framed {
                place: said.place,
                tag: said.tag,
                value: (said.framed_offset, said.framed_size),
            },
            key: (said.key_offset, said.key_size),
            next: said.next,
        };
        let number = said.number;
        let answer = match (said.ended, number) {
            (true, _) => stopped(number, yielded, numbers),
            (false, 0) => Answer::Step(yielded),
            (false, _) => odd(&[said.place, said.next]),
        };
        Self { answer, number }
    }

    /// A step and the reading of what it yields. Where this is refused, all but the content is given.
    pub fn next(said: Element, numbers: Numbers) -> Self {
        let value = said.value;
        let yielded = Yielded {
            framed: framed(&value),
            key: (said.key_offset, said.key_size),
            next: said.next,
        };
        let fields = fields(&value);
        let [_, _, _, read @ ..] = fields;
        let number = value.number;
        let answer = match (said.ended, number, content(&value)) {
            (false, 0, Some(content)) => Answer::Next(yielded, Ok(content)),
            (false, 0, None) => odd(&fields),
            _ if any(&read) => odd(&fields),
            (false, ..) => Answer::Next(yielded, Err(Numbers::yielded().kind(number))),
            (true, ..) => stopped(number, yielded, numbers),
        };
        Self { answer, number }
    }

    pub fn written(said: Written) -> Self {
        let answer = match said.number {
            0 => Answer::Used(said.used),
            number => odd(&[number as usize, said.used]),
        };
        let number = said.number;
        Self { answer, number }
    }

    /// An answer that is no refusal.
    pub fn plain(answer: Answer) -> Self {
        Self { answer, number: 0 }
    }
}

/// A step that yields nothing: of what an element has, a refusal gives the place, and the end not even that.
fn stopped(number: u32, yielded: Yielded, numbers: Numbers) -> Answer {
    let Yielded { framed, key, next } = yielded;
    let Framed { place, tag, value } = framed;
    let element = [usize::from(tag), key.0, key.1, value.0, value.1];
    match number {
        _ if any(&element) => odd(&element),
        0 if place != 0 => odd(&[place]),
        0 => Answer::End { next },
        _ => Answer::Stopped {
            kind: numbers.kind(number),
            place,
            next,
        },
    }
}

fn framed(value: &Value) -> Framed {
    Framed {
        place: value.place,
        tag: value.tag,
        value: (value.framed_offset, value.framed_size),
    }
}

/// What was read; none where no type has the tag.
fn content(value: &Value) -> Option<Content> {
    Some(Content {
        kind: ElementType::from(value.tag)?,
        bits: value.bits,
        parts: [(value.offset, value.size), (value.offset2, value.size2)],
    })
}

/// Tag and framed bytes, and then what was read.
fn fields(value: &Value) -> [usize; 8] {
    [
        usize::from(value.tag),
        value.framed_offset,
        value.framed_size,
        value.bits as usize,
        value.offset,
        value.size,
        value.offset2,
        value.size2,
    ]
}

fn any(fields: &[usize]) -> bool {
    fields.iter().any(|field| *field != 0)
}

fn odd(fields: &[usize]) -> Answer {
    let mut all = [0; 8];
    all[..fields.len()].copy_from_slice(fields);
    Answer::Odd(all)
}

impl fmt::Display for Framed {
    fn fmt(&self, f: &mut fmt::Formatter) -> fmt::Result {
        let Self { place, tag, value } = self;
        write!(f, "tag {tag:02x} at {place}, framed {value:?}")
    }
}

impl fmt::Display for Yielded {
    fn fmt(&self, f: &mut fmt::Formatter) -> fmt::Result {
        let Self { framed, key, next } = self;
        write!(f, "{framed}, key {key:?}, next {next}")
    }
}

impl fmt::Display for Answer {
    fn fmt(&self, f: &mut fmt::Formatter) -> fmt::Result {
        match self {
            Self::Refused { kind, place } => write!(f, "refused {kind} at {place}"),
            Self::Count(count) => write!(f, "{count}"),
            Self::Value(framed, content) => write!(f, "{framed}, {content}"),
            Self::Step(yielded) => write!(f, "{yielded}"),
            Self::Next(yielded, Ok(content)) => write!(f, "{yielded}, {content}"),
            Self::Next(yielded, Err(kind)) => write!(f, "{yielded}, refused {kind}"),
            Self::End { next } => write!(f, "end, next {next}"),
            Self::Stopped { kind, place, next } => {
                write!(f, "refused {kind} at {place}, next {next}")
            }
            Self::Verdict(kind) => write!(f, "{kind}"),
            Self::Used(used) => write!(f, "0, used {used}"),
            Self::Wrote(same) => write!(f, "the same for {same} bytes"),
            Self::Torn(why) => write!(f, "{why}"),
            Self::Odd(fields) => write!(f, "fields that no answer has: {fields:?}"),
        }
    }
}

impl fmt::Display for Said {
    fn fmt(&self, f: &mut fmt::Formatter) -> fmt::Result {
        match self.number {
            0 => write!(f, "{}", self.answer),
            number => write!(f, "{} (number {number})", self.answer),
        }
    }
}

/// The part of a case that was asked.
#[derive(Clone, Copy)]
pub enum Part<'a> {
    Empty,
    Step(usize),
    EndedStep(usize),
    /// A step and the reading of what it yields.
    Next(usize),
    EndedNext(usize),
    Read(usize),
    Check,
    StrictCheck,
    /// The plain check against the Rust's own walk, `deep_utf8_lossy`, by kind.
    DeepCheck,
    Get(&'a [u8]),
    Typed(&'a [u8], u8),
    Path(&'a [u8]),
    TypedPath(&'a [u8], u8),
    Call(usize),
    Bytes,
    Behind,
}

impl Part<'_> {
    pub fn is_path(&self) -> bool {
        matches!(self, Self::Path(_) | Self::TypedPath(..))
    }

    /// The same for every place, key and path: what a smaller case must still disagree in.
    pub fn word(&self) -> &'static str {
        match self {
            Self::Empty => "is_empty",
            Self::Step(_) => "step",
            Self::EndedStep(_) => "step from an ended cursor",
            Self::Next(_) => "next element",
            Self::EndedNext(_) => "next element from an ended cursor",
            Self::Read(_) => "value",
            Self::Check => "check",
            Self::StrictCheck => "strict check",
            Self::DeepCheck => "check, by the Rust's own walk",
            Self::Get(_) => "get",
            Self::Typed(..) => "typed lookup",
            Self::Path(_) => "path",
            Self::TypedPath(..) => "typed path",
            Self::Call(_) => "writer's call",
            Self::Bytes => "written bytes",
            Self::Behind => "bytes behind those written",
        }
    }
}

/// A key or a path in hexadecimal; of a long one how it begins.
fn shown(key: &[u8]) -> String {
    const MOST: usize = 256;
    match key.get(..MOST) {
        Some(first) if first != key => format!("{}.., {} bytes", hex::encode(first), key.len()),
        _ => hex::encode(key),
    }
}

impl fmt::Display for Part<'_> {
    fn fmt(&self, f: &mut fmt::Formatter) -> fmt::Result {
        let word = self.word();
        match self {
            Self::Step(at) | Self::EndedStep(at) | Self::Read(at) => write!(f, "{word} at {at}"),
            Self::Next(at) | Self::EndedNext(at) => write!(f, "{word} at {at}"),
            Self::Get(key) | Self::Path(key) => write!(f, "{word} [{}]", shown(key)),
            Self::Typed(key, tag) | Self::TypedPath(key, tag) => {
                write!(f, "{word} [{}] {tag:02x}", shown(key))
            }
            Self::Call(number) => write!(f, "{word} {number}"),
            _ => write!(f, "{word}"),
        }
    }
}
