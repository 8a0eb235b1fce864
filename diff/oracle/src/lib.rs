//! What the original Rust answers about a document: a case line in, a line of the list out.
//! The numbers of refusals are missing: only docs/RULES.md gives them.

pub mod check;
pub mod lookup;
pub mod step;
pub mod value;

use std::fmt::Display;
use std::panic::{catch_unwind, AssertUnwindSafe};

use bson::RawDocument;

use lookup::Question;
use step::{kind, Element, Limit, Refusal, Steps};
use value::{starred, Content, Reading};

/// The answer line to a case line `document HEX; get KEY; typed KEY TAG; path PATH; ..`, or what is wrong with the case.
/// Behind `limited M` in front of it every answer is one under the limit M.
/// Where the Rust panics the line ends with `panicked`; the message is the caller's to silence.
pub fn answer(case: &str) -> Result<String, String> {
    let mut parts = case.split("; ");
    let head = parts.next().unwrap_or("");
    let (limit, document) = limited(head)?;
    let hex = document.strip_prefix("document ");
    let bytes = bytes(hex.ok_or("a case begins with `document HEX` or `limited M document HEX`")?)?;
    let questions = parts.map(Question::read).collect::<Result<Vec<_>, _>>()?;

    let mut line = Line {
        limit,
        parts: vec![head.into()],
        notes: Vec::new(),
    };
    let filled = catch_unwind(AssertUnwindSafe(|| line.fill(&bytes, &questions)));
    if filled.is_err() {
        line.notes.push("panicked".into());
    }
    line.parts.append(&mut line.notes);
    Ok(line.parts.join("; "))
}

/// The limit in front of a case's first part, and the rest of that part.
fn limited(head: &str) -> Result<(Limit, &str), String> {
    let Some(behind) = head.strip_prefix("limited ") else {
        return Ok((None, head));
    };
    let (field, document) = behind.split_once(' ').unwrap_or((behind, ""));
    let most = field
        .parse()
        .map_err(|error| format!("`{field}`: {error}"))?;
    Ok((Some(most), document))
}

fn bytes(field: &str) -> Result<Vec<u8>, String> {
    hex::decode(field).map_err(|error| format!("`{field}`: {error}"))
}

/// The parts of an answer line, and the notes behind them where the Rust disagrees with itself or with a stand-in.
struct Line {
    limit: Limit,
    parts: Vec<String>,
    notes: Vec<String>,
}

impl Line {
    fn fill(&mut self, bytes: &[u8], questions: &[Question]) {
        let doc = match RawDocument::from_bytes(bytes) {
            Ok(doc) => doc,
            Err(error) => return self.refuse(Refusal(kind(&error), 0), questions),
        };
        self.push("admission", bytes.len());
        self.steps(doc);
        self.check(doc);
        self.push("strict", "*");
        self.push("empty", if doc.is_empty() { "yes" } else { "no" });
        for question in questions {
            self.ask(question, |limit| question.ask(doc, limit));
        }
    }

    /// Without admission the Rust has no document to ask, so its refusal is every answer.
    fn refuse(&mut self, refusal: Refusal, questions: &[Question]) {
        self.push("admission", &refusal);
        self.push("check", &refusal);
        self.push("strict", "*");
        self.push("empty", &refusal);
        for question in questions {
            self.ask(question, |_| refusal.to_string());
        }
    }

    /// A path of too many keys is refused by a number that the Rust does not have.
    fn ask(&mut self, question: &Question, answer: impl Fn(Limit) -> String) {
        let answer = match question.is_too_long() {
            true => "*".into(),
            false => answer(self.limit),
        };
        self.push(question.part, answer);
    }

    fn steps(&mut self, doc: &RawDocument) {
        let mut steps = Steps::new(doc.as_bytes(), doc, self.limit);
        let last = loop {
            match steps.next() {
                Some(Ok(element)) => self.element(&element),
                Some(Err(refusal)) => break refusal.to_string(),
                None => break "end".into(),
            }
        };
        self.push("at", format!("{} {last}", steps.at));
        // An iteration that has ended stays ended.
        if steps.next().is_some() || steps.next().is_some() {
            self.note("again");
        }
    }

    fn element(&mut self, element: &Element) {
        let reading = Reading::of(element);
        let value = match reading.value {
            Ok(value) => Content::of(element, value).to_string(),
            Err(kind) => Refusal(kind, element.place).to_string(),
        };
        let (place, raw) = (element.place, &element.raw);
        let (tag, key, size) = (raw.element_type() as u8, raw.key().len(), raw.size());
        let answer = format!("{place} {tag:02x} {key} {size} {value}");
        self.push("at", starred(answer, reading.starred));
        if reading.differs {
            self.note("lossy");
        }
    }

    fn check(&mut self, doc: &RawDocument) {
        let walk = check::walk(doc, self.limit);
        let verdict = match &walk.verdict {
            Ok(()) => walk.count.to_string(),
            Err(refusal) => refusal.to_string(),
        };
        self.push("check", starred(verdict, walk.judged));
        if walk.differs {
            self.note("lossy");
        }
        if let Some(other) = walk.deep_differs(doc) {
            self.note(&format!("deep {other}"));
        }
    }

    fn push(&mut self, asked: &str, answer: impl Display) {
        self.parts.push(format!("{asked} {answer}"));
    }

    fn note(&mut self, note: &str) {
        if !self.notes.iter().any(|other| other == note) {
            self.notes.push(note.into());
        }
    }
}
