//! The rows that bench/rows.py lists, and the documents that it makes.

use std::collections::HashMap;
use std::error::Error;
use std::str::from_utf8;

use bson::RawDocument;

use crate::rounds::{Row, Task};
use crate::side::{pieces, Given, Path};

/// What bench/rows.py wrote, by the names of the files.
pub struct Folder {
    files: HashMap<String, Vec<u8>>,
}

/// The time of the whole check of a document of this size, in nanoseconds a byte.
pub struct Point {
    pub size: usize,
    pub rust: f64,
    pub ours: f64,
}

impl Folder {
    /// Files are read in the order of their names, so that they lie in memory alike in every run.
    pub fn read(path: &str) -> Result<Self, Box<dyn Error>> {
        let entries: Result<Vec<_>, _> = std::fs::read_dir(path)?.collect();
        let mut paths: Vec<_> = entries?.iter().map(|entry| entry.path()).collect();
        paths.sort();
        let mut files = HashMap::new();
        for path in paths {
            let name = path.file_name().and_then(|name| name.to_str());
            files.insert(name.ok_or("a name in UTF-8")?.into(), std::fs::read(&path)?);
        }
        Ok(Self { files })
    }

    /// What the names of the rows stand for.
    pub fn notes(&self) -> &str {
        self.text("notes")
    }

    /// The rows of a list.
    pub fn rows(&self, list: &str) -> Vec<Row<'_>> {
        self.text(list).lines().map(|line| self.row(line)).collect()
    }

    fn text(&self, name: &str) -> &str {
        from_utf8(&self.files[name]).expect("a text of bench/rows.py")
    }

    fn row<'a>(&'a self, line: &'a str) -> Row<'a> {
        let columns: Vec<&str> = line.split('\t').collect();
        let [task, document, key, name] = columns[..] else {
            panic!("not a row: {line}");
        };
        let document = &self.files[document][..];
        Row::new(name, document.len(), task_of(task, document, key))
    }
}

fn task_of<'a>(task: &str, document: &'a [u8], key: &'a str) -> Task<'a> {
    let built = |given| {
        let admitted = RawDocument::from_bytes(document).expect("a whole document");
        Task::Build(pieces(admitted), given)
    };
    match task {
        "iterate" => Task::Iterate(document),
        "read_at_place" => Task::ReadAtPlace(document),
        "check" => Task::Check(document),
        "check_strict" => Task::CheckStrict(document),
        "lookup" => Task::Lookup(document, key),
        "path" => Task::Path(document, Path::new(key)),
        "path_by_lookups" => Task::PathByLookups(document, Path::new(key)),
        "build" => built(Given::Bytes),
        "build_tested" => built(Given::Tested),
        _ => panic!("no such task: {task}"),
    }
}

/// The rows of documents that grow, once they have run.
pub fn points(growth: &[Row]) -> Vec<Point> {
    let points = growth.iter().map(|row| {
        let [rust, ours] =
            [0, 1].map(|side| row.ns(side).expect("a row that ran") / row.size as f64);
        let size = row.size;
        Point { size, rust, ours }
    });
    points.collect()
}
