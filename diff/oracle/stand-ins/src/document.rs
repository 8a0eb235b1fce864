// Stand-in for owned documents: the pairs in the order met, repeated keys included.
use crate::Bson;

pub mod writer;

pub struct Document(Vec<(String, Bson)>);

impl Document {
    pub fn new() -> Self {
        Self(Vec::new())
    }

    pub fn insert(&mut self, key: impl Into<String>, value: Bson) {
        self.0.push((key.into(), value));
    }
}

impl FromIterator<(String, Bson)> for Document {
    fn from_iter<I: IntoIterator<Item = (String, Bson)>>(pairs: I) -> Self {
        Self(pairs.into_iter().collect())
    }
}
