// Stand-in for borrowed arrays: a document read as an array.
use super::RawDocument;

#[repr(transparent)]
pub struct RawArray {
    doc: RawDocument,
}

pub enum RawArrayIter {}

impl RawArray {
    pub(crate) fn from_doc(doc: &RawDocument) -> &Self {
        // Safety: RawArray is a transparent wrapper around RawDocument.
        unsafe { &*(doc as *const RawDocument as *const RawArray) }
    }

    pub fn as_doc(&self) -> &RawDocument {
        &self.doc
    }
}
