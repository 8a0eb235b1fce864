// Stand-in for owned arrays: deep_utf8_lossy walks their elements.
use super::{RawArray, RawDocumentBuf, RawIter};

pub struct RawArrayBuf(RawDocumentBuf);

impl RawArrayBuf {
    pub fn iter_elements(&self) -> RawIter<'_> {
        self.0.iter_elements()
    }
}

impl From<&RawArray> for RawArrayBuf {
    fn from(array: &RawArray) -> Self {
        Self(array.as_doc().to_owned())
    }
}
