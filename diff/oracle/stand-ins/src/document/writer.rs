// Stand-in that lends doc_writer.rs, and how raw.rs and cstr.rs write texts, to callers outside the crate.
use crate::raw::{doc_writer::DocWriter, write_string, CStr};
use crate::spec::ElementType;

/// Closed when dropped, as the DocWriter in it.
pub struct Writer<'a>(DocWriter<'a>);

impl<'a> Writer<'a> {
    pub fn open(data: &'a mut Vec<u8>) -> Self {
        Self(DocWriter::open(data))
    }

    pub fn append_key(&mut self, element_type: ElementType, name: &CStr) {
        self.0.append_key(element_type, name);
    }

    pub fn buffer(&mut self) -> &mut Vec<u8> {
        self.0.buffer()
    }
}

pub fn append_string(data: &mut Vec<u8>, text: &str) {
    write_string(data, text);
}

pub fn append_cstr(data: &mut Vec<u8>, text: &CStr) {
    text.append_to(data);
}
