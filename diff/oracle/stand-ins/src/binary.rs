// Stand-in for owned binary data: what RawBson holds of a binary value.
use crate::spec::BinarySubtype;

pub struct Binary {
    pub subtype: BinarySubtype,
    pub bytes: Vec<u8>,
}
