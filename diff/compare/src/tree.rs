//! Documents as trees: the twenty-one types of RULES.md's tag table.

#[derive(Clone, Debug)]
pub struct Element {
    pub key: Vec<u8>,
    pub value: Value,
}

/// Texts are bytes, as some are to be no UTF-8.
#[derive(Clone, Debug)]
pub enum Value {
    Double(u64),
    String(Vec<u8>),
    Document(Vec<Element>),
    Array(Vec<Element>),
    Binary(u8, Vec<u8>),
    Undefined,
    ObjectId([u8; 12]),
    Bool(bool),
    Datetime(i64),
    Null,
    Regex(Vec<u8>, Vec<u8>),
    DbPointer(Vec<u8>, [u8; 12]),
    Code(Vec<u8>),
    Symbol(Vec<u8>),
    CodeWithScope(Vec<u8>, Vec<Element>),
    Int32(i32),
    Timestamp(u32, u32),
    Int64(i64),
    Decimal128([u8; 16]),
    MinKey,
    MaxKey,
}

pub const OLD_BINARY: u8 = 2;

impl Value {
    pub fn tag(&self) -> u8 {
        match self {
            Self::Double(_) => 0x01,
            Self::String(_) => 0x02,
            Self::Document(_) => 0x03,
            Self::Array(_) => 0x04,
            Self::Binary(..) => 0x05,
            Self::Undefined => 0x06,
            Self::ObjectId(_) => 0x07,
            Self::Bool(_) => 0x08,
            Self::Datetime(_) => 0x09,
            Self::Null => 0x0A,
            Self::Regex(..) => 0x0B,
            Self::DbPointer(..) => 0x0C,
            Self::Code(_) => 0x0D,
            Self::Symbol(_) => 0x0E,
            Self::CodeWithScope(..) => 0x0F,
            Self::Int32(_) => 0x10,
            Self::Timestamp(..) => 0x11,
            Self::Int64(_) => 0x12,
            Self::Decimal128(_) => 0x13,
            Self::MinKey => 0xFF,
            Self::MaxKey => 0x7F,
        }
    }
}
