// Stand-in for borrowed values: the strict readings as docs/RULES.md states them, and what the typed getters ask.
use super::{i32_from_slice, read_cstring, read_lenencode, CStr, Error, RawArray, RawDocument};
use super::{Result, MIN_CODE_WITH_SCOPE_SIZE};
use crate::{
    oid::ObjectId,
    spec::{BinarySubtype, ElementType},
    Bson, DateTime, Decimal128, Timestamp,
};

#[derive(Clone, Copy)]
pub enum RawBsonRef<'a> {
    Array(&'a RawArray),
    Binary(RawBinaryRef<'a>),
    Boolean(bool),
    DateTime(DateTime),
    DbPointer(RawDbPointerRef<'a>),
    Decimal128(Decimal128),
    Document(&'a RawDocument),
    Double(f64),
    Int32(i32),
    Int64(i64),
    JavaScriptCode(&'a str),
    JavaScriptCodeWithScope(RawJavaScriptCodeWithScopeRef<'a>),
    MaxKey,
    MinKey,
    Null,
    ObjectId(ObjectId),
    RegularExpression(RawRegexRef<'a>),
    String(&'a str),
    Symbol(&'a str),
    Timestamp(Timestamp),
    Undefined,
}

macro_rules! getters {
    ($($name:ident: $variant:ident -> $held:ty;)*) => {
        impl<'a> RawBsonRef<'a> {
            $(pub fn $name(self) -> Option<$held> {
                match self {
                    Self::$variant(held) => Some(held),
                    _ => None,
                }
            })*
        }
    };
}

getters! {
    as_array: Array -> &'a RawArray;
    as_binary: Binary -> RawBinaryRef<'a>;
    as_bool: Boolean -> bool;
    as_datetime: DateTime -> DateTime;
    as_document: Document -> &'a RawDocument;
    as_f64: Double -> f64;
    as_i32: Int32 -> i32;
    as_i64: Int64 -> i64;
    as_object_id: ObjectId -> ObjectId;
    as_regex: RegularExpression -> RawRegexRef<'a>;
    as_str: String -> &'a str;
    as_timestamp: Timestamp -> Timestamp;
}

impl RawBsonRef<'_> {
    pub fn element_type(&self) -> ElementType {
        match self {
            Self::Array(_) => ElementType::Array,
            Self::Binary(_) => ElementType::Binary,
            Self::Boolean(_) => ElementType::Boolean,
            Self::DateTime(_) => ElementType::DateTime,
            Self::DbPointer(_) => ElementType::DbPointer,
            Self::Decimal128(_) => ElementType::Decimal128,
            Self::Document(_) => ElementType::EmbeddedDocument,
            Self::Double(_) => ElementType::Double,
            Self::Int32(_) => ElementType::Int32,
            Self::Int64(_) => ElementType::Int64,
            Self::JavaScriptCode(_) => ElementType::JavaScriptCode,
            Self::JavaScriptCodeWithScope(_) => ElementType::JavaScriptCodeWithScope,
            Self::MaxKey => ElementType::MaxKey,
            Self::MinKey => ElementType::MinKey,
            Self::Null => ElementType::Null,
            Self::ObjectId(_) => ElementType::ObjectId,
            Self::RegularExpression(_) => ElementType::RegularExpression,
            Self::String(_) => ElementType::String,
            Self::Symbol(_) => ElementType::Symbol,
            Self::Timestamp(_) => ElementType::Timestamp,
            Self::Undefined => ElementType::Undefined,
        }
    }

    /// The oracle builds documents by the lossy conversion alone.
    pub(crate) fn try_into_parsed(self, _depth: u32) -> Result<Bson> {
        unimplemented!("the strict conversion has no stand-in")
    }
}

#[derive(Clone, Copy)]
pub struct RawBinaryRef<'a> {
    pub subtype: BinarySubtype,
    pub bytes: &'a [u8],
}

impl<'a> RawBinaryRef<'a> {
    pub(crate) fn parse(value: &'a [u8]) -> Result<Self> {
        let subtype = BinarySubtype::from(value[4]);
        let mut bytes = &value[5..];
        if subtype == BinarySubtype::BinaryOld {
            let inner = i32_from_slice(bytes)?;
            bytes = &bytes[4..];
            if usize::try_from(inner).ok() != Some(bytes.len()) {
                return Err(Error::malformed_bytes("old binary of wrong inner length"));
            }
        }
        Ok(Self { subtype, bytes })
    }
}

#[derive(Clone, Copy)]
pub struct RawDbPointerRef<'a> {
    pub namespace: &'a str,
    pub id: ObjectId,
}

impl<'a> RawDbPointerRef<'a> {
    pub(crate) fn parse(value: &'a [u8]) -> Result<Self> {
        let namespace = read_lenencode(value)?;
        let id = ObjectId::parse(&value[4 + namespace.len() + 1..])?;
        Ok(Self { namespace, id })
    }
}

#[derive(Clone, Copy)]
pub struct RawJavaScriptCodeWithScopeRef<'a> {
    pub code: &'a str,
    pub scope: &'a RawDocument,
}

impl<'a> RawJavaScriptCodeWithScopeRef<'a> {
    pub(crate) fn parse(value: &'a [u8]) -> Result<Self> {
        if value.len() < MIN_CODE_WITH_SCOPE_SIZE as usize {
            return Err(Error::malformed_bytes("code with scope too short"));
        }
        let code = read_lenencode(&value[4..])?;
        let start = 4 + 4 + code.len() + 1;
        if start >= value.len() {
            return Err(Error::malformed_bytes("code with scope without a scope"));
        }
        let scope = RawDocument::from_bytes(&value[start..])?;
        Ok(Self { code, scope })
    }
}

#[derive(Clone, Copy)]
pub struct RawRegexRef<'a> {
    pub pattern: &'a CStr,
    pub options: &'a CStr,
}

impl<'a> RawRegexRef<'a> {
    pub(crate) fn parse(value: &'a [u8]) -> Result<Self> {
        let pattern = read_cstring(value)?;
        let options = read_cstring(&value[pattern.len() + 1..])?;
        Ok(Self { pattern, options })
    }
}
