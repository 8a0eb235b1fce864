// Stand-in for owned raw values: what value_utf8_lossy gives.
use super::{RawArrayBuf, RawBsonRef, RawDocumentBuf};
use crate::{oid::ObjectId, Binary, DateTime, DbPointer, Decimal128, Regex, Timestamp};

pub enum RawBson {
    Array(RawArrayBuf),
    Binary(Binary),
    Boolean(bool),
    DateTime(DateTime),
    DbPointer(DbPointer),
    Decimal128(Decimal128),
    Document(RawDocumentBuf),
    Double(f64),
    Int32(i32),
    Int64(i64),
    JavaScriptCode(String),
    JavaScriptCodeWithScope(RawJavaScriptCodeWithScope),
    MaxKey,
    MinKey,
    Null,
    ObjectId(ObjectId),
    RegularExpression(Regex),
    String(String),
    Symbol(String),
    Timestamp(Timestamp),
    Undefined,
}

pub struct RawJavaScriptCodeWithScope {
    pub code: String,
    pub scope: RawDocumentBuf,
}

impl From<RawBsonRef<'_>> for RawBson {
    fn from(value: RawBsonRef<'_>) -> Self {
        match value {
            RawBsonRef::Array(a) => Self::Array(a.into()),
            RawBsonRef::Binary(b) => Self::Binary(Binary {
                subtype: b.subtype,
                bytes: b.bytes.to_vec(),
            }),
            RawBsonRef::Boolean(b) => Self::Boolean(b),
            RawBsonRef::DateTime(d) => Self::DateTime(d),
            RawBsonRef::DbPointer(p) => Self::DbPointer(DbPointer {
                namespace: p.namespace.into(),
                id: p.id,
            }),
            RawBsonRef::Decimal128(d) => Self::Decimal128(d),
            RawBsonRef::Document(d) => Self::Document(d.to_owned()),
            RawBsonRef::Double(d) => Self::Double(d),
            RawBsonRef::Int32(i) => Self::Int32(i),
            RawBsonRef::Int64(i) => Self::Int64(i),
            RawBsonRef::JavaScriptCode(s) => Self::JavaScriptCode(s.into()),
            RawBsonRef::JavaScriptCodeWithScope(c) => {
                Self::JavaScriptCodeWithScope(RawJavaScriptCodeWithScope {
                    code: c.code.into(),
                    scope: c.scope.to_owned(),
                })
            }
            RawBsonRef::MaxKey => Self::MaxKey,
            RawBsonRef::MinKey => Self::MinKey,
            RawBsonRef::Null => Self::Null,
            RawBsonRef::ObjectId(id) => Self::ObjectId(id),
            RawBsonRef::RegularExpression(r) => Self::RegularExpression(Regex {
                pattern: r.pattern.into(),
                options: r.options.into(),
            }),
            RawBsonRef::String(s) => Self::String(s.into()),
            RawBsonRef::Symbol(s) => Self::Symbol(s.into()),
            RawBsonRef::Timestamp(t) => Self::Timestamp(t),
            RawBsonRef::Undefined => Self::Undefined,
        }
    }
}
