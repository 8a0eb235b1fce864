// Stand-in for the errors of decimal128: error.rs names the kind, and reading raw bytes gives none.
#[derive(Clone, Debug, thiserror::Error)]
#[error("decimal128")]
pub struct Decimal128ErrorKind;
