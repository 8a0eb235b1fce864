// Stand-in for the errors of UUIDs: error.rs names the kind, and reading raw bytes gives none.
#[derive(Clone, Debug, thiserror::Error)]
#[error("UUID")]
pub struct UuidErrorKind;
