// Stand-in for UUIDs: lib.rs exports the names, and the raw layer has no such value.
pub enum Uuid {}

pub enum UuidRepresentation {}
