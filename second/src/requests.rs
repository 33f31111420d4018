//! What the proved reader does not have yet: it holds where its feature is named, and nowhere else.

/// Request 5: hex data on groups with a base.
pub const HEX: bool = cfg!(feature = "hex");
