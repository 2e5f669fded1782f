//! Files of trust anchors.

use std::path::Path;

use zermuita::TrustAnchor;

use crate::out::{self, Failure};

/// Reads the DS records of one zone.
pub fn read(path: &Path) -> Result<TrustAnchor, Failure> {
    let text = out::read_text(path)?;
    text.parse().map_err(|error: zermuita::DsError| Failure::Content { path: path.to_owned(), reason: error.to_string() })
}
