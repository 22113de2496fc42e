//! A tag of any number, and a source whose next tag is any number.
use super::{EpochTag, TagSource};

impl EpochTag {
    pub(crate) fn of(number: u64) -> Self {
        Self(number)
    }
}

impl TagSource {
    pub(crate) fn at(next: u64) -> Self {
        Self { next }
    }
}
