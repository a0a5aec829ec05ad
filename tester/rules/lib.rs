//! The machine of documents 01 and 02, W1 to W5, from these alone: it knows nothing of the library or the comparison.

pub mod calls;
pub mod lent;
pub mod rules;
pub mod state;
