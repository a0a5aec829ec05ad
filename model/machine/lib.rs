//! The machine of papers 01 and 02, written from these alone: it knows nothing of the library.

pub mod history;
pub mod machine;
pub mod order;
pub mod order_pieces;
pub mod panel;
pub mod panel_pieces;
pub mod pieces;
pub mod raw_state;
pub mod rewrite;
pub mod stretch_pieces;
pub mod tie;
pub mod tie_pieces;
pub mod walk;
