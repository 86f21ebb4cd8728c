//! What the desk is compared on: every operation of documents 01 and 02, on
//! inputs from fixed seeds, lent buffers whole; and how a difference is shown, on
//! the smallest input that still has it.

pub mod article_order;
mod cards;
pub mod cases;
pub mod difference;
mod edges;
pub mod first_part;
pub mod inputs;
pub mod mistake;
mod moves;
pub mod operation;
pub mod reading_order;
mod recordings;
#[path = "../../second/tests/shorthand/mod.rs"]
mod shorthand;
pub mod shrink;
pub mod spans;
pub mod split_rest;
pub mod tally;
mod weeks;
mod years;
