//! The hours desk a second time: recordings, readings and verdicts, written
//! from the documents and not from the verified implementation, which is to be
//! compared with it.
//!
//! * [`recording`], [`fixed`] and [`reading`] say the document's sentences
//!   minute by minute; [`plain`] enumerates readings by them.
//! * [`runs`], [`search`] and [`fast`] answer the same questions run by run,
//!   for recordings of any size; [`stepwise`] stands in between, for tests.
//! * [`broken`] keeps for both which of the fixed rules are broken, and picks by
//!   rule or by article.
//! * [`verdict`], [`spans`], [`entry`], [`stored`], [`text`], [`card`] and [`print`]
//!   are the other operations.
//! * [`grow`] and [`small`] make recordings to compare on, by the [`dice`];
//!   [`fronts`] tells how wide a front they come to.

pub mod broken;
pub mod card;
pub mod dice;
pub mod entry;
pub mod fast;
pub mod fixed;
pub mod fronts;
pub mod grow;
pub mod limits;
pub mod plain;
pub mod print;
pub mod reading;
pub mod recording;
pub mod refusal;
pub mod runs;
pub mod search;
pub mod small;
pub mod spans;
pub mod stepwise;
pub mod stored;
pub mod text;
pub mod verdict;

pub use limits::Limits;
pub use refusal::Refusal;
