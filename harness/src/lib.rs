//! The host's side of the card: calls, a second interpreter, the comparison.

pub mod buffers;
pub mod card;
pub mod case;
pub mod check;
pub mod desk;
pub mod dots;
pub mod edges;
pub mod engine;
pub mod generate;
pub mod guard;
pub mod page;
pub mod plain;
pub mod plain_list;
pub mod random;
pub mod recording;
pub mod rows;
pub mod second;
pub mod shrink;
pub mod tally;
pub mod tuned;
