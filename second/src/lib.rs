//! The second program: a judge that explains itself, a desk, a writer, a sayer, a mover of tables and a speaker made from documents 01 and 02 and the
//! rules for words alone, and what the comparer needs to run them beside the product.

pub mod aims;
pub mod bytes;
pub mod cases;
pub mod clock;
pub mod desk;
pub mod dice;
pub mod face;
pub mod harm;
pub mod hear;
pub mod judge;
pub mod make;
pub mod mend;
pub mod movings;
pub mod natural;
pub mod preview;
pub mod say;
pub mod sayings;
pub mod send;
pub mod session;
pub mod sitting;
pub mod sittings;
pub mod voice;
pub mod voicings;
pub mod weigh;
pub mod widths;
pub mod writings;
