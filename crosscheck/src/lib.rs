//! A second implementation of the board, and what compares and times the two.

pub mod bench;
pub mod board;
pub mod compare;
pub mod coverage;
pub mod event;
pub mod generate;
pub mod lent;
pub mod library;
pub mod plain;
pub mod random;
pub mod script;
