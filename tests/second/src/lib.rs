//! The rehearsal markets, written a second time from their papers (documents 01 and 02); where the paper is open, as
//! docs/DECISIONS.md says. It is meant for comparison with the proved market: both are given the same commands, and
//! their answers must be the same bytes. It shares no code with that market.
//!
//! Read in this order: `shape` (digits, yields, prices, times), `instrument` (in what the bond market and the equities
//! market differ), `message` (what is garbled), `session` (what a good message asks, or why it gets a Session Reject),
//! `order`, `matching` (one step), `report` (what is written), `market` (the calls), `batch` (many messages in one
//! call), `table` (its bytes), `image` (a table
//! written out and read back), `read` (reports and drop copies read back), `copy` (drop copies written). Above them stand
//! `transcript` (command files), `compose`, `damage` and `generate` (messages made for comparison), `script`, `points` (the
//! hand-written walk through the paper) and `samples` (messages published by others).

pub mod shape;

pub mod instrument;

pub mod message;

pub mod session;

pub mod order;

pub mod matching;

pub mod report;

pub mod market;

pub mod batch;

pub mod table;

pub mod image;

pub mod read;

pub mod copy;

pub mod escape;

pub mod transcript;

pub mod compose;

pub mod script;

pub mod points;

pub mod samples;

pub mod random;

pub mod damage;

pub mod generate;

pub mod vectors;
