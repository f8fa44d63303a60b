//! A second implementation of the engine, written from documents 000, 01 and 02 and FIPS 180-4
//! alone.
//!
//! It is plain on purpose: sums are nested loops, G is computed from its definition, and nothing is
//! tuned. A module renders one part of document 01 and names its section. `entries` is the engine
//! as the outside sees it, refusals included; `vectors` makes the stored test vectors from it.

pub mod audit;
pub mod book;
pub mod commitment;
pub mod entries;
pub mod field;
pub mod five_pass;
pub mod label;
pub mod layout;
pub mod map;
pub mod random;
pub mod record;
pub mod refusal;
pub mod report;
pub mod rounds;
pub mod scheme;
pub mod session;
pub mod sha256;
pub mod simulator;
pub mod system;
pub mod three_pass;
pub mod vector;
pub mod vectors;
