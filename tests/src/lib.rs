//! Outside tests of the setup book: the library, called through its C functions, is compared with
//! an implementation of the paper that shares no code with it.
//!
//! - `call`: the calls that are compared, and what a call leaves behind; `combination`: those on two
//!   tables
//! - `paper`: the paper, straight; `reading`: a table, `part`: the table of a part, `loose`: the proper
//!   table of a loose one, `combined`: two tables made into one, and `listing`: what `setuplist`
//!   prints, after it
//! - `pascal`: Pascal's triangle; `distance`: how many settings setups differ in
//! - `diagram`: diagrams without flags, from which tables are written
//! - `library`: the library under test; `memory`: what is lent to it, guarded; `program`: the
//!   programs, run
//! - `tables`: accepted tables; `loosening`: loose ones; `damage`: tables with faults; `sheets`: sheets
//!   and out memories; `lists`: lists of numbers
//! - `layout`: words, bytes and the fields of a word; `files`: where files are found
//! - `comparison`: runs a call on both sides; `combining`: one on two tables; `tally`: which cases
//!   have been met
//! - `fuzz`: calls on raw bytes; `fuzz_two`: those on two tables; `raw`: these bytes; `pages`: what is
//!   lent, between guard pages
//! - `rng`: pseudo-random numbers

pub mod call;
pub mod combination;
pub mod combined;
pub mod combining;
pub mod comparison;
pub mod damage;
pub mod diagram;
pub mod distance;
pub mod files;
pub mod fuzz;
pub mod fuzz_two;
pub mod layout;
pub mod library;
pub mod listing;
pub mod lists;
pub mod loose;
pub mod loosening;
pub mod memory;
pub mod pages;
pub mod paper;
pub mod part;
pub mod pascal;
pub mod program;
pub mod raw;
pub mod reading;
pub mod rng;
pub mod sheets;
pub mod tables;
pub mod tally;
