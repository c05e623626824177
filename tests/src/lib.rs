//! Document 01 a second time, with the requests of document 02 that have landed: a plain implementation in Rust, written from the papers alone.
//! The suites of `main.rs` compare the Rattle library with it. It is made to be read, not to be fast,
//! and takes another way than the library wherever there is one.

pub mod brute;
pub mod clauses;
pub mod deep;
pub mod digits;
pub mod dimacs;
pub mod every;
pub mod every_kind;
pub mod finder;
pub mod idle_walks;
pub mod large_sheets;
pub mod limits;
pub mod long_search;
pub mod meaning;
pub mod next;
pub mod random;
pub mod random_cells;
pub mod random_damage;
pub mod random_limits;
pub mod random_list;
pub mod random_rich;
pub mod random_sheet;
pub mod random_small;
pub mod random_state;
pub mod resume;
pub mod search;
pub mod shadows;
pub mod sheet;
pub mod struck;

#[cfg(test)]
mod cases;
#[cfg(test)]
mod counts;
#[cfg(test)]
mod least_cases;
#[cfg(test)]
mod limit_cases;
#[cfg(test)]
mod next_cases;
#[cfg(test)]
mod resume_cases;
