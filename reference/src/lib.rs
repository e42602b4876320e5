//! A naive second implementation of the order format.
//!
//! It is written to be read and to be obviously right, not to be fast. The
//! answers of other programs are compared with its answers.
//!
//! - [`order`]: what an order is, its bytes, and when they are malformed
//! - [`execute`]: what an order does to the values
//! - [`log`]: how orders lie one behind another in a file
//! - [`serial`]: what the program `serial` answers to a log
//! - [`house`]: one house, which does its part of a log
//! - [`solo`]: what the program `solo` answers, a script played on one house
//! - [`random`] and [`generate`]: random logs from a seed
//! - [`schedule`]: random scripts for `solo` from a seed
//! - [`machine`]: the houses that do a log side by side, in random runs
//! - [`answer`] and [`compare`]: runs a program in many cases and compares its
//!   answers

pub mod answer;
pub mod compare;
pub mod execute;
pub mod generate;
pub mod house;
pub mod log;
pub mod machine;
pub mod order;
pub mod random;
pub mod schedule;
pub mod serial;
pub mod solo;
