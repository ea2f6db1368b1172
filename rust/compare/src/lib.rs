//! The archive beside the plain reading: what the differential run, the benchmark and the tests of this package share.
//!
//! [`archive`] calls link and session as C has them, in memory of their own and in memory that is lent; [`image`] compares
//! the operations on one image and [`session`] a whole session, each on memory between guards ([`guarded`]). A [`run`]
//! counts what has been compared and what was answered, and [`stages`] is what it goes through. What is measured of
//! sessions is in [`scripts`], with its [`timing`] and the [`picture`] of it.

pub mod archive;
pub mod guarded;
pub mod image;
pub mod picture;
pub mod run;
pub mod scripts;
pub mod session;
pub mod stages;
pub mod timing;

/// A number with a comma before its last three digits.
pub fn grouped(number: usize) -> String {
    match number / 1000 {
        0 => number.to_string(),
        thousands => format!("{thousands},{:03}", number % 1000),
    }
}
