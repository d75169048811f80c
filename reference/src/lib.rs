//! The second implementation of document 01 and of request P1 of document 02,
//! written to be compared with the first: plain rather than clever. Words in
//! quotation marks are the papers'.

pub mod bits;
pub mod calendar;
pub mod cases;
pub mod charges;
pub mod check;
pub mod coverage;
pub mod days;
pub mod explain;
pub mod file;
pub mod layout;
pub mod litres;
pub mod random;
pub mod report;
pub mod services;
pub mod settlement;
pub mod text;
