//! The second program: document 01 by another route, to compare the screen with.

pub mod answer;
pub mod bytes;
pub mod calendar;
pub mod cases;
pub mod census;
pub mod compare;
pub mod csv;
pub mod draw;
pub mod field;
pub mod flows;
pub mod grammar;
pub mod index;
pub mod judge;
pub mod period;
pub mod refusal;
pub mod sheet;
pub mod step;
pub mod stream;
