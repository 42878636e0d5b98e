//! Tests of the built library against a separate model of document 01.

pub mod adversary;
pub mod attainable;
pub mod calendar;
pub mod calls;
pub mod clock;
pub mod compare;
mod cursor;
pub mod engine;
pub mod every;
pub mod fast;
pub mod game;
pub mod json;
pub mod markup;
pub mod model;
pub mod older;
pub mod programs;
pub mod random;
pub mod requests;
pub mod rounds;
pub mod samples;
pub mod slack;
pub mod slow;
pub mod swapfile;
