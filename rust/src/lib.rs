//! The instrument pool in plain Rust: reading plans, worth, building sheets,
//! checking sheets, handing out one team's page, writing the weekly listing, and the text of plans.

#![deny(unsafe_code)]

pub mod bits;
pub mod brute;
pub mod build;
pub mod calendar;
pub mod check;
pub mod days;
pub mod definition;
pub mod examples;
pub mod family;
#[cfg(proved)]
pub mod ffi;
pub mod form;
pub mod glue;
pub mod listing;
pub mod matching;
pub mod partition;
pub mod plan;
pub mod random;
pub mod refusal;
pub mod sample;
pub mod sheet;
pub mod show;
pub mod text;
pub mod union_find;
pub mod worth;
pub mod writer;
