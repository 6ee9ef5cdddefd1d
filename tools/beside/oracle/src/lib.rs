//! A job answered by the Rust's own layout.

pub mod answer;
pub mod bytes;
pub mod call;
pub mod check;
pub mod decode;
pub mod form;
pub mod job;
pub mod label;
pub mod refusal;
pub mod rows;
pub mod rust;
pub mod steps;
