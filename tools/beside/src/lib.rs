//! Jobs that reach much, the library's call, and what sets both sides beside each other.

pub mod cases;
pub mod climb;
pub mod compare;
pub mod damage;
pub mod encode;
pub mod exact;
pub mod fields;
pub mod generate;
pub mod labels;
pub mod left_out;
pub mod library;
pub mod limits;
pub mod looked;
pub mod near;
pub mod random;
pub mod reach;
pub mod shown;
pub mod store;
pub mod tables;
pub mod tell;
pub mod text;
pub mod whole;
