//! An independent implementation of the check and of the writer, generators of cases,
//! and what is needed to hold another program against it.

pub mod case;
pub mod check;
pub mod coverage;
pub mod driver;
pub mod fields;
pub mod generate;
pub mod one;
pub mod program;
pub mod question;
pub mod random;
pub mod shrink;
pub mod speed;
pub mod write;
