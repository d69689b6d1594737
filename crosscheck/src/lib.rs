//! A second build of the berth meter book, made from documents 01 and 02 alone, and its
//! comparison with the other, `libsawmauve.a`.
#![deny(unsafe_code)]

pub mod census;
pub mod compare;
pub mod guard;
pub mod host;
pub mod number;
pub mod second;
pub mod tries;
