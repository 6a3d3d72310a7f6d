//! Cases for the comparisons, a folder for each call: what is lent, made from a
//! seed and a number.

pub mod desk;
pub mod listing;
pub mod packet;
pub mod run;
