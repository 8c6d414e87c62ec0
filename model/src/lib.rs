//! A separate model of the ATCRBS reply processor, written from documents 01 and 02 alone.
//! Each rule of 01 works on the whole trace. Each rule carries the sentence that it transcribes.

pub mod brackets;
pub mod codes;
pub mod compare;
pub mod edges;
pub mod frames;
pub mod generate;
pub mod machine;
pub mod records;
pub mod refusals;
pub mod replies;
pub mod samples;
pub mod statistics;
pub mod survey;
pub mod sweep;
