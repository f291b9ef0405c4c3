//! A second implementation, written from the definitions alone, and what trials need besides: it shares no code and no idea with
//! the calls that it is compared with.
#![allow(dead_code)]

pub mod cuts;
pub mod derivatives;
pub mod forms;
pub mod lent;
pub mod random;
pub mod search;
