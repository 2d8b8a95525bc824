#![allow(dead_code)] // each test uses its own part

pub mod call;
pub mod room;
pub mod xml;
