//! With the feature `std`: what is wrong with the bytes of a file, as an error of reading it.

use std::io::{Error, ErrorKind};

use crate::{fitting, image, text, Refusal};

impl From<Refusal> for Error {
    fn from(refusal: Refusal) -> Self {
        Error::new(ErrorKind::InvalidData, refusal)
    }
}

impl From<fitting::Fault> for Error {
    fn from(fault: fitting::Fault) -> Self {
        Error::new(ErrorKind::InvalidData, fault)
    }
}

impl From<text::Fault> for Error {
    fn from(fault: text::Fault) -> Self {
        Error::new(ErrorKind::InvalidData, fault)
    }
}

impl From<image::Wrong> for Error {
    fn from(wrong: image::Wrong) -> Self {
        Error::new(ErrorKind::InvalidData, wrong)
    }
}
