//! Frames (contract 14): a body as bytes over a line.

use robequarry::limits::{FRAME, FRAME_BODY};

use super::images::checksum;
use crate::reply::{numbered, placed};
use crate::Fields;

/// The frame of a body: the mark, the count, the body, and their checksum.
pub fn frame_of(body: &[u8]) -> Vec<u8> {
    let count = (body.len() as u16).to_le_bytes();
    let front = [b"RQ", &count[..], body].concat();
    let sum = checksum(&front).to_le_bytes();
    [front, sum.to_vec()].concat()
}

/// The body whose frame the bytes are; none where they are no frame. Every body that could be it is tried: there is one for each count.
pub fn body_in(bytes: &[u8]) -> Option<&[u8]> {
    let body = bytes.get(4..bytes.len().checked_sub(4)?)?;
    (body.len() <= FRAME_BODY && frame_of(body) == bytes).then_some(body)
}

/// Writes a frame (contract 14.2).
pub fn frame(body: &[u8], buffer: &mut [u8]) -> Fields {
    let count = body.len() + FRAME;
    if body.len() > FRAME_BODY {
        return numbered(28);
    }
    if buffer.len() < count {
        return numbered(18);
    }
    buffer[..count].copy_from_slice(&frame_of(body));
    placed(0, count)
}

/// Reads a frame (contract 14.3).
pub fn unframe(bytes: &[u8], buffer: &mut [u8]) -> Fields {
    let Some(body) = body_in(bytes) else {
        return numbered(28);
    };
    if buffer.len() < body.len() {
        return numbered(18);
    }
    buffer[..body.len()].copy_from_slice(body);
    placed(0, body.len())
}
