//! Frames (contract 14): a body of bytes with a mark, its count and a checksum, for a line that may lose or damage bytes.

use alloc::vec;
use alloc::vec::Vec;

use crate::limits::{FRAME, FRAME_BODY, REPLY};
use crate::{raw, Refusal};

/// The frame of a body, for a line that may lose or damage bytes. A body of more than [`FRAME_BODY`] bytes is refused by [`Refusal::Frame`].
///
/// ```
/// use robequarry::{frame, unframe, Action, Corner, Refusal};
///
/// let call = Action::Begin(Corner::new(0, 1)).by(0).bytes();
/// let mut sent = frame(&call)?;
/// assert_eq!(sent.len(), call.len() + 8);
/// assert_eq!(unframe(&sent)?, call);
/// sent[7] ^= 0x10;
/// assert_eq!(unframe(&sent), Err(Refusal::Frame));
/// # Ok::<(), Refusal>(())
/// ```
pub fn frame(body: &[u8]) -> Result<Vec<u8>, Refusal> {
    // A body that is too long needs no space.
    let mut frame = vec![0; body.len().min(FRAME_BODY) + FRAME];
    let mut reply = [0; REPLY];
    raw::frame(body, &mut frame, &mut reply);
    written(frame, reply)
}

/// The body of a frame. Bytes that are no frame, damaged ones among them, are refused by [`Refusal::Frame`].
pub fn unframe(frame: &[u8]) -> Result<Vec<u8>, Refusal> {
    let mut body = vec![0; frame.len().saturating_sub(FRAME).min(FRAME_BODY)];
    let mut reply = [0; REPLY];
    raw::unframe(frame, &mut body, &mut reply);
    written(body, reply)
}

/// The bytes that a reply counts at the front of a buffer.
fn written(mut buffer: Vec<u8>, reply: raw::Reply) -> Result<Vec<u8>, Refusal> {
    Refusal::check(&reply)?;
    let [_, _, count, ..] = reply;
    buffer.truncate(count.into());
    Ok(buffer)
}
