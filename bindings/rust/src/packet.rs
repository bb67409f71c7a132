//! What is in a packet: its first bytes, and the frame of one that is decoded.
//!
//! Not proved: the whole file. The `unsafe` block passes the pointer and the length of a slice to the library.

use crate::ffi;
use crate::status::check;
use crate::Status;

/// What the first bytes of a packet say.
#[derive(Clone, Copy, Debug, PartialEq, Eq)]
pub struct PacketInfo {
    /// A key packet, whose frame needs no packet before it.
    pub key: bool,
    /// Its picture is shown.
    pub shown: bool,
    /// The width in pixels of a key packet's picture; 0 for other packets.
    pub width: u32,
    /// The height in pixels of a key packet's picture; 0 for other packets.
    pub height: u32,
}

/// Facts about the frame of a packet that is decoded.
#[derive(Clone, Copy, Debug, PartialEq, Eq)]
pub struct Frame {
    /// A key frame.
    pub key: bool,
    /// The bitstream version, 0 to 3.
    pub version: u32,
    /// Its picture is shown.
    pub shown: bool,
    /// The width of its picture in pixels.
    pub width: u32,
    /// The height of its picture in pixels.
    pub height: u32,
    /// The horizontal upscaling code of a key frame, 0 to 3; 0 for others.
    pub horizontal_scale: u32,
    /// The vertical upscaling code of a key frame, 0 to 3; 0 for others.
    pub vertical_scale: u32,
    /// The quantiser index, 0 to 127.
    pub quantiser: u32,
    /// Its picture becomes the last frame.
    pub refreshes_last: bool,
    /// Its picture becomes golden.
    pub refreshes_golden: bool,
    /// Its picture becomes altref.
    pub refreshes_altref: bool,
    /// A partition was read past its end, where zeros are read: no other damage is told.
    pub corrupt: bool,
}

impl From<ffi::Frame> for Frame {
    fn from(frame: ffi::Frame) -> Frame {
        Frame {
            key: frame.key != 0,
            version: frame.version,
            shown: frame.shown != 0,
            width: frame.width,
            height: frame.height,
            horizontal_scale: frame.horizontal_scale,
            vertical_scale: frame.vertical_scale,
            quantiser: frame.quantiser,
            refreshes_last: frame.refreshes_last != 0,
            refreshes_golden: frame.refreshes_golden != 0,
            refreshes_altref: frame.refreshes_altref != 0,
            corrupt: frame.corrupt != 0,
        }
    }
}

/// Reads the first bytes of a packet: 10 of a key packet, 3 of others.
///
/// `TRUNCATED`, `VERSION`, `START_CODE`, `SIZE`.
pub fn peek(packet: &[u8]) -> Result<PacketInfo, Status> {
    let mut info = ffi::PacketInfo::default();
    // SAFETY: the pointer and the length are of one slice, and `info` is a variable.
    check(unsafe { ffi::vp8_peek(packet.as_ptr(), packet.len(), &mut info) })?;
    Ok(PacketInfo {
        key: info.key != 0,
        shown: info.shown != 0,
        width: info.width,
        height: info.height,
    })
}
