//! Statuses of calls, as errors.
//!
//! Not proved: the whole file. `Display` passes memory of 32 bytes to the library; no name is longer than 14.

use crate::ffi;
use std::fmt;

/// Why a call is refused, or a packet can't be decoded: a number of `vp8.h`.
#[derive(Clone, Copy, PartialEq, Eq, Hash)]
pub struct Status(pub u32);

impl Status {
    pub(crate) const OK: u32 = 0;
    pub(crate) const HIDDEN: u32 = 1;

    /// The packet of a WebP file is not to be shown.
    pub const NOT_SHOWN: Status = Status(1);

    /// Fewer than 3 bytes, or fewer than 10 of a key packet.
    pub const TRUNCATED: Status = Status(16);
    /// A version over 3.
    pub const VERSION: Status = Status(17);
    /// A key packet without the start code.
    pub const START_CODE: Status = Status(18);
    /// A width or height of 0.
    pub const SIZE: Status = Status(19);
    /// More pixels than the decoder allows.
    pub const TOO_LARGE: Status = Status(20);
    /// An inter packet without a key packet before it, or after a packet that can't be decoded.
    pub const NO_REFERENCE: Status = Status(21);
    /// The first partition passes the end of the packet.
    pub const FIRST_PARTITION: Status = Status(22);
    /// The table of the token partitions' sizes passes the end of the packet.
    pub const PARTITION_TABLE: Status = Status(23);
    /// The file's head does not begin with DKIF, or that of a WebP file with RIFF, its size, and WEBP.
    pub const SIGNATURE: Status = Status(32);
    /// The file's head does not say VP80.
    pub const CODEC: Status = Status(33);
    /// The file has more packets than 1,048,576.
    pub const TOO_MANY: Status = Status(34);
    /// A packet of the file is larger than 16,777,216 bytes.
    pub const PACKET_TOO_LARGE: Status = Status(35);
    /// The file ends inside its head or a packet.
    pub const TORN: Status = Status(36);
    /// A piece is fed after the end of the file was marked.
    pub const ENDED: Status = Status(37);
    /// The picture of a WebP file is compressed losslessly.
    pub const LOSSLESS: Status = Status(38);
    /// A WebP file is an animation.
    pub const ANIMATED: Status = Status(39);
    /// The packet of a WebP file is not a key packet.
    pub const NOT_KEY: Status = Status(40);
    /// The packet is too long for a WebP file.
    pub const TOO_LONG: Status = Status(49);
    /// Memory was refused.
    pub const MEMORY: Status = Status(66);
    /// The limit on pixels is 0, or over 268,402,689.
    pub const LIMITS: Status = Status(67);
    /// No picture is shown, or a WebP file has none.
    pub const NO_PICTURE: Status = Status(69);
    /// The file has no packet of this number.
    pub const NO_PACKET: Status = Status(70);

    /// The status of token partition `n`, 0 to 7: the first that passes the end of the packet.
    pub const fn partition(n: u32) -> Status {
        Status(256_u32.saturating_add(n))
    }
}

impl fmt::Display for Status {
    fn fmt(&self, f: &mut fmt::Formatter) -> fmt::Result {
        let mut name = [0; 32];
        // SAFETY: the pointer and the length are of one array.
        let len = unsafe { ffi::vp8_status_name(self.0, name.as_mut_ptr(), name.len()) };
        f.write_str(
            name.get(..len)
                .and_then(|name| std::str::from_utf8(name).ok())
                .unwrap_or(""),
        )
    }
}

impl fmt::Debug for Status {
    fn fmt(&self, f: &mut fmt::Formatter) -> fmt::Result {
        write!(f, "Status({}, {self})", self.0)
    }
}

impl std::error::Error for Status {}

/// `Ok` for the status of a call that is done.
pub(crate) fn check(status: u32) -> Result<(), Status> {
    if status == Status::OK {
        Ok(())
    } else {
        Err(Status(status))
    }
}
