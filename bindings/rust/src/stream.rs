//! IVF files: their packets in order, and their pictures by number.
//!
//! Not proved: the whole file. Each `unsafe` block passes pointers and lengths of slices to the library, and a handle
//! that no other code has.

use crate::ffi::{self, Handle};
use crate::status::check;
use crate::{Picture, Status};

/// The whole packets of an IVF file, in order. The head of 32 bytes is skipped, and not checked.
pub fn packets(file: &[u8]) -> Packets<'_> {
    Packets(file.get(32..).unwrap_or(&[]))
}

/// The iterator of [`packets`].
#[derive(Clone, Debug)]
pub struct Packets<'a>(&'a [u8]);

impl<'a> Iterator for Packets<'a> {
    type Item = &'a [u8];

    fn next(&mut self) -> Option<&'a [u8]> {
        let size = self.0.get(..4)?.try_into().ok()?;
        let len = usize::try_from(u32::from_le_bytes(size)).ok()?;
        let body = self.0.get(12..)?;
        let packet = body.get(..len)?;
        self.0 = body.get(len..)?;
        Some(packet)
    }
}

impl std::iter::FusedIterator for Packets<'_> {}

/// What is known of a file so far.
#[derive(Clone, Copy, Debug, PartialEq, Eq)]
pub struct StreamInfo {
    /// The width in pixels that the file's head says, which need not be a picture's.
    pub width: u32,
    /// The height in pixels that the file's head says.
    pub height: u32,
    /// There are `rate` / `scale` pictures a second.
    pub rate: u32,
    /// See `rate`.
    pub scale: u32,
    /// How many packets are whole.
    pub packets: u32,
    /// Why no more packets are read: `SIGNATURE` to `TORN`. `TORN` only after the end is marked.
    pub fault: Option<Status>,
}

/// An IVF file in memory, whole or growing, whose pictures are requested by number. They have at most
/// 16,777,216 pixels.
pub struct Stream(Handle);

// SAFETY: the state is in memory from malloc that only this handle points to, and the library has no writable globals.
unsafe impl Send for Stream {}

impl Stream {
    /// Opens a stream over a copy of the bytes of a whole file, damaged or not: see `info`. `MEMORY`.
    pub fn new(file: &[u8]) -> Result<Stream, Status> {
        let mut handle = Handle::CLOSED;
        // SAFETY: the handle is closed and lives through the call; the pointer and the length are of one slice.
        check(unsafe { ffi::vp8_stream_new(&mut handle, file.as_ptr(), file.len()) })?;
        Ok(Stream(handle))
    }

    /// Opens a stream without any bytes, for a file that is fed in pieces. `MEMORY`.
    pub fn empty() -> Result<Stream, Status> {
        let mut handle = Handle::CLOSED;
        // SAFETY: the handle is closed and lives through the call.
        check(unsafe { ffi::vp8_stream_new_empty(&mut handle) })?;
        Ok(Stream(handle))
    }

    /// Copies the next bytes of the file, of any number.
    ///
    /// `SIGNATURE` to `PACKET_TOO_LARGE`: the file's fault; the packets before it can still be decoded, and later
    /// bytes are refused. `ENDED`: the end was marked. `MEMORY`: the stream is as before, and the same bytes may be
    /// fed again.
    pub fn feed(&mut self, bytes: &[u8]) -> Result<(), Status> {
        // SAFETY: the pointer and the length are of one slice; a slice's pointer is never null.
        check(unsafe { ffi::vp8_stream_feed(&mut self.0, bytes.as_ptr(), bytes.len()) })
    }

    /// Marks the end of the file. The fault of the file, if it has one: `SIGNATURE` to `TORN`. Later calls return the
    /// same.
    pub fn finish(&mut self) -> Result<(), Status> {
        // SAFETY: the handle is this value's own.
        check(unsafe { ffi::vp8_stream_finish(&mut self.0) })
    }

    /// What is known of the file so far.
    pub fn info(&mut self) -> Result<StreamInfo, Status> {
        let mut found = ffi::StreamInfo::default();
        // SAFETY: the pointer is of a variable.
        check(unsafe { ffi::vp8_stream_get_info(&mut self.0, &mut found) })?;
        let ffi::StreamInfo {
            width,
            height,
            rate,
            scale,
            packets,
            fault,
        } = found;
        Ok(StreamInfo {
            width,
            height,
            rate,
            scale,
            packets,
            fault: check(fault).err(),
        })
    }

    /// Decodes packet `n` into `picture`: `true` if it shows a picture; else `picture` is unchanged.
    /// Packets requested in order are decoded once each; others from the last key packet on. Faults as
    /// of [`crate::Decoder::decode`]; `NO_PACKET`, if the file has no such packet, or not yet; `MEMORY`.
    pub fn picture_at(&mut self, n: u32, picture: &mut Picture) -> Result<bool, Status> {
        // SAFETY: the handle is this value's own.
        match unsafe { ffi::vp8_stream_picture_at(&mut self.0, n) } {
            Status::OK => {}
            Status::HIDDEN => return Ok(false),
            status => return Err(Status(status)),
        }
        let (mut width, mut height) = (0, 0);
        // SAFETY: the pointers are of two variables.
        check(unsafe { ffi::vp8_stream_size(&mut self.0, &mut width, &mut height) })?;
        picture.resize(width, height)?;
        let out = picture.bytes_mut();
        // SAFETY: the pointer and the length are of one slice.
        check(unsafe { ffi::vp8_stream_copy_i420(&mut self.0, out.as_mut_ptr(), out.len()) })?;
        Ok(true)
    }
}

impl Drop for Stream {
    fn drop(&mut self) {
        // SAFETY: the handle is this value's own.
        unsafe { ffi::vp8_stream_free(&mut self.0) }
    }
}
