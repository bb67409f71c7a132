//! A decoder of packets.
//!
//! Not proved: the whole file. Each `unsafe` block passes pointers and lengths of slices to the library, and a handle
//! that no other code has.

use crate::ffi::{self, Handle};
use crate::status::check;
use crate::{Frame, LentPicture, Picture, Status};

/// A reference frame, from which later frames are predicted.
#[derive(Clone, Copy, Debug, PartialEq, Eq)]
pub enum Reference {
    /// The last frame.
    Last = 1,
    /// The golden frame.
    Golden = 2,
    /// The alternate reference frame.
    Altref = 3,
}

/// Decodes packets, one after another.
pub struct Decoder(Handle);

// SAFETY: the state is in memory from malloc that only this handle points to, and the library has no writable globals.
unsafe impl Send for Decoder {}

impl Decoder {
    /// A limit on pixels that fits most uses: 4096 by 4096.
    pub const DEFAULT_MAX_PIXELS: u32 = 16_777_216;

    /// Opens a decoder that refuses pictures of more pixels than `max_pixels`, 1 to 268,402,689.
    /// `LIMITS`, `MEMORY`.
    pub fn new(max_pixels: u32) -> Result<Decoder, Status> {
        let mut handle = Handle::CLOSED;
        // SAFETY: the handle is closed and lives through the call.
        check(unsafe { ffi::vp8_decoder_new(&mut handle, max_pixels) })?;
        Ok(Decoder(handle))
    }

    /// Decodes a packet: `true` if it shows a picture, which `picture` gives. A packet of no bytes
    /// shows the last picture again.
    ///
    /// `TRUNCATED` to `PARTITION_TABLE`, and `partition(n)`: it can't be decoded. Then packets that
    /// are not key packets are refused by `NO_REFERENCE` until the next key packet. `MEMORY`: the
    /// decoder is as before.
    pub fn decode(&mut self, packet: &[u8]) -> Result<bool, Status> {
        // SAFETY: the pointer and the length are of one slice; a slice's pointer is never null.
        shows(unsafe { ffi::vp8_decoder_decode(&mut self.0, packet.as_ptr(), packet.len()) })
    }

    /// Decodes a packet as `decode` does, but goes on after damage: a packet that can't be decoded
    /// shows no picture and changes nothing else. The packets after it are decoded as if it had not
    /// come.
    pub fn decode_keeping(&mut self, packet: &[u8]) -> Result<bool, Status> {
        let (bytes, len) = (packet.as_ptr(), packet.len());
        // SAFETY: the pointer and the length are of one slice; a slice's pointer is never null.
        shows(unsafe { ffi::vp8_decoder_decode_keeping(&mut self.0, bytes, len) })
    }

    /// Facts about the frame of the packet that was decoded last. `NO_PICTURE`: there is no frame before
    /// the first packet, and after a packet of no bytes or one with a fault.
    pub fn frame(&mut self) -> Result<Frame, Status> {
        let mut frame = ffi::Frame::default();
        // SAFETY: `frame` is a variable.
        check(unsafe { ffi::vp8_decoder_frame(&mut self.0, &mut frame) })?;
        Ok(frame.into())
    }

    /// Copies the picture that the last packet showed into `picture`, whose memory is reused.
    /// `NO_PICTURE`, `MEMORY`.
    pub fn picture(&mut self, picture: &mut Picture) -> Result<(), Status> {
        let (mut width, mut height) = (0, 0);
        // SAFETY: the pointers are of two variables.
        check(unsafe { ffi::vp8_decoder_size(&mut self.0, &mut width, &mut height) })?;
        let [y, u, v] = picture.resize(width, height)?;
        let stride = usize::try_from(width).map_err(|_| Status::MEMORY)?;
        let chroma_stride = stride.div_ceil(2);
        // SAFETY: each pointer and length are of one slice, and the slices do not overlap.
        check(unsafe {
            ffi::vp8_decoder_copy(
                &mut self.0,
                y.as_mut_ptr(),
                y.len(),
                stride,
                u.as_mut_ptr(),
                u.len(),
                chroma_stride,
                v.as_mut_ptr(),
                v.len(),
                chroma_stride,
            )
        })
    }

    /// Lends the picture that the last packet showed, without a copy. `NO_PICTURE`.
    pub fn lend(&mut self) -> Result<LentPicture<'_>, Status> {
        let mut lent = ffi::LentPicture {
            width: 0,
            height: 0,
            y: ffi::LentPlane::NONE,
            u: ffi::LentPlane::NONE,
            v: ffi::LentPlane::NONE,
        };
        // SAFETY: the pointer is of a variable.
        check(unsafe { ffi::vp8_decoder_lend(&mut self.0, &mut lent) })?;
        // SAFETY: the library's planes have this size, and stay until its next call, which needs `self`.
        Ok(unsafe { LentPicture::of(&lent) })
    }

    /// Whether a partition of the packet that was decoded last was read past its end, where zeros are
    /// read. That tells no other damage: changed bytes, or a lost end, may give another picture that is
    /// read within the partitions. Nor is it always damage: zeros at a partition's end may be left out,
    /// and a partition that begins with 255, as no encoder's does, counts as one byte. False if that
    /// packet had no bytes or a fault, and before the first one.
    pub fn is_corrupt(&mut self) -> Result<bool, Status> {
        let mut corrupt = 0;
        // SAFETY: the pointer is of a variable.
        check(unsafe { ffi::vp8_decoder_corrupt(&mut self.0, &mut corrupt) })?;
        Ok(corrupt != 0)
    }

    /// Copies a reference frame into `picture`, whose memory is reused.
    /// `NO_PICTURE`: there is none before the first key packet, and after a packet that `decode` refused. `MEMORY`.
    pub fn reference(&mut self, reference: Reference, picture: &mut Picture) -> Result<(), Status> {
        let (mut width, mut height) = (0, 0);
        // SAFETY: the pointers are of two variables.
        check(unsafe { ffi::vp8_decoder_reference_size(&mut self.0, &mut width, &mut height) })?;
        let [y, u, v] = picture.resize(width, height)?;
        let stride = usize::try_from(width).map_err(|_| Status::MEMORY)?;
        let chroma_stride = stride.div_ceil(2);
        // SAFETY: each pointer and length are of one slice, and the slices do not overlap.
        check(unsafe {
            ffi::vp8_decoder_reference(
                &mut self.0,
                reference as u32,
                y.as_mut_ptr(),
                y.len(),
                stride,
                u.as_mut_ptr(),
                u.len(),
                chroma_stride,
                v.as_mut_ptr(),
                v.len(),
                chroma_stride,
            )
        })
    }

    /// Decodes each packet of an iterator: the picture, `None` if none is shown, or the fault.
    ///
    /// The iterator goes on after a packet that can't be decoded.
    pub fn pictures<'a, P>(
        &'a mut self,
        packets: P,
    ) -> impl Iterator<Item = Result<Option<Picture>, Status>> + 'a
    where
        P: IntoIterator,
        P::IntoIter: 'a,
        P::Item: AsRef<[u8]>,
    {
        packets.into_iter().map(|packet| {
            if !self.decode(packet.as_ref())? {
                return Ok(None);
            }
            let mut picture = Picture::new();
            self.picture(&mut picture)?;
            Ok(Some(picture))
        })
    }
}

/// Whether a packet with this status shows a picture.
fn shows(status: u32) -> Result<bool, Status> {
    match status {
        Status::OK => Ok(true),
        Status::HIDDEN => Ok(false),
        status => Err(Status(status)),
    }
}

impl Drop for Decoder {
    fn drop(&mut self) {
        // SAFETY: the handle is this value's own.
        unsafe { ffi::vp8_decoder_free(&mut self.0) }
    }
}
