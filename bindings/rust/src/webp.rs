//! Lossy WebP files, whose picture is one key packet.
//!
//! Not proved: the whole file. Each `unsafe` block passes pointers and lengths of slices to the library.

use crate::ffi;
use crate::status::check;
use crate::{Decoder, Picture, Status};

/// The packet of a WebP file, simple or extended. Alpha, colour profiles and metadata are passed over.
///
/// `SIGNATURE`, `TORN`, `LOSSLESS`, `ANIMATED`, `NO_PICTURE`, `NOT_KEY`, `NOT_SHOWN`.
pub fn webp_packet(file: &[u8]) -> Result<&[u8], Status> {
    let (mut start, mut len) = (0, 0);
    // SAFETY: the pointer and the length are of one slice, and the others are of two variables.
    check(unsafe { ffi::vp8_webp_packet(file.as_ptr(), file.len(), &mut start, &mut len) })?;
    file.get(start..)
        .and_then(|rest| rest.get(..len))
        .ok_or(Status::TORN)
}

/// The WebP file of a key packet. Only the packet's first bytes are looked at.
///
/// `NOT_KEY`, `NOT_SHOWN`, `TOO_LONG`, `MEMORY`.
pub fn webp_file(packet: &[u8]) -> Result<Vec<u8>, Status> {
    let (bytes, len, mut size) = (packet.as_ptr(), packet.len(), 0);
    // SAFETY: the pointer and the length are of one slice, and `size` is a variable.
    check(unsafe { ffi::vp8_webp_file_size(bytes, len, &mut size) })?;
    let mut file = Vec::new();
    file.try_reserve_exact(size).map_err(|_| Status::MEMORY)?;
    file.resize(size, 0);
    // SAFETY: each pointer and length are of one slice, and the slices do not overlap.
    check(unsafe { ffi::vp8_webp_file(bytes, len, file.as_mut_ptr(), file.len()) })?;
    Ok(file)
}

/// The picture of a WebP file of at most 16,777,216 pixels. Faults as of [`webp_packet`] and [`Decoder::decode`].
pub fn webp_picture(file: &[u8]) -> Result<Picture, Status> {
    let mut decoder = Decoder::new(Decoder::DEFAULT_MAX_PIXELS)?;
    let mut picture = Picture::new();
    decoder.decode(webp_packet(file)?)?;
    decoder.picture(&mut picture)?;
    Ok(picture)
}
