//! `ivf_to_i420 IN.ivf OUT.i420`: writes each picture that the packets of an IVF file show.

use std::ffi::c_void;
use std::io::Write;
use std::{env, fs, io, ptr};

const OK: u32 = 0;
const MEMORY: u32 = 66;

/// A decoder of the library: see include/vp8.h.
#[repr(C)]
struct Handle {
    in_use: u32,
    state: *mut c_void,
}

#[rustfmt::skip]
unsafe extern "C" {
    fn vp8_decoder_new(decoder: *mut Handle, max_pixels: u32) -> u32;
    fn vp8_decoder_decode(decoder: *mut Handle, packet: *const u8, packet_len: usize) -> u32;
    fn vp8_decoder_size(decoder: *mut Handle, width: *mut u32, height: *mut u32) -> u32;
    fn vp8_decoder_copy(decoder: *mut Handle,
                        y: *mut u8, y_len: usize, y_stride: usize,
                        u: *mut u8, u_len: usize, u_stride: usize,
                        v: *mut u8, v_len: usize, v_stride: usize) -> u32;
    fn vp8_decoder_free(decoder: *mut Handle);
}

/// A decoder that is open until it is dropped.
struct Decoder(Box<Handle>);

impl Decoder {
    fn new(max_pixels: u32) -> Result<Decoder, u32> {
        let mut handle = Box::new(Handle { in_use: 0, state: ptr::null_mut() });
        match unsafe { vp8_decoder_new(&mut *handle, max_pixels) } {
            OK => Ok(Decoder(handle)),
            fault => Err(fault),
        }
    }

    /// What became of a packet.
    fn decode(&mut self, packet: &[u8]) -> u32 {
        unsafe { vp8_decoder_decode(&mut *self.0, packet.as_ptr(), packet.len()) }
    }

    /// The shown picture: Y, U and V, row after row.
    fn i420(&mut self) -> Result<Vec<u8>, u32> {
        let (mut width, mut height) = (0, 0);
        let status = unsafe { vp8_decoder_size(&mut *self.0, &mut width, &mut height) };
        if status != OK {
            return Err(status);
        }
        let (width, height) = (width as usize, height as usize);
        let side = width.div_ceil(2);
        let mut picture = vec![0; width * height + 2 * side * height.div_ceil(2)];
        let (y, colour) = picture.split_at_mut(width * height);
        let (u, v) = colour.split_at_mut(side * height.div_ceil(2));
        let status = unsafe {
            vp8_decoder_copy(
                &mut *self.0,
                y.as_mut_ptr(),
                y.len(),
                width,
                u.as_mut_ptr(),
                u.len(),
                side,
                v.as_mut_ptr(),
                v.len(),
                side,
            )
        };
        if status == OK { Ok(picture) } else { Err(status) }
    }
}

impl Drop for Decoder {
    fn drop(&mut self) {
        unsafe { vp8_decoder_free(&mut *self.0) }
    }
}

/// The packet behind the twelve bytes at the front of a file's rest, and what is left behind it.
fn next_packet(rest: &[u8]) -> Option<(&[u8], &[u8])> {
    let size = u32::from_le_bytes(rest.get(..4)?.try_into().ok()?) as usize;
    rest.get(12..)?.split_at_checked(size)
}

fn main() -> io::Result<()> {
    let words: Vec<String> = env::args().collect();
    let [_, input, output] = words.as_slice() else {
        return Err(io::Error::other("ivf_to_i420 IN.ivf OUT.i420"));
    };
    let (file, mut out) = (fs::read(input)?, io::BufWriter::new(fs::File::create(output)?));
    let refused = |status| io::Error::other(format!("status {status}"));
    let mut decoder = Decoder::new(16_777_216).map_err(refused)?;
    let mut rest = file.get(32..).unwrap_or_default();
    while let Some((packet, behind)) = next_packet(rest) {
        match decoder.decode(packet) {
            OK => out.write_all(&decoder.i420().map_err(refused)?)?,
            MEMORY => return Err(refused(MEMORY)),
            _ => {}
        }
        rest = behind;
    }
    out.flush()
}
