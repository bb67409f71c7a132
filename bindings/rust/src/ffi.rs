//! The declarations of `include/vp8.h` that this crate uses.
//!
//! Not proved: that they agree with the header. The tests call each of them.

use std::ffi::c_void;

/// `vp8_decoder` and `vp8_stream`. It is closed while `in_use` is 0.
#[repr(C)]
pub struct Handle {
    pub in_use: u32,
    pub state: *mut c_void,
}

impl Handle {
    pub const CLOSED: Handle = Handle {
        in_use: 0,
        state: std::ptr::null_mut(),
    };
}

/// `vp8_stream_info`.
#[repr(C)]
#[derive(Default)]
pub struct StreamInfo {
    pub width: u32,
    pub height: u32,
    pub rate: u32,
    pub scale: u32,
    pub packets: u32,
    pub fault: u32,
}

/// `vp8_packet_info`.
#[repr(C)]
#[derive(Default)]
pub struct PacketInfo {
    pub key: u32,
    pub shown: u32,
    pub width: u32,
    pub height: u32,
}

/// `vp8_frame`.
#[repr(C)]
#[derive(Default)]
pub struct Frame {
    pub key: u32,
    pub version: u32,
    pub shown: u32,
    pub width: u32,
    pub height: u32,
    pub horizontal_scale: u32,
    pub vertical_scale: u32,
    pub quantiser: u32,
    pub refreshes_last: u32,
    pub refreshes_golden: u32,
    pub refreshes_altref: u32,
    pub corrupt: u32,
}

/// `vp8_lent_plane`.
#[repr(C)]
pub struct LentPlane {
    pub at: *const u8,
    pub stride: usize,
}

/// `vp8_lent_picture`.
#[repr(C)]
pub struct LentPicture {
    pub width: u32,
    pub height: u32,
    pub y: LentPlane,
    pub u: LentPlane,
    pub v: LentPlane,
}

impl LentPlane {
    pub const NONE: LentPlane = LentPlane {
        at: std::ptr::null(),
        stride: 0,
    };
}

extern "C" {
    pub fn vp8_status_name(status: u32, out: *mut u8, out_len: usize) -> usize;

    pub fn vp8_webp_packet(
        file: *const u8,
        file_len: usize,
        start: *mut usize,
        len: *mut usize,
    ) -> u32;
    pub fn vp8_webp_file_size(packet: *const u8, packet_len: usize, size: *mut usize) -> u32;
    pub fn vp8_webp_file(
        packet: *const u8,
        packet_len: usize,
        out: *mut u8,
        out_len: usize,
    ) -> u32;

    pub fn vp8_peek(packet: *const u8, packet_len: usize, info: *mut PacketInfo) -> u32;

    pub fn vp8_decoder_new(decoder: *mut Handle, max_pixels: u32) -> u32;
    pub fn vp8_decoder_decode(decoder: *mut Handle, packet: *const u8, packet_len: usize) -> u32;
    pub fn vp8_decoder_decode_keeping(
        decoder: *mut Handle,
        packet: *const u8,
        packet_len: usize,
    ) -> u32;
    pub fn vp8_decoder_frame(decoder: *mut Handle, frame: *mut Frame) -> u32;
    pub fn vp8_decoder_size(decoder: *mut Handle, width: *mut u32, height: *mut u32) -> u32;
    pub fn vp8_decoder_copy(
        decoder: *mut Handle,
        y: *mut u8,
        y_len: usize,
        y_stride: usize,
        u: *mut u8,
        u_len: usize,
        u_stride: usize,
        v: *mut u8,
        v_len: usize,
        v_stride: usize,
    ) -> u32;
    pub fn vp8_decoder_lend(decoder: *mut Handle, lent: *mut LentPicture) -> u32;
    pub fn vp8_decoder_corrupt(decoder: *mut Handle, corrupt: *mut u32) -> u32;
    pub fn vp8_decoder_reference_size(
        decoder: *mut Handle,
        width: *mut u32,
        height: *mut u32,
    ) -> u32;
    pub fn vp8_decoder_reference(
        decoder: *mut Handle,
        reference: u32,
        y: *mut u8,
        y_len: usize,
        y_stride: usize,
        u: *mut u8,
        u_len: usize,
        u_stride: usize,
        v: *mut u8,
        v_len: usize,
        v_stride: usize,
    ) -> u32;
    pub fn vp8_decoder_free(decoder: *mut Handle);

    pub fn vp8_stream_new(stream: *mut Handle, bytes: *const u8, bytes_len: usize) -> u32;
    pub fn vp8_stream_new_empty(stream: *mut Handle) -> u32;
    pub fn vp8_stream_feed(stream: *mut Handle, bytes: *const u8, bytes_len: usize) -> u32;
    pub fn vp8_stream_finish(stream: *mut Handle) -> u32;
    pub fn vp8_stream_get_info(stream: *mut Handle, info: *mut StreamInfo) -> u32;
    pub fn vp8_stream_picture_at(stream: *mut Handle, n: u32) -> u32;
    pub fn vp8_stream_size(stream: *mut Handle, width: *mut u32, height: *mut u32) -> u32;
    pub fn vp8_stream_copy_i420(stream: *mut Handle, out: *mut u8, out_len: usize) -> u32;
    pub fn vp8_stream_free(stream: *mut Handle);
}
