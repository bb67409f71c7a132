//! Pictures in the decoder's memory.
//!
//! Not proved: the whole file.

use crate::ffi;

/// A plane in the decoder's memory: its rows, with unused bytes between them.
#[derive(Clone, Copy, Debug)]
pub struct LentPlane<'a> {
    bytes: &'a [u8],
    width: usize,
    stride: usize,
}

/// A picture in the decoder's memory, lent until the decoder is used again.
#[derive(Clone, Copy, Debug)]
pub struct LentPicture<'a> {
    /// The width in pixels.
    pub width: u32,
    /// The height in pixels.
    pub height: u32,
    /// The plane of luma.
    pub y: LentPlane<'a>,
    /// The plane of U.
    pub u: LentPlane<'a>,
    /// The plane of V.
    pub v: LentPlane<'a>,
}

impl<'a> LentPlane<'a> {
    /// From the first row to the end of the last one. Row r begins `stride` times r bytes in.
    pub fn bytes(&self) -> &'a [u8] {
        self.bytes
    }

    /// The distance in bytes from one row to the next.
    pub fn stride(&self) -> usize {
        self.stride
    }

    /// The rows from the top, each as long as the plane is wide.
    pub fn rows(&self) -> impl Iterator<Item = &'a [u8]> {
        let width = self.width;
        self.bytes
            .chunks(self.stride.max(1))
            .map(move |row| row.get(..width).unwrap_or(row))
    }

    /// # Safety
    ///
    /// The plane has this many rows of this width, and lives for `'a`.
    unsafe fn of(plane: &ffi::LentPlane, width: u32, height: u32) -> LentPlane<'a> {
        let width = usize::try_from(width).unwrap_or(0);
        let rows = usize::try_from(height).unwrap_or(0);
        let last = rows.saturating_sub(1).saturating_mul(plane.stride);
        // SAFETY: the caller's.
        let bytes = unsafe { std::slice::from_raw_parts(plane.at, last.saturating_add(width)) };
        LentPlane {
            bytes,
            width,
            stride: plane.stride,
        }
    }
}

impl<'a> LentPicture<'a> {
    /// # Safety
    ///
    /// The picture lives for `'a`.
    pub(crate) unsafe fn of(lent: &ffi::LentPicture) -> LentPicture<'a> {
        let (width, height) = (lent.width, lent.height);
        let (half_width, half_height) = (width.div_ceil(2), height.div_ceil(2));
        // SAFETY: the caller's; the planes of U and V have half of each side, rounded up.
        let (y, u, v) = unsafe {
            (
                LentPlane::of(&lent.y, width, height),
                LentPlane::of(&lent.u, half_width, half_height),
                LentPlane::of(&lent.v, half_width, half_height),
            )
        };
        LentPicture {
            width,
            height,
            y,
            u,
            v,
        }
    }
}
