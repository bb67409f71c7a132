//! Pictures in memory.
//!
//! Not proved: the whole file.

use crate::Status;

/// A picture as I420: Y, U and V, each row after row without padding.
#[derive(Clone, Debug, Default, PartialEq, Eq)]
pub struct Picture {
    width: u32,
    height: u32,
    bytes: Vec<u8>,
}

/// How long the planes of Y, and of U or V, are in bytes. `None` if that is more than the memory can have.
fn plane_lengths(width: u32, height: u32) -> Option<(usize, usize)> {
    let (width, height) = (usize::try_from(width).ok()?, usize::try_from(height).ok()?);
    let luma = width.checked_mul(height)?;
    let chroma = width.div_ceil(2).checked_mul(height.div_ceil(2))?;
    luma.checked_add(chroma.checked_mul(2)?)?;
    Some((luma, chroma))
}

impl Picture {
    /// An empty picture, whose memory grows when one is decoded into it.
    pub const fn new() -> Picture {
        Picture {
            width: 0,
            height: 0,
            bytes: Vec::new(),
        }
    }

    /// The width in pixels.
    pub fn width(&self) -> u32 {
        self.width
    }

    /// The height in pixels.
    pub fn height(&self) -> u32 {
        self.height
    }

    /// The width of U and V.
    pub fn chroma_width(&self) -> u32 {
        self.width.div_ceil(2)
    }

    /// All bytes: Y, then U, then V.
    pub fn bytes(&self) -> &[u8] {
        &self.bytes
    }

    /// The bytes, as a vector of their own.
    pub fn into_bytes(self) -> Vec<u8> {
        self.bytes
    }

    /// The plane of luma, `width` bytes to a row.
    pub fn y(&self) -> &[u8] {
        self.plane(0)
    }

    /// The plane of U, `chroma_width` bytes to a row.
    pub fn u(&self) -> &[u8] {
        self.plane(1)
    }

    /// The plane of V, `chroma_width` bytes to a row.
    pub fn v(&self) -> &[u8] {
        self.plane(2)
    }

    fn plane(&self, n: usize) -> &[u8] {
        let (luma, chroma) = plane_lengths(self.width, self.height).unwrap_or((0, 0));
        let lengths = [luma, chroma, chroma];
        let start = lengths.iter().take(n).sum::<usize>();
        let len = lengths.get(n).copied().unwrap_or(0);
        self.bytes
            .get(start..)
            .and_then(|rest| rest.get(..len))
            .unwrap_or(&[])
    }

    /// Gives the picture this size, and gives its planes Y, U and V to write to. `MEMORY` if there is none.
    pub(crate) fn resize(&mut self, width: u32, height: u32) -> Result<[&mut [u8]; 3], Status> {
        let (luma, chroma) = plane_lengths(width, height).ok_or(Status::MEMORY)?;
        let len = chroma.saturating_mul(2).saturating_add(luma);
        self.bytes
            .try_reserve(len.saturating_sub(self.bytes.len()))
            .map_err(|_| Status::MEMORY)?;
        self.bytes.resize(len, 0);
        (self.width, self.height) = (width, height);
        let (y, rest) = self
            .bytes
            .split_at_mut_checked(luma)
            .ok_or(Status::MEMORY)?;
        let (u, v) = rest.split_at_mut_checked(chroma).ok_or(Status::MEMORY)?;
        Ok([y, u, v])
    }

    /// All bytes, to write to.
    pub(crate) fn bytes_mut(&mut self) -> &mut [u8] {
        &mut self.bytes
    }
}
