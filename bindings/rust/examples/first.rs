//! Writes the first picture of an IVF file as PGM: luma alone.
//!
//! Not proved: the whole file.

use std::error::Error;
use std::io::{stdout, Write};

fn main() -> Result<(), Box<dyn Error>> {
    let path = std::env::args_os().nth(1).ok_or("first FILE")?;
    let file = std::fs::read(path)?;
    let mut decoder = vp8::Decoder::new(vp8::Decoder::DEFAULT_MAX_PIXELS)?;
    for packet in vp8::packets(&file) {
        // A damaged packet costs its picture alone.
        if decoder.decode_keeping(packet) != Ok(true) {
            continue;
        }
        let picture = decoder.lend()?;
        let mut out = stdout().lock();
        writeln!(out, "P5 {} {} 255", picture.width, picture.height)?;
        for row in picture.y.rows() {
            out.write_all(row)?;
        }
        return Ok(());
    }
    Err("no packet shows a picture".into())
}
