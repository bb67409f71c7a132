//! ivf_to_i420 FILE.ivf: writes each shown picture to standard output, and goes on after packets that can't be decoded.

use std::io::Write;

fn main() -> Result<(), Box<dyn std::error::Error>> {
    let path = std::env::args_os().nth(1).ok_or("ivf_to_i420 FILE.ivf")?;
    let file = std::fs::read(path)?;
    let mut decoder = vp8::Decoder::new(vp8::Decoder::DEFAULT_MAX_PIXELS)?;
    let mut out = std::io::stdout().lock();
    for (number, picture) in decoder.pictures(vp8::packets(&file)).enumerate() {
        match picture {
            Ok(Some(picture)) => out.write_all(picture.bytes())?,
            Ok(None) => {}
            Err(fault) => eprintln!("packet {number}: {fault}"),
        }
    }
    Ok(())
}
