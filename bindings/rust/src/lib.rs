//! VP8 decoding by libvp8.
//!
//! What a packet decodes to is proved, in the library. Not proved: this crate. The rules of `vp8.h` for callers follow
//! from types: lengths are of slices, memory that is written to is `&mut`, and a handle is owned and never copied. No
//! function panics.
//!
//! ```
//! use vp8::{Decoder, Picture, Status};
//!
//! # fn main() -> Result<(), Status> {
//! // A key packet of 17 by 1 pixels without modes or coefficients: all pixels are 128.
//! let packet = [0x10, 0, 0, 0x9d, 0x01, 0x2a, 17, 0, 1, 0];
//! let mut decoder = Decoder::new(Decoder::DEFAULT_MAX_PIXELS)?;
//! let mut picture = Picture::new();
//! assert!(decoder.decode(&packet)?);
//! decoder.picture(&mut picture)?;
//! assert_eq!((picture.width(), picture.height()), (17, 1));
//! assert_eq!(picture.y(), [128; 17]);
//! assert_eq!(decoder.decode(&packet[..2]), Err(Status::TRUNCATED));
//! # Ok(())
//! # }
//! ```
//!
//! The picture of a WebP file:
//!
//! ```no_run
//! # fn main() -> Result<(), Box<dyn std::error::Error>> {
//! let file = std::fs::read("photo.webp")?;
//! let picture = vp8::webp_picture(&file)?;
//! println!("{}x{}", picture.width(), picture.height());
//! # Ok(())
//! # }
//! ```
//!
//! All pictures of a file:
//!
//! ```no_run
//! # fn main() -> Result<(), Box<dyn std::error::Error>> {
//! let file = std::fs::read("film.ivf")?;
//! let mut decoder = vp8::Decoder::new(vp8::Decoder::DEFAULT_MAX_PIXELS)?;
//! for picture in decoder.pictures(vp8::packets(&file)) {
//!     match picture {
//!         Ok(Some(picture)) => println!("{}x{}", picture.width(), picture.height()),
//!         Ok(None) => println!("hidden"),
//!         Err(fault) => println!("{fault}"),
//!     }
//! }
//! # Ok(())
//! # }
//! ```

#![deny(unsafe_op_in_unsafe_fn, missing_docs)]

mod decoder;
mod ffi;
mod lent;
mod packet;
mod picture;
mod status;
mod stream;
mod webp;

pub use decoder::{Decoder, Reference};
pub use lent::{LentPicture, LentPlane};
pub use packet::{peek, Frame, PacketInfo};
pub use picture::Picture;
pub use status::Status;
pub use stream::{packets, Packets, Stream, StreamInfo};
pub use webp::{webp_file, webp_packet, webp_picture};
