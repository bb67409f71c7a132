//! Tests of each call. A key packet of 17 by 1 pixels with an empty first partition shows 128 in each pixel.

use vp8::{
    packets, peek, webp_file, webp_packet, webp_picture, Decoder, Frame, PacketInfo, Picture,
    Reference, Status, Stream, StreamInfo,
};

const KEY: [u8; 10] = [0x10, 0, 0, 0x9d, 0x01, 0x2a, 17, 0, 1, 0];
const HIDDEN: [u8; 3] = [0x01, 0, 0];

/// A key packet that libvpx finds complete, and read past its end with one byte less.
const WHOLE: [u8; 41] = [
    0x90, 2, 0, 0x9d, 1, 0x2a, 0x11, 0, 1, 0, 0, 0, 0, 0, 0, 0, 0, 0, 0, 0, 0, 0, 0, 0, 0, 0, 0, 0,
    0, 0, 0x29, 0xf8, 0x85, 0x12, 0, 0x4a, 0xf0, 0xbf, 0xa3, 0x0b, 0x8b,
];

fn ivf(packets: &[&[u8]]) -> Vec<u8> {
    let mut file = b"DKIF\0\0\x20\0VP80\x11\0\x01\0\x1e\0\0\0\x02\0\0\0\0\0\0\0\0\0\0\0".to_vec();
    for packet in packets {
        file.extend((packet.len() as u32).to_le_bytes());
        file.extend([0; 8]);
        file.extend(*packet);
    }
    file
}

#[test]
fn whole_packets_are_given() {
    let file = ivf(&[&KEY, &[], &HIDDEN]);
    assert_eq!(packets(&file).collect::<Vec<_>>(), [&KEY[..], &[], &HIDDEN]);
    for cut in 0..file.len() {
        let count = packets(&file[..cut]).count();
        assert_eq!(
            count,
            [54, 66, 81].iter().filter(|end| cut >= **end).count()
        );
    }
    let mut file = ivf(&[&KEY]);
    file[32..36].copy_from_slice(&[255; 4]);
    assert_eq!(packets(&file).next(), None);
}

#[test]
fn a_picture_is_decoded() -> Result<(), Status> {
    let mut decoder = Decoder::new(17)?;
    let mut picture = Picture::new();
    assert_eq!(decoder.picture(&mut picture), Err(Status::NO_PICTURE));
    assert!(decoder.decode(&KEY)?);
    decoder.picture(&mut picture)?;
    assert_eq!(
        (picture.width(), picture.height(), picture.chroma_width()),
        (17, 1, 9)
    );
    assert_eq!(
        (picture.y(), picture.u(), picture.v()),
        (&[128; 17][..], &[128; 9][..], &[128; 9][..])
    );
    assert_eq!(picture.bytes(), [128; 35]);
    assert!(!decoder.decode(&HIDDEN)?);
    assert_eq!(decoder.picture(&mut picture), Err(Status::NO_PICTURE));
    assert!(decoder.decode(&[])?);
    assert_eq!(picture.clone().into_bytes(), [128; 35]);
    Ok(())
}

#[test]
fn faults_are_named() -> Result<(), Status> {
    let mut decoder = Decoder::new(16)?;
    let mut version = KEY;
    version[0] |= 8;
    assert_eq!(decoder.decode(&HIDDEN), Err(Status::NO_REFERENCE));
    assert_eq!(decoder.decode(&KEY), Err(Status::TOO_LARGE));
    assert_eq!(decoder.decode(&version), Err(Status::VERSION));
    assert_eq!(decoder.decode(&KEY[..9]), Err(Status::TRUNCATED));
    assert_eq!(Decoder::new(0).err(), Some(Status::LIMITS));
    assert_eq!(Decoder::new(268_402_690).err(), Some(Status::LIMITS));
    assert_eq!(Status::TOO_LARGE.to_string(), "TooLarge");
    assert_eq!(Status::partition(2).to_string(), "Partition 2");
    assert_eq!(Status::partition(u32::MAX).to_string(), "");
    assert_eq!(format!("{:?}", Status::TORN), "Status(36, Torn)");
    Ok(())
}

#[test]
fn decoding_goes_on_after_damage() -> Result<(), Status> {
    const INTER: [u8; 3] = [0x11, 0, 0];
    let mut decoder = Decoder::new(17)?;
    let mut picture = Picture::new();
    assert!(decoder.decode_keeping(&KEY)?);
    assert_eq!(decoder.decode_keeping(&KEY[..9]), Err(Status::TRUNCATED));
    assert_eq!(decoder.picture(&mut picture), Err(Status::NO_PICTURE));
    assert!(decoder.decode_keeping(&[])?);
    assert!(decoder.decode_keeping(&INTER)?);
    decoder.picture(&mut picture)?;
    assert_eq!(picture.bytes(), [128; 35]);
    assert_eq!(decoder.decode(&KEY[..9]), Err(Status::TRUNCATED));
    assert_eq!(decoder.decode_keeping(&INTER), Err(Status::NO_REFERENCE));
    Ok(())
}

#[test]
fn packets_are_peeked() -> Result<(), Status> {
    let key = PacketInfo {
        key: true,
        shown: true,
        width: 17,
        height: 1,
    };
    let hidden = PacketInfo {
        key: false,
        shown: false,
        width: 0,
        height: 0,
    };
    assert_eq!((peek(&KEY)?, peek(&HIDDEN)?), (key, hidden));
    assert_eq!(peek(&KEY[..9]), Err(Status::TRUNCATED));
    Ok(())
}

#[test]
fn facts_of_a_frame() -> Result<(), Status> {
    let mut decoder = Decoder::new(17)?;
    let key = Frame {
        key: true,
        version: 0,
        shown: true,
        width: 17,
        height: 1,
        horizontal_scale: 0,
        vertical_scale: 0,
        quantiser: 0,
        refreshes_last: true,
        refreshes_golden: true,
        refreshes_altref: true,
        corrupt: false,
    };
    assert_eq!(decoder.frame(), Err(Status::NO_PICTURE));
    assert!(decoder.decode(&WHOLE)?);
    assert_eq!(decoder.frame()?, key);
    assert!(decoder.decode(&WHOLE[..40])?);
    let cut = Frame {
        corrupt: true,
        ..key
    };
    assert_eq!(decoder.frame()?, cut);
    let hidden = Frame {
        key: false,
        shown: false,
        refreshes_last: false,
        refreshes_golden: false,
        refreshes_altref: false,
        ..cut
    };
    assert!(!decoder.decode(&HIDDEN)?);
    assert_eq!(decoder.frame()?, hidden);
    assert!(decoder.decode(&[])?);
    assert_eq!(decoder.frame(), Err(Status::NO_PICTURE));
    assert_eq!(decoder.decode(&KEY[..9]), Err(Status::TRUNCATED));
    assert_eq!(decoder.frame(), Err(Status::NO_PICTURE));
    Ok(())
}

#[test]
fn pictures_are_iterated() -> Result<(), Status> {
    let file = ivf(&[&HIDDEN, &KEY, &HIDDEN, &[]]);
    let mut decoder = Decoder::new(Decoder::DEFAULT_MAX_PIXELS)?;
    let found: Vec<_> = decoder
        .pictures(packets(&file))
        .map(|it| it.map(|shown| shown.map(Picture::into_bytes)))
        .collect();
    let shown = || Ok(Some(vec![128; 35]));
    assert_eq!(
        found,
        [Err(Status::NO_REFERENCE), shown(), Ok(None), shown()]
    );
    Ok(())
}

#[test]
fn pictures_are_requested_by_number() -> Result<(), Status> {
    let file = ivf(&[&KEY, &HIDDEN, &[0x11], &KEY]);
    let mut stream = Stream::new(&file[..file.len() - 1])?;
    let mut picture = Picture::new();
    let info = StreamInfo {
        width: 17,
        height: 1,
        rate: 30,
        scale: 2,
        packets: 3,
        fault: Some(Status::TORN),
    };
    assert_eq!(stream.info()?, info);
    assert!(!stream.picture_at(1, &mut picture)?);
    assert_eq!(picture, Picture::new());
    assert!(stream.picture_at(0, &mut picture)?);
    assert_eq!(picture.bytes(), [128; 35]);
    assert_eq!(stream.picture_at(2, &mut picture), Err(Status::TRUNCATED));
    assert_eq!(stream.picture_at(3, &mut picture), Err(Status::NO_PACKET));
    assert_eq!(Stream::new(&file)?.info()?.fault, None);
    assert_eq!(
        Stream::new(b"no file of this kind, but longer than a head")?
            .info()?
            .fault,
        Some(Status::SIGNATURE)
    );
    Ok(())
}

#[test]
fn pieces_are_fed() -> Result<(), Status> {
    let file = ivf(&[&KEY, &HIDDEN, &[0x11], &KEY]);
    let mut stream = Stream::empty()?;
    let mut picture = Picture::new();
    assert_eq!(stream.picture_at(0, &mut picture), Err(Status::NO_PACKET));
    for (at, byte) in file.iter().enumerate() {
        stream.feed(&[*byte])?;
        let info = stream.info()?;
        let whole = packets(&file[..=at]).count();
        assert_eq!((info.packets as usize, info.fault), (whole, None));
    }
    assert!(stream.picture_at(0, &mut picture)?);
    assert_eq!(picture.bytes(), [128; 35]);
    assert!(!stream.picture_at(1, &mut picture)?);
    assert_eq!(stream.picture_at(2, &mut picture), Err(Status::TRUNCATED));
    assert!(stream.picture_at(3, &mut picture)?);
    stream.finish()?;
    assert_eq!(stream.feed(&[]), Err(Status::ENDED));
    assert_eq!(stream.info()?, Stream::new(&file)?.info()?);
    let mut torn = Stream::empty()?;
    torn.feed(&file[..file.len() - 1])?;
    assert_eq!(torn.finish(), Err(Status::TORN));
    assert_eq!(torn.info()?.fault, Some(Status::TORN));
    let mut other = Stream::empty()?;
    assert_eq!(other.feed(&[0; 32]), Err(Status::SIGNATURE));
    assert_eq!(other.feed(&file), Err(Status::SIGNATURE));
    Ok(())
}

#[test]
fn decoders_move_between_threads() -> Result<(), Status> {
    let mut decoder = Decoder::new(17)?;
    let decoded = std::thread::spawn(move || decoder.decode(&KEY)).join();
    assert!(matches!(decoded, Ok(Ok(true))));
    Ok(())
}

#[test]
fn damage_is_told() -> Result<(), Status> {
    let mut decoder = Decoder::new(17)?;
    assert!(!decoder.is_corrupt()?);
    for (packet, is_corrupt) in [
        (&WHOLE[..], false),
        (&WHOLE[..40], true),
        (&[], false),
        (&WHOLE[..40], true),
    ] {
        assert!(decoder.decode_keeping(packet)?);
        assert_eq!(decoder.is_corrupt()?, is_corrupt);
    }
    assert_eq!(decoder.decode_keeping(&KEY[..9]), Err(Status::TRUNCATED));
    assert!(!decoder.is_corrupt()?);
    Ok(())
}

#[test]
fn references_are_copied() -> Result<(), Status> {
    let (mut picture, mut reference) = (Picture::new(), Picture::new());
    let mut decoder = Decoder::new(17)?;
    let missing = decoder.reference(Reference::Last, &mut reference);
    assert_eq!(missing, Err(Status::NO_PICTURE));
    assert!(decoder.decode(&WHOLE)?);
    decoder.picture(&mut picture)?;
    for number in [Reference::Last, Reference::Golden, Reference::Altref] {
        decoder.reference(number, &mut reference)?;
        assert_eq!(reference, picture);
    }
    Ok(())
}

#[test]
fn pictures_are_lent() -> Result<(), Status> {
    let mut picture = Picture::new();
    let mut decoder = Decoder::new(17)?;
    assert_eq!(decoder.lend().err(), Some(Status::NO_PICTURE));
    assert!(decoder.decode(&WHOLE)?);
    decoder.picture(&mut picture)?;
    let lent = decoder.lend()?;
    assert_eq!((lent.width, lent.height, lent.y.stride()), (17, 1, 32));
    for (plane, copied) in [
        (lent.y, picture.y()),
        (lent.u, picture.u()),
        (lent.v, picture.v()),
    ] {
        assert_eq!(plane.rows().flatten().copied().collect::<Vec<_>>(), copied);
    }
    Ok(())
}

/// Packets of 17 by 1 pixels: a key packet, an inter packet that only golden is refreshed with, and one for altref
/// alone.
const PACKETS: [&[u8]; 3] = [
    &[
        0x90, 2, 0, 0x9d, 1, 0x2a, 0x11, 0, 1, 0, 0, 0, 0, 0, 0, 0, 0, 0, 0, 0, 0, 0, 0, 0, 0, 0,
        0, 0, 0, 0, 0xa7, 0xe9, 0x8c, 0xbc, 0xd0, 0xc8, 0x1a, 0xcc, 0xe9, 0x31, 0xbc, 0x41, 0x0b,
        0x89, 0x67, 0x5c, 0x2c, 0x87, 0x47, 0xf7, 0x7c, 0x89, 0x3f, 0x56, 0x91, 0x58, 0x0a, 0x96,
        0xf9, 0x67, 0xc9, 0x0a, 0xf1, 0x65, 0x84, 0xe8, 0x27, 0xe7, 0xc0, 0x97,
    ],
    &[
        0x31, 2, 0, 0, 0, 0xf0, 0x20, 0, 0, 0x97, 0xf1, 0x61, 0, 0, 0, 0, 0, 0, 0, 0, 0xf1, 0x56,
        0xfd, 0x1d, 0xdb, 0xfd, 0xd7, 0x91, 0xcc, 0x9f, 0xbb, 0x92, 0xf7, 0x8a, 0x91, 0x97, 0x0d,
        7, 0x7d, 0x15, 0x50, 0xd1, 0xc7, 0x1b, 0xa1, 0xcb, 0x19, 0xa3, 0x25, 0x72,
    ],
    &[
        0x31, 2, 0, 0, 0, 0xf0, 0x10, 0, 0, 0x97, 0xf1, 0x61, 0, 0, 0, 0, 0, 0, 0, 0, 0xbc, 0xe9,
        0xed, 0xf8, 0x87, 0xbe, 0xa3, 0x99, 0xdd, 0x51, 0x67, 0xe9, 0x9f, 0x5b, 0x2a, 0xe4, 0x52,
        0x61, 0x62, 0x47, 0xaa, 0xd2, 0x3b, 0x9a, 0xf8, 0x5f, 0xda, 0xe5, 0x60, 0xbc,
    ],
];

/// The pictures that these packets show by vpxdec and by ffmpeg: Y, U and V.
const PICTURES: [[u8; 35]; 3] = [
    [
        128, 128, 128, 128, 129, 129, 129, 129, 128, 127, 128, 129, 125, 126, 127, 127, 128, 128,
        128, 128, 128, 128, 128, 128, 128, 128, 128, 128, 128, 128, 127, 128, 128, 129, 129,
    ],
    [
        127, 127, 127, 127, 127, 127, 127, 127, 127, 127, 127, 127, 127, 127, 127, 127, 127, 128,
        128, 128, 128, 125, 125, 125, 125, 128, 128, 128, 128, 128, 128, 128, 128, 128, 128,
    ],
    [
        128, 128, 128, 128, 128, 128, 128, 128, 134, 134, 134, 134, 134, 130, 126, 123, 127, 133,
        133, 133, 133, 128, 128, 128, 128, 128, 128, 128, 128, 128, 125, 125, 125, 125, 128,
    ],
];

#[test]
fn planes_and_references_are_told_apart() -> Result<(), Status> {
    let mut picture = Picture::new();
    let mut decoder = Decoder::new(17)?;
    for (packet, wanted) in PACKETS.into_iter().zip(PICTURES) {
        assert!(decoder.decode(packet)?);
        decoder.picture(&mut picture)?;
        assert_eq!(picture.bytes(), wanted);
        let lent = decoder.lend()?;
        let rows = [lent.y, lent.u, lent.v].map(|plane| plane.rows().collect::<Vec<_>>().concat());
        assert_eq!(rows.concat(), wanted);
    }
    for (number, wanted) in [Reference::Last, Reference::Golden, Reference::Altref]
        .into_iter()
        .zip(PICTURES)
    {
        decoder.reference(number, &mut picture)?;
        assert_eq!(picture.bytes(), wanted);
    }
    Ok(())
}

/// A file of 16 by 16 pixels, by cwebp: its key packet is the 28 bytes from 20 on, by webpinfo. The left half is light,
/// and the right half dark: 186 and 50 by dwebp.
const WEBP: [u8; 48] = [
    0x52, 0x49, 0x46, 0x46, 0x28, 0, 0, 0, 0x57, 0x45, 0x42, 0x50, 0x56, 0x50, 0x38, 0x20, 0x1c, 0,
    0, 0, 0x50, 1, 0, 0x9d, 1, 0x2a, 0x10, 0, 0x10, 0, 7, 0x40, 0x96, 0x25, 0xa4, 0, 4, 0x74, 0, 0,
    0xfe, 0x83, 0xff, 0xfd, 0x7c, 0, 0, 0,
];

#[test]
fn webp_files_are_read_and_made() -> Result<(), Status> {
    assert_eq!(webp_packet(&WEBP), Ok(&WEBP[20..]));
    assert_eq!(webp_file(&WEBP[20..]), Ok(WEBP.to_vec()));
    let picture = webp_picture(&WEBP)?;
    assert_eq!((picture.width(), picture.height()), (16, 16));
    assert_eq!(picture.y(), [[186; 8], [50; 8]].concat().repeat(16));
    assert_eq!((picture.u(), picture.v()), (&[128; 64][..], &[128; 64][..]));
    assert_eq!(webp_packet(&WEBP[..47]), Err(Status::TORN));
    assert_eq!(webp_packet(&WEBP[1..]), Err(Status::SIGNATURE));
    assert_eq!(webp_file(&WEBP[20..22]), Err(Status::NOT_KEY));
    let hidden = [&[0x40], &WEBP[21..]].concat();
    assert_eq!(webp_file(&hidden), Err(Status::NOT_SHOWN));
    Ok(())
}
