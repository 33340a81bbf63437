//! The 54 bytes, from fields and back.

use sdd::{About, Entry, NameTooLong, Real4, Real8};

/// A field of its own number at every place of the paper's table, less 8.
fn numbered() -> About {
    About {
        horizontal: Real4::from_bits(0x0001_0203),
        vertical: Real4::from_bits(0x0405_0607),
        source: std::array::from_fn(|i| i as u8 + 8),
        scan: Real4::from_bits(0x1819_1a1b),
        field4: Real4::from_bits(0x1c1d_1e1f),
        field8: Real8::from_bits(0x2021_2223_2425_2627),
        lst: Real4::from_bits(0x2829_2a2b),
        date: Real4::from_bits(0x2c2d_2e2f),
        mode: 0x3031,
        number: 0x3233,
        position: 0x3435,
    }
}

#[test]
fn every_field_has_its_place() {
    let bytes: [u8; 54] = std::array::from_fn(|i| i as u8);
    assert_eq!(numbered().bytes(), bytes);
    assert_eq!(About::of(&bytes), numbered());
    assert_eq!(About::default().bytes(), [0; 54]);
}

#[test]
fn what_is_saved_comes_back_from_the_entry() {
    let mut file = vec![0; 4_096];
    sdd::blank(&mut file, 3, 512, 64).unwrap();
    let scan = sample::scan(512, 1);
    for mode in [513, 300, 7] {
        let about = About { mode, ..numbered() };
        let mut job = sdd::save(&file, 1, &scan, &about).unwrap();
        while let sdd::Step::Wrote { .. } = sdd::step(&mut file, &scan, &mut job).unwrap() {}
        let entry: Entry = sdd::entry(&file, 1).unwrap();
        assert_eq!(entry.about(), about);
        assert_eq!(file[512 + 8..][..54], about.bytes());
    }
}

#[test]
fn a_name_gets_blanks_or_is_refused() {
    let named = About::continuum(0.5, 10.0).named("BOOM 7").unwrap();
    assert_eq!(&named.source, b"BOOM 7          ");
    assert_eq!((named.mode, named.field4.value(), named.field8.value()), (256, 0.5, 10.0));
    assert_eq!(About::default().named([0xff; 16]).unwrap().source, [0xff; 16]);
    assert_eq!(About::default().named("seventeen letters"), Err(NameTooLong { bytes: 17 }));
    assert_eq!(About::spectral_line(0.1, 1420.4).mode, 512);
}
