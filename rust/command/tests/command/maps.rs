//! Pixel maps that are shown and pixel maps that are refused.

use crate::run::*;
use shabgozim::PixelMap;

#[test]
fn a_map_is_shown() {
    let map = map();
    let folder = Folder::new().with("my.map", map.bytes());
    let picture = map.picture();
    let named = folder.run(&["pixel-map", "my.map"], b"");
    expect_bytes(named, 0, &picture, "");
    for arguments in [&["pixel-map", "-"][..], &["pixel-map"]] {
        let ran = folder.run(arguments, map.bytes());
        expect_bytes(ran, 0, &picture, "");
    }
    let title = b"P4\n# lighted 59130 of 118260 pixels, readout 661230 us\n438 270\n";
    assert!(picture.starts_with(title));
}

#[test]
fn a_refused_map_prints_nothing() {
    let mut spare_bit = map().bytes().to_vec();
    spare_bit[PixelMap::BYTES - 1] |= 8;
    let longer = [map().bytes(), &[0]].concat();
    for map in [&[][..], &longer[1..14_783], &longer, &spare_bit] {
        let folder = Folder::new().with("bad.map", map);
        let told = map_refusal("bad.map", map);
        expect(folder.run(&["pixel-map", "bad.map"], b""), 1, "", &told);
        let told = map_refusal("standard input", map);
        expect(folder.run(&["pixel-map"], map), 1, "", &told);
    }
    assert_eq!(
        map_refusal("bad.map", &spare_bit),
        "shabgozim: bad.map: refused 42: a spare bit after the last pixel is set\n"
    );
}

#[test]
fn a_refused_map_leaves_no_picture() {
    let folder = Folder::new().with("bad.map", b"");
    let kept = folder.shell("\"$0\" pixel-map bad.map > my.pbm && cat my.pbm");
    expect(kept, 1, "", &map_refusal("bad.map", b""));
}
