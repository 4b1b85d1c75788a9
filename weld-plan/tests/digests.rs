//! The same list, flags and seed give the same bytes on every machine: these digests were stored once, and hold everywhere.
mod common;
use std::fs;
use weld_plan::sha256::hex;

/// The flags of each day behind its grid and list, and the digests of its plan.txt, plan.svg, day.svg and day.json.
#[rustfmt::skip]
const DAYS: [(&str, [&str; 4]); 4] = [
    ("--sweeps 150", [
        "00392994d534a632b253d244892b47e02005fc791f89fc6aabfe1b1310cf3867",
        "4d6b2a841e7ca24013c76a2d8ca0c034dea61a3da572bb1be27b1b55cb70a565",
        "6d033133686cab1fd9a54ba38c9cd2ca9e39b9ccb8104789675269fcae4c4978",
        "5bfb86b4fd4b4b863167208f2831e46612380e38aeabf10586eceba9d01bbf74",
    ]),
    ("--sweeps 40 --modes jorg,cmr,gperm:sw:4,perm:sw:3,houd --seed 5,6,7,8 --temperatures 2.5,4,7.25,11,18", [
        "8746a467c24490483774d408d4d03831262079bcd89718ee6de29a83a3aeac64",
        "d09f0208ae3d370231e5948227f318978155440581265ef133f42b1994f23e5c",
        "5743bace1037b26a0ab68cada1a9b280694c03eb32b1be6219bb419d8f619046",
        "2de37398e95787959df138066f2f1372026c750de904928541e679796197e5cf",
    ]),
    ("--sweeps 40 --modes cmr:grow,jorg:grow,pair:wolff,gperm:grow,perm:wolff:3 --pins pins.txt --replicas 7 --temperatures 3:30:9", [
        "a869e79574951b2853cd4ee8547a517e0fe1ff8ed4746ad242cfe33d114eb60c",
        "8e0b702c1fcea054aef4e0f269d832f6eede6caaca67552676975842613f4d54",
        "a642b74818c2277d0bdfcc6484182b51e81b86b2c7ff936ac57cf546d700da7b",
        "fe9719d59d992d93ed430207cd30cad8f13b84b3d10804b8e37d18619be511c2",
    ]),
    ("--sweeps 60 --modes none --replicas 1 --temperatures 64 --seed 0x10,0,0,0", [
        "d75b516831a64f92a207edc1a3be9347778d8a32b9466dbaa55b7ace182b9535",
        "70835307d3b436969093a13f43d94783c7bd4a8c110a6ab111395e38c25a3bf7",
        "f9a3f57460ce86da6e5e4286b972fed02c8288d554e2f1b3682d027e1de06882",
        "3449bfb39d7dbbc09239e0078a546555c5b6f1c12d2d29601bbafdbf72bbb764",
    ]),
];

#[test]
fn two_machines_bytes() {
    let folder = common::folder("digests");
    fs::write(folder.join("panel.txt"), common::list("16x16", [1, 2, 3, 4], 40)).unwrap();
    fs::write(folder.join("pins.txt"), "# welded on Monday\n1 A\n\n100 B # by hand\n256 A\n").unwrap();
    let mut found = Vec::new();
    for (k, (flags, _)) in DAYS.iter().enumerate() {
        common::good(&folder, &format!("--grid 16x16 --list panel.txt --quiet {flags} --out {k}"));
        found.push(common::files(&folder.join(k.to_string())).map(|text| hex(text.as_bytes())));
    }
    for ((flags, stored), found) in DAYS.iter().zip(&found) {
        assert_eq!(found.each_ref().map(String::as_str), *stored, "{flags}");
    }
}
