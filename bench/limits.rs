//! The sets A to G, at the limits: 256 clips and starts, 512 knots, 256 blocks, 4,096 samples.

use crate::calls::{self, Call, Explicit, Filling, Samples};
use crate::sets::Case;
use crate::text::Line;

/// Above every sample's clip time.
const TOP: f64 = 4100.3;

/// What an x or a start is a multiple of.
const STEP: f64 = 7.7;

fn list(count: usize, entry: impl FnMut(usize) -> f64) -> Vec<f64> {
    (0..count).map(entry).collect()
}

/// 512 knots up and down between clip times 0 and `TOP`.
fn zigzag() -> (Vec<f64>, Vec<f64>) {
    (list(512, |i| 0.3 + STEP * i as f64), up_and_down())
}

/// 512 knots that rise from 0 to `TOP` and jump back: two at each x but the first and the last.
fn sawtooth() -> (Vec<f64>, Vec<f64>) {
    (list(512, |i| STEP * i.div_ceil(2) as f64), up_and_down())
}

fn up_and_down() -> Vec<f64> {
    list(512, |i| if i % 2 == 0 { 0.0 } else { TOP })
}

/// 256 starts, two knots apart.
fn many_starts() -> Vec<f64> {
    list(256, |i| 2.0 * STEP * i as f64)
}

/// 4,096 samples in one clip.
fn one_clip() -> Samples {
    Samples {
        ends: vec![4096],
        times: list(4096, |i| 0.37 + (1.0 + 1.0 / 1024.0) * i as f64),
        values: list(4096, |i| i as f64),
        marks: vec![0; 4096],
    }
}

/// 256 clips of 16 samples, each a little later than those of the clip before.
fn many_clips() -> Samples {
    Samples {
        ends: (1..=256).map(|clip| 16 * clip).collect(),
        times: list(4096, |i| 0.37 + 256.25 * (i % 16) as f64 + 0.001 * (i / 16) as f64),
        values: list(4096, |i| (i % 16) as f64),
        marks: vec![0; 4096],
    }
}

/// A set of one clip for all starts.
fn of_one_clip(starts: Vec<f64>, knots: (Vec<f64>, Vec<f64>)) -> (Explicit, Samples) {
    let start_clips = vec![0.0; starts.len()];
    let (knot_x, knot_y) = knots;
    (Explicit { clips: 1, start_times: starts, start_clips, knot_x, knot_y, filling: filling(&[]) }, one_clip())
}

/// A set of 256 clips, one for each start.
fn of_many_clips(knots: (Vec<f64>, Vec<f64>), blocks: &[f64]) -> (Explicit, Samples) {
    let (knot_x, knot_y) = knots;
    let start_clips = list(256, |i| i as f64);
    let filling = filling(blocks);
    (Explicit { clips: 256, start_times: many_starts(), start_clips, knot_x, knot_y, filling }, many_clips())
}

/// No default; the flag is on where there are blocks.
fn filling(blocks: &[f64]) -> Filling {
    Filling { blocks: blocks.to_vec(), mark: 2, value: 0.0, flag: !blocks.is_empty() }
}

pub fn cases() -> Vec<Case> {
    let far = || vec![0.0, 1e9];
    let sets = [
        ("A", of_one_clip(vec![0.0], zigzag())),
        ("B", of_one_clip(far(), zigzag())),
        ("C", of_one_clip(many_starts(), zigzag())),
        ("D", of_many_clips(zigzag(), &[])),
        ("E", of_many_clips((Vec::new(), Vec::new()), &[])),
        ("F", of_one_clip(far(), sawtooth())),
        ("G", of_many_clips(zigzag(), &many_starts())),
    ];
    let case = |((name, (set, samples)), times): ((&str, _), [u64; 20])| Case {
        name: name.to_owned(),
        set,
        samples,
        times: times.map(f64::from_bits).to_vec(),
    };
    sets.into_iter().zip(ASKED).map(case).collect()
}

/// The sets as case text, their tracks and values asked for.
pub fn text() -> Vec<u8> {
    let mut line = Line::default();
    for case in cases() {
        let head = [Call::Case(format!("limits-{}", case.name)), Call::Explicit(case.set), Call::Samples(case.samples)];
        let asked = case.times.into_iter().map(Call::Value);
        head.into_iter().chain([Call::TrackHash]).chain(asked).for_each(|call| calls::write(&mut line, &call));
    }
    line.0
}

/// The bits of the stage times asked about: 20 for each set, from all over its knots.
#[rustfmt::skip]
const ASKED: [[u64; 20]; 7] = [
    // A
    [
        0x40a6c23159320995, 0x406ec8035f5ff076, 0x40a8ceea070284d5, 0x409a29f252ed2005, 0x4092a64615b288bd,
        0x4056a89024df0576, 0x40a6fc896fd530f3, 0x40919b40baab07b2, 0x40804f88e7310b0b, 0x408c55b0edcdc3f0,
        0x40a2c30d8e828e48, 0x40788ca362121182, 0x40a85aa94ffb49ed, 0x40ad1bae18f79eb0, 0x4086d4a42fd67407,
        0x40a9b7c829d277bb, 0x409d040e1de0b982, 0x40ab2af9408a50f6, 0x409bf982447ac721, 0x40757481a4b6bfdf,
    ],
    // B
    [
        0x409dc8f9983aef86, 0x40825f70a23ac5a8, 0x40866892502db13d, 0x4095ba8488db88f4, 0x409bfaa26d3cd080,
        0x40a1928ceaad6242, 0x40a266bbf15b33bb, 0x40a7884706baa5bc, 0x407dd0a078cd148c, 0x40a5c4b1590141f2,
        0x40ae6166af65590c, 0x40aa753b029b3af1, 0x407be982dc6f5d3b, 0x40a315765a85ec40, 0x40979a48ad8c92ea,
        0x408a4b172755bc1f, 0x40a49dd68a784e62, 0x407c28a89905bcac, 0x40ab861f4addf52f, 0x4090f6116b9a8309,
    ],
    // C
    [
        0x40acc1322947b253, 0x40a796f2f19b8ebd, 0x40a1154826a200d3, 0x40ae4195a236db26, 0x40969c63e0c0c135,
        0x405b7fb0ba0c89f2, 0x40a6ea9e6854b65c, 0x409f93d5ea6c8bad, 0x40a836aef470debd, 0x409ce3d0ce24a5d8,
        0x409cf61ec5460a86, 0x40788804c15a5d71, 0x4092f3bd6ae1a3e2, 0x409a2e5c02ed8285, 0x408ae9c250da2507,
        0x409b302609511dc0, 0x408b96890d189ab6, 0x40a9926e49973402, 0x40ae6a19f4396119, 0x40806135af217e59,
    ],
    // D
    [
        0x40981ce1f9d2fa14, 0x40926e7ff4cfdac0, 0x409fb59ba7781eac, 0x40a28f036e445fba, 0x409b61f6dd725fcc,
        0x408a3edbf7bce3ab, 0x40a202f8d47e11ba, 0x40876f6d5fdb4342, 0x409153681e0e8ea2, 0x40a0682f11f76b89,
        0x408519f6de2f3ad0, 0x40a89bb8fbe2a1d4, 0x407fd4511e8e4778, 0x40a2e01cd3672209, 0x4080f6bc9c60b8f3,
        0x409057f3abf30cd6, 0x40a8c89f1c604200, 0x4098239038d7bebb, 0x4070a4ac4c29beea, 0x40a2400abe1ca0da,
    ],
    // E
    [
        0x4098f2229ca67ad1, 0x40916db53b315308, 0x40a5e27643dfb956, 0x4099ccb65f33bb10, 0x40a5d8d401f422f5,
        0x40a1d739025b2368, 0x4055cd01e7abded7, 0x409c647ed8171161, 0x4096d3ab173f7776, 0x40a69c3564d70cc7,
        0x409ebab1315b98a0, 0x40a3118e35900708, 0x40a6cd44911f390e, 0x40a8eb1fcf59db7d, 0x407d2f2f2decf4ba,
        0x4094ba37230c2a56, 0x40971a71b72b1ff9, 0x409fa279bacd5028, 0x40a6ea820dd77ca9, 0xbffc1461e4df9e60,
    ],
    // F
    [
        0x40aa590ce389d5d3, 0x40a70222e2b82a94, 0x40ab3ddbd3369eb2, 0x4093f01c928193f9, 0x4073680e655f7789,
        0x409d802626748605, 0x40a3fd3396d25ed2, 0x40aa39aae83221bf, 0x40954fbcec2c4801, 0x40a3dccdd79bff9d,
        0x40a18f02f15d76e7, 0x40ac5b51382a269c, 0x40a2a4caa2042c1c, 0x40a89fb30472e814, 0x40abbf405017e0ba,
        0x4071ffc051a18cc0, 0x4096717109209916, 0x40a84d982174bc70, 0x40a39bc4c91b0b09, 0x408f0c468b69dc04,
    ],
    // G
    [
        0x40aaaffda8491eff, 0x4092f66184c6b678, 0x40938cf2294ec907, 0x40a14891900e6b5c, 0x40a62b58a14f963e,
        0x40a71599010fcb86, 0x40a3143ecb88d551, 0x4084f7c54ff34387, 0x406bbc048078709b, 0x4098dd75d22bbf0f,
        0x40a031935074bca4, 0x40aabed8600c395c, 0x4090b14213d976db, 0x40ae36a6577424d4, 0x40639ed75ad16128,
        0x40a1b0e0ddb7e0f6, 0x40896c930ba0793f, 0x40a7daa831d9ce95, 0x408681d4a9232e52, 0x40a70f8c9a6bf410,
    ],
];
