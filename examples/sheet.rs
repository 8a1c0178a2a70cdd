//! A sheet program: what is drawn at stage times 24, 25, .., read from a baked track alone. The same as sheet.c, through
//! the Rust crate.

use tavitrozy::{
    Answer, ClipTime, Explicit, Refusal, Resolver, SampleLists, StageTime, StandingSet,
};

/// Starts 20 and 28, knots (20,10) (28,0) (36,8).
const SET: Explicit = Explicit::new(2)
    .starts(&[20.0, 28.0], &[0.0, 1.0])
    .knots(&[20.0, 28.0, 36.0], &[10.0, 0.0, 8.0]);

/// Each clip's samples: clip time and value, none for a block.
const CLIPS: [&[(f64, Option<f64>)]; 2] = [
    &[(0.0, Some(1.0)), (10.0, Some(2.0))],
    &[(0.0, Some(3.0)), (2.0, None)],
];

fn print_set(set: &StandingSet) {
    print!("set: {} clips, starts", set.clips);
    for (StageTime(time), clip) in set.starts() {
        print!(" {time} (clip {clip})");
    }
    print!(", knots");
    for (StageTime(x), ClipTime(y)) in set.knots() {
        print!(" {x}->{y}");
    }
    println!();
}

fn print_clip(number: usize, samples: &[(f64, Option<f64>)]) {
    print!("clip {number}:");
    for (time, value) in samples {
        match value {
            Some(value) => print!(" {time}->{value}"),
            None => print!(" {time}->block"),
        }
    }
    println!();
}

fn main() -> Result<(), Refusal> {
    assert!(
        tavitrozy::environment_is_exact(),
        "doubles are not computed as the library needs"
    );
    let mut resolver = Resolver::new();
    resolver.accept(&SET)?;
    if let Some(set) = resolver.standing() {
        print_set(&set);
    }
    let mut lists = SampleLists::new();
    for (number, samples) in CLIPS.into_iter().enumerate() {
        print_clip(number, samples);
        lists.push_clip(samples.iter().copied());
    }

    // From here on the track is all that a sheet program has.
    let track = resolver.bake(&lists.lent())?;
    println!("{} changes", track.len());
    for frame in 24..=32 {
        match track.read(StageTime(f64::from(frame))) {
            Answer::Value(value) => println!("{frame}: drawn at {value}"),
            Answer::Blocked | Answer::Absent => println!("{frame}: not drawn"),
        }
    }
    Ok(())
}
