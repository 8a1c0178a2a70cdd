//! Look first, then install: a client's set is shown in a preview before it takes the place of the one on the desk. The
//! same as preview.c, through the Rust crate.

use tavitrozy::{Answer, Explicit, Refusal, Resolver, SampleLists, Samples, StageTime};

/// A set of two clips, each with its start.
fn set(starts: &[f64; 2]) -> Explicit<'_> {
    Explicit::new(2).starts(starts, &[0.0, 1.0])
}

fn print_drawn(answer: Answer) {
    match answer {
        Answer::Value(value) => println!("drawn at {value}"),
        Answer::Blocked | Answer::Absent => println!("not drawn"),
    }
}

/// The whole track: what holds first, and each change.
fn print_track(desk: &Resolver, samples: &Samples) -> Result<(), Refusal> {
    let track = desk.bake(samples)?;
    print!("  at first: ");
    print_drawn(track.head());
    for change in track.changes() {
        print!("  from {} on: ", change.time.0);
        print_drawn(change.answer);
    }
    Ok(())
}

fn main() -> Result<(), Refusal> {
    assert!(
        tavitrozy::environment_is_exact(),
        "doubles are not computed as the library needs"
    );
    // The first clip is drawn at 1; the second at 2, and from its clip time 24 on it is not drawn.
    let mut lists = SampleLists::new();
    lists.push_clip([(0.0, Some(1.0))]);
    lists.push_clip([(0.0, Some(2.0)), (24.0, None)]);
    let samples = lists.lent();

    let mut desk = Resolver::new();
    desk.accept(&set(&[0.0, 12.0]))?;
    println!("the desk:");
    print_track(&desk, &samples)?;

    if let Err(refusal) = tavitrozy::examine(&set(&[6.0, 6.0])) {
        let number = refusal.number();
        println!("the client's first set is refused with {number}");
    }
    let prepared = tavitrozy::examine(&set(&[0.0, 6.0]))?;
    let mut preview = Resolver::new();
    preview.install(&prepared);
    println!("the client's second set, in the preview:");
    for frame in 4..=8 {
        print!("  frame {frame}: ");
        print_drawn(preview.value(&samples, StageTime(f64::from(frame)))?);
    }
    println!("the desk, as it was:");
    print_track(&desk, &samples)?;

    desk.install(&prepared);
    println!("the desk, with the client's second set:");
    print_track(&desk, &samples)
}
