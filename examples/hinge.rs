//! Several sets on one part: a hinge carries a coarse set and a fine one, and an order list says which of them answers. The
//! same as hinge.c, through the Rust crate.

use tavitrozy::{
    Answer, Dispatcher, Explicit, Order, Refusal, SampleLists, SetSampleLists, SetSamples,
    StageTime,
};

/// Each set has one clip, which is active from frame 0 on.
const SET: Explicit = Explicit::new(1).starts(&[0.0], &[0.0]);

const BY_NAME: [&str; 2] = ["coarse", "fine"];
const FINE_FIRST: [&str; 2] = ["fine", "coarse"];

/// The samples of one clip: frame and value, none for a block.
type Clip<'a> = &'a [(f64, Option<f64>)];

/// The samples of both sets, in the order of acceptance.
fn samples(coarse: Clip, fine: Clip) -> SetSampleLists {
    let mut lists = SetSampleLists::new();
    for clip in [coarse, fine] {
        let mut set = SampleLists::new();
        set.push_clip(clip.iter().copied());
        lists.push_set(&set);
    }
    lists
}

fn print_drawn(answer: Answer) {
    match answer {
        Answer::Value(value) => println!("{value}"),
        Answer::Blocked | Answer::Absent => println!("not drawn"),
    }
}

/// Which set answers, the value at frame 9, and the whole track: what holds first, and each change.
fn print_answers(
    part: &Dispatcher,
    order: Option<&Order>,
    samples: &SetSamples,
) -> Result<(), Refusal> {
    let names = if order.is_some() { FINE_FIRST } else { BY_NAME };
    let value = part.value(order, samples, StageTime(9.0))?;
    let track = part.bake(order, samples)?;
    match track.set {
        Some(place) => println!("  the {} set answers, at place {place}", names[place]),
        None => println!("  no set answers"),
    }
    print!("  frame 9: ");
    print_drawn(value.reply);
    print!("  at first: ");
    print_drawn(track.reply.head());
    for change in track.reply.changes() {
        print!("  from {} on: ", change.time.0);
        print_drawn(change.answer);
    }
    Ok(())
}

fn main() -> Result<(), Refusal> {
    assert!(
        tavitrozy::environment_is_exact(),
        "doubles are not computed as the library needs"
    );
    let fine_first = Order::of_names(FINE_FIRST);
    let mut angle = Dispatcher::new();
    angle.accept(b"coarse", true, &SET)?;
    angle.accept(b"fine", true, &SET)?;
    let angles = samples(
        &[(0.0, Some(0.0)), (12.0, Some(45.0)), (24.0, Some(90.0))],
        &[
            (0.0, Some(0.0)),
            (6.0, Some(20.0)),
            (12.0, Some(45.0)),
            (18.0, Some(71.0)),
            (24.0, Some(90.0)),
        ],
    );
    println!("the angle, without an order list:");
    print_answers(&angle, None, &angles.lent())?;
    println!("the angle, fine before coarse:");
    print_answers(&angle, Some(&fine_first), &angles.lent())?;

    // The fine set's manifest does not declare the pin's radius; it has no samples of it.
    let mut pin = Dispatcher::new();
    pin.accept(b"coarse", true, &SET)?;
    pin.accept(b"fine", false, &SET)?;
    let radii = samples(&[(0.0, Some(1.5)), (24.0, None)], &[]);
    println!("the pin's radius, fine before coarse:");
    print_answers(&pin, Some(&fine_first), &radii.lent())?;

    if let Err(refusal) = pin.accept(b"fine", true, &SET) {
        let number = refusal.number();
        println!("a second set of the name fine is refused with {number}");
    }
    Ok(())
}
