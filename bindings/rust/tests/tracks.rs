//! Tracks: equality as alike, zeros, tracks of any length without a guess of slots, and what `Track::new` takes.
#![allow(clippy::float_cmp, reason = "what is said to the last bit is compared to the last bit")]

use tavitrozy::{Answer, Change, Explicit, Fallback, Refusal, Resolver, SampleLists, StageTime, Track};

fn bake(samples: impl IntoIterator<Item = (f64, Option<f64>)>) -> Track {
    let mut resolver = Resolver::new();
    resolver.accept(&Explicit::new(1).starts(&[0.0], &[0.0])).unwrap();
    let mut lists = SampleLists::new();
    lists.push_clip(samples);
    resolver.bake(&lists.lent()).unwrap()
}

fn change(time: f64, answer: Answer) -> Change {
    Change { time: StageTime(time), answer }
}

/// Starts 0 of clip 0 and 10 of clip 1.
fn two_clips(samples: [&[(f64, Option<f64>)]; 2], fallback: Fallback) -> (Resolver, SampleLists) {
    let mut resolver = Resolver::new();
    resolver.accept(&Explicit::new(2).starts(&[0.0, 10.0], &[0.0, 1.0]).fallback(fallback)).unwrap();
    let mut lists = SampleLists::new();
    for clip in samples {
        lists.push_clip(clip.iter().copied());
    }
    (resolver, lists)
}

/// A value's bits; `None` for a block.
fn bits(answer: Answer) -> Option<u64> {
    answer.value().map(f64::to_bits)
}

const ZERO: Option<u64> = Some(0);
const MINUS_ZERO: Option<u64> = Some(1 << 63);

#[test]
fn equal_means_alike() {
    let track = bake([(0.0, Some(1.0)), (1.0, Some(0.0)), (2.0, None)]);
    assert_eq!(track, bake([(0.0, Some(1.0)), (1.0, Some(0.0)), (2.0, None)]));
    assert_eq!(track, track.clone());
    assert_eq!(track, bake([(0.0, Some(1.0)), (1.0, Some(-0.0)), (2.0, None)]));
    let others: [&[(f64, Option<f64>)]; 6] = [
        &[(0.0, Some(1.0)), (1.0, Some(-5e-324)), (2.0, None)],
        &[(0.0, Some(1.0)), (1.5, Some(0.0)), (2.0, None)],
        &[(0.0, Some(1.0)), (1.0, None), (2.0, Some(0.0))],
        &[(0.0, Some(2.0)), (1.0, Some(0.0)), (2.0, None)],
        &[(0.0, None), (1.0, Some(0.0)), (2.0, None)],
        &[(0.0, Some(1.0)), (1.0, Some(0.0))],
    ];
    for other in others {
        assert_ne!(track, bake(other.iter().copied()), "{other:?}");
    }
    assert_eq!(Answer::Value(0.0), Answer::Value(-0.0));
    assert_eq!(Answer::Value(f64::INFINITY), Answer::Value(f64::INFINITY));
    assert_ne!(Answer::Value(f64::INFINITY), Answer::Value(f64::NEG_INFINITY));
    assert_ne!(Answer::Value(1.0), Answer::Value(-1.0));
    assert_ne!(Answer::Value(0.0), Answer::Blocked);
    assert_ne!(Answer::Blocked, Answer::Absent);
    let nan = Answer::Value(f64::NAN);
    assert!(nan == nan && nan != Answer::Value(0.0), "equality is reflexive");
}

#[test]
fn a_track_writes_zero_as_zero_and_a_value_keeps_its_sign() {
    let track = bake([(0.0, Some(-0.0))]);
    assert_eq!((bits(track.head()), track.len()), (ZERO, 0));
    assert_eq!(bits(track.read(StageTime(5.0))), ZERO);

    let (resolver, lists) = two_clips([&[(0.0, Some(-0.0))], &[(0.0, Some(0.0))]], Fallback::None);
    let value = |time| bits(resolver.value(&lists.lent(), StageTime(time)).unwrap());
    assert_eq!((value(5.0), value(15.0)), (MINUS_ZERO, ZERO));
    let track = resolver.bake(&lists.lent()).unwrap();
    assert_eq!((bits(track.head()), track.len()), (ZERO, 0));
    assert_eq!(resolver.change_count(&lists.lent()), Ok(0));
    let (head, count) = resolver.bake_into(&lists.lent(), &mut [], &mut [], &mut []).unwrap();
    assert_eq!((bits(head), count), (ZERO, 0));
}

#[test]
fn a_block_between_zeros_makes_two_changes() {
    let (resolver, lists) = two_clips([&[(0.0, Some(-0.0)), (5.0, None)], &[(0.0, Some(0.0))]], Fallback::None);
    let track = resolver.bake(&lists.lent()).unwrap();
    assert_eq!(bits(track.head()), ZERO);
    assert_eq!((track.times(), track.marks()), (&[5.0, 10.0][..], &[1, 0][..]));
    assert_eq!(track.values().iter().map(|value| value.to_bits()).collect::<Vec<_>>(), [0, 0]);
    let short = resolver.bake_into(&lists.lent(), &mut [0.0], &mut [0.0], &mut [0]);
    assert_eq!(short, Err(Refusal::NoRoom));
}

#[test]
fn a_default_of_minus_zero_keeps_its_sign_where_it_stands() {
    let (resolver, lists) = two_clips([&[(0.0, Some(1.0))], &[]], Fallback::Value(-0.0));
    let standing = resolver.standing().unwrap();
    assert!(matches!(standing.fallback, Fallback::Value(value) if value.to_bits() == 1 << 63));
    assert_eq!(bits(resolver.value(&lists.lent(), StageTime(15.0)).unwrap()), MINUS_ZERO);
    let track = resolver.bake(&lists.lent()).unwrap();
    assert_eq!((track.times(), track.values()[0].to_bits()), (&[10.0][..], 0));
}

#[test]
fn zeros_along_a_falling_segment_are_alike() {
    let mut resolver = Resolver::new();
    resolver.accept(&Explicit::new(1).starts(&[0.0], &[0.0]).knots(&[0.0, 10.0], &[10.0, 0.0])).unwrap();
    let mut lists = SampleLists::new();
    lists.push_clip([(0.0, Some(-0.0)), (5.0, Some(0.0)), (10.0, Some(1.0))]);
    let value = |time| bits(resolver.value(&lists.lent(), StageTime(time)).unwrap());
    assert_eq!((value(5.0), value(5.0f64.next_up())), (ZERO, MINUS_ZERO));
    let track = resolver.bake(&lists.lent()).unwrap();
    assert_eq!((track.head(), track.len(), track.values()[0].to_bits()), (Answer::Value(1.0), 1, 0));
}

#[test]
fn a_change_at_minus_zero_is_written_as_zero() {
    let track = bake([(-1.0, Some(1.0)), (-0.0, Some(2.0))]);
    assert_eq!(track.times()[0].to_bits(), 0);
    assert_eq!(track, bake([(-1.0, Some(1.0)), (0.0, Some(2.0))]));
}

#[test]
fn a_bake_needs_no_guess_of_slots() {
    for samples in [1, 2, 256, 257, 258, 259, 1000, 4096u16] {
        let track = bake((0..samples).map(|i| (f64::from(i), Some(f64::from(i)))));
        assert_eq!(track.len(), usize::from(samples) - 1);
        assert_eq!((track.values().len(), track.marks().len()), (track.len(), track.len()));
        assert_eq!(track.read(StageTime(f64::MAX)), Answer::Value(f64::from(samples - 1)));
        assert_eq!(track.changes().len(), track.len());
    }
}

#[test]
fn a_bake_has_more_changes_than_samples_where_knots_turn_back() {
    let knots: Vec<f64> = (0..100u8).map(f64::from).collect();
    let ys: Vec<f64> = (0..100u8).map(|i| f64::from(i % 2) * 50.0).collect();
    let mut resolver = Resolver::new();
    resolver.accept(&Explicit::new(1).starts(&[0.0], &[0.0]).knots(&knots, &ys)).unwrap();
    let mut lists = SampleLists::new();
    lists.push_clip((0..50u8).map(|i| (f64::from(i) + 0.5, Some(f64::from(i)))));
    let samples = lists.lent();
    let track = resolver.bake(&samples).unwrap();
    assert_eq!(Ok(track.len()), resolver.change_count(&samples));
    assert!(track.len() > 4000, "{}", track.len());
    for (time, before) in track.changes().map(|change| (change.time, change.time.0.next_down())) {
        assert_eq!(Ok(track.read(time)), resolver.value(&samples, time));
        assert_eq!(Ok(track.read(StageTime(before))), resolver.value(&samples, StageTime(before)));
    }
}

#[test]
fn a_kept_track_is_made_again() {
    let track = bake([(0.0, Some(1.0)), (1.0, Some(-0.0)), (2.0, None)]);
    let again = Track::new(track.head(), track.changes()).unwrap();
    assert_eq!(again, track);
    for time in [-5.0, 0.5, 1.0, 1.5, 2.0, 9.0].map(StageTime) {
        assert_eq!(again.read(time), track.read(time));
    }
    assert_eq!(bits(again.read(StageTime(1.0))), ZERO);
    let made =
        Track::new(Answer::Value(-0.0), [change(-0.0, Answer::Blocked), change(1.0, Answer::Value(-0.0))]).unwrap();
    assert_eq!((bits(made.head()), made.times()[0].to_bits(), made.values()[1].to_bits()), (ZERO, 0, 0));
}

#[test]
fn no_track_is_made_of_what_no_bake_writes() {
    let (one, two) = (Answer::Value(1.0), Answer::Value(2.0));
    let refused: [(Answer, &[Change]); 10] = [
        (one, &[change(1.0, two), change(1.0, one)]),
        (one, &[change(1.0, two), change(0.0, one)]),
        (one, &[change(f64::NAN, two)]),
        (one, &[change(f64::INFINITY, two)]),
        (one, &[change(f64::MIN, two)]),
        (one, &[change(1.0, one)]),
        (Answer::Value(0.0), &[change(1.0, Answer::Value(-0.0))]),
        (one, &[change(1.0, Answer::Value(-0.0)), change(2.0, Answer::Value(0.0))]),
        (one, &[change(1.0, Answer::Absent)]),
        (Answer::Absent, &[change(1.0, one)]),
    ];
    for (head, changes) in refused {
        assert!(Track::new(head, changes.iter().copied()).is_none(), "{head:?} {changes:?}");
    }
    assert!(Track::new(Answer::Value(f64::NAN), []).is_none());
    assert!(Track::new(one, [change(1.0, Answer::Value(f64::NAN))]).is_none());
    assert!(Track::new(Answer::Absent, []).is_some());
}
