//! Figures worked through by hand (docs/VALUE-CLIPS.md), each through the library.
#![allow(clippy::float_cmp, reason = "what is said to the last bit is compared to the last bit")]

use tavitrozy::{
    Answer, Change, ClipTime, Explicit, Fallback, Refusal, Resolver, SampleLists, StageTime, Template, TemplateTimes,
};

fn accepted(set: &Explicit) -> Resolver {
    let mut resolver = Resolver::new();
    resolver.accept(set).expect("a set that is accepted");
    resolver
}

fn refused(set: &Explicit) -> Refusal {
    Resolver::new().accept(set).expect_err("a set that is refused")
}

fn lists<const N: usize>(clips: [&[(f64, f64)]; N]) -> SampleLists {
    let mut lists = SampleLists::new();
    for clip in clips {
        lists.push_clip(clip.iter().map(|&(time, value)| (time, Some(value))));
    }
    lists
}

fn change(time: f64, value: f64) -> Change {
    Change { time: StageTime(time), answer: Answer::Value(value) }
}

#[test]
fn the_last_start_at_or_before_is_active() {
    let resolver = accepted(&Explicit::new(2).starts(&[0.0, 10.0], &[0.0, 1.0]));
    for (time, clip) in [(-5.0, 0), (9.5, 0), (10.0, 1)] {
        assert_eq!(resolver.active_clip(StageTime(time)), Ok(Some(clip)), "at {time}");
    }
}

#[test]
fn without_starts_no_clip_is_active_and_the_value_is_absent() {
    let resolver = accepted(&Explicit::new(1));
    let clips = lists([&[(0.0, 1.0)]]);
    assert_eq!(resolver.active_clip(StageTime(0.0)), Ok(None));
    assert_eq!(resolver.value(&clips.lent(), StageTime(0.0)), Ok(Answer::Absent));
    let track = resolver.bake(&clips.lent()).unwrap();
    assert_eq!((track.head(), track.len()), (Answer::Absent, 0));
}

#[test]
fn zeros_of_both_signs_are_equal_starts() {
    assert_eq!(refused(&Explicit::new(1).starts(&[0.0, -0.0], &[0.0, 0.0])), Refusal::EqualStarts);
}

#[test]
fn a_clip_number_is_whole() {
    assert_eq!(refused(&Explicit::new(2).starts(&[0.0], &[1.5])), Refusal::NoClipNumber);
}

#[test]
fn two_knots_may_share_a_stage_time_and_three_may_not() {
    assert_eq!(refused(&Explicit::new(0).knots(&[5.0, 5.0, 5.0], &[0.0, 1.0, 2.0])), Refusal::ThreeEqualKnots);
    accepted(&Explicit::new(0).knots(&[5.0, 5.0], &[0.0, 1.0]));
}

#[test]
fn knots_lead_from_stage_time_to_clip_time() {
    let resolver = accepted(&Explicit::new(0).knots(&[0.0, 10.0, 10.0, 20.0], &[0.0, 10.0, 0.0, 10.0]));
    for (stage, clip) in [(-1.0, 0.0), (5.0, 5.0), (10.0, 0.0), (15.0, 5.0), (25.0, 10.0)] {
        assert_eq!(resolver.clip_time(StageTime(stage)), Ok(ClipTime(clip)), "at {stage}");
    }
}

#[test]
fn a_template_names_its_clips() {
    let times = TemplateTimes::new(1.0, 3.0, 1.0);
    let pattern = b"f.###.usd";
    Resolver::new().accept_template(&Template::new(pattern, times)).unwrap();
    let names: Vec<Vec<u8>> = tavitrozy::template_clip_times(times)
        .unwrap()
        .into_iter()
        .map(|time| tavitrozy::name(pattern, time).unwrap())
        .collect();
    assert_eq!(names, [b"f.001.usd", b"f.002.usd", b"f.003.usd"]);
}

#[test]
fn a_template_of_one_clip_with_offset_zero_has_three_equal_knots() {
    let times = TemplateTimes::new(1.0, 1.0, 1.0);
    let mut resolver = Resolver::new();
    let with_offset = Template::new(b"f.###.usd", times.offset(0.0));
    assert_eq!(resolver.accept_template(&with_offset), Err(Refusal::ThreeEqualKnots));
    assert_eq!(resolver.accept_template(&Template::new(b"f.###.usd", times)), Ok(()));
}

#[test]
fn names_round_to_even_and_keep_the_minus() {
    let name = |pattern: &[u8], time| tavitrozy::name(pattern, ClipTime(time)).unwrap();
    assert_eq!(name(b"f.###.usd", -5.0), b"f.-05.usd");
    assert_eq!(name(b"f.##.##.usd", -0.5), b"f.-00.50.usd");
    assert_eq!(name(b"f.##.##.usd", 0.125), b"f.00.12.usd");
    assert_eq!(name(b"f.##.##.usd", 0.375), b"f.00.38.usd");
}

#[test]
fn a_value_is_held_from_the_lower_neighbour() {
    let resolver = accepted(&Explicit::new(2).starts(&[0.0, 20.0], &[0.0, 1.0]).knots(&[0.0, 20.0], &[10.0, 0.0]));
    let clips = lists([&[(0.0, 1.0), (10.0, 2.0)], &[(0.0, 3.0)]]);
    assert_eq!(resolver.value(&clips.lent(), StageTime(5.0)), Ok(Answer::Value(2.0)));
    let track = resolver.bake(&clips.lent()).unwrap();
    assert_eq!(track.head(), Answer::Value(2.0));
    assert_eq!(track.changes().collect::<Vec<_>>(), [change(20.0, 3.0)]);
}

#[test]
fn a_clip_without_samples_is_filled_by_the_nearest_that_contributes() {
    let set = Explicit::new(3).starts(&[0.0, 10.0, 20.0], &[0.0, 1.0, 2.0]);
    let clips = lists([&[(0.0, 1.0)], &[], &[(20.0, 3.0)]]);
    let at_15 = |set: &Explicit| accepted(set).value(&clips.lent(), StageTime(15.0)).unwrap();
    assert_eq!(at_15(&set), Answer::Blocked);
    assert_eq!(at_15(&set.interpolate(true)), Answer::Value(1.0));
    assert_eq!(at_15(&set.fallback(Fallback::Value(7.0))), Answer::Value(7.0));
    let track = accepted(&set.interpolate(true).blocks(&[0.0])).bake(&clips.lent()).unwrap();
    assert_eq!((track.head(), track.is_empty()), (Answer::Value(3.0), true));
}

#[test]
fn one_start_is_read_directly_and_changes_after_the_knots() {
    let resolver = accepted(&Explicit::new(1).starts(&[0.0], &[0.0]).knots(&[0.0, 10.0], &[10.0, 0.0]));
    let clips = lists([&[(0.0, 1.0), (5.0, 2.0), (10.0, 3.0)]]);
    let track = resolver.bake(&clips.lent()).unwrap();
    assert_eq!(track.head(), Answer::Value(3.0));
    assert_eq!(track.values(), [2.0, 1.0]);
    // Soon after 0: the first doubles above it round back to clip time 10. Then the very double after 5.
    assert!(track.times()[0] > 0.0 && track.times()[0] < 1e-14, "{:e}", track.times()[0]);
    assert_eq!(track.times()[1], 5.0f64.next_up());
    for (time, value) in [(-1.0, 3.0), (0.0, 3.0), (5.0, 2.0), (10.0, 1.0)] {
        assert_eq!(track.read(StageTime(time)), Answer::Value(value), "at {time}");
        assert_eq!(resolver.value(&clips.lent(), StageTime(time)), Ok(Answer::Value(value)), "at {time}");
    }
}
