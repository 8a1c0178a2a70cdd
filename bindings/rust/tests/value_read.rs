//! The sample that a value was read from.

use tavitrozy::{Answer, Explicit, Fallback, Refusal, Resolver, SampleLists, SampleRead, Samples, StageTime};

type Clip<'a> = &'a [(f64, Option<f64>)];

fn accepted(set: &Explicit) -> Resolver {
    let mut resolver = Resolver::new();
    resolver.accept(set).expect("a set that is accepted");
    resolver
}

fn lists<const N: usize>(clips: [Clip; N]) -> SampleLists {
    let mut lists = SampleLists::new();
    for clip in clips {
        lists.push_clip(clip.iter().copied());
    }
    lists
}

/// What is read at a stage time, as value, clip and place.
fn read(set: &Explicit, clips: &SampleLists, time: f64) -> (Answer, Option<(u64, u64)>) {
    let read = accepted(set).value_read(&clips.lent(), StageTime(time)).unwrap();
    (read.value, read.sample.map(|SampleRead { clip, place }| (clip, place)))
}

#[test]
fn a_place_counts_from_the_clips_first_sample() {
    let set = Explicit::new(2).starts(&[0.0, 10.0], &[0.0, 1.0]);
    let clips = lists([&[(0.0, Some(1.0)), (5.0, Some(2.0))], &[(10.0, Some(3.0)), (15.0, Some(3.0))]]);
    assert_eq!(clips.lent().ends, [2, 4]);
    for (time, value, place) in [(-1.0, 1.0, (0, 0)), (5.0, 2.0, (0, 1)), (10.0, 3.0, (1, 0)), (15.0, 3.0, (1, 1))] {
        assert_eq!(read(&set, &clips, time), (Answer::Value(value), Some(place)), "at {time}");
    }
}

#[test]
fn the_clip_is_its_number_and_no_starts_place() {
    let set = Explicit::new(4).starts(&[0.0, 10.0], &[3.0, 3.0]);
    let clips = lists([&[], &[(0.0, Some(8.0))], &[], &[(0.0, Some(1.0))]]);
    for time in [0.0, 10.0] {
        assert_eq!(read(&set, &clips, time), (Answer::Value(1.0), Some((3, 0))), "at {time}");
    }
}

#[test]
fn a_missing_value_has_the_clip_of_the_start_it_was_found_at() {
    let one = Explicit::new(1).starts(&[0.0, 10.0], &[0.0, 0.0]).blocks(&[10.0]).interpolate(true);
    let clips = lists([&[(0.0, Some(1.0)), (12.0, Some(2.0))]]);
    assert_eq!(read(&one, &clips, 13.0), (Answer::Value(1.0), Some((0, 0))));
    let three = Explicit::new(3).starts(&[0.0, 10.0, 20.0], &[0.0, 1.0, 2.0]).interpolate(true);
    let clips = lists([&[(0.0, Some(1.0))], &[], &[(20.0, Some(3.0))]]);
    assert_eq!(read(&three, &clips, 15.0), (Answer::Value(1.0), Some((0, 0))));
    assert_eq!(read(&three.blocks(&[0.0]), &clips, 15.0), (Answer::Value(3.0), Some((2, 0))));
}

#[test]
fn a_held_value_has_what_was_read_at_the_lower_neighbour() {
    let set = Explicit::new(1).starts(&[0.0, 1000.0], &[0.0, 0.0]).knots(&[0.0, 3.0], &[2.0, 10.0]);
    let clips = lists([&[(2.0, Some(1.0)), (7.6, Some(2.0))]]);
    assert_eq!(read(&set, &clips, 2.5), (Answer::Value(1.0), Some((0, 0))));
    assert_eq!(read(&set, &clips, 3.0), (Answer::Value(2.0), Some((0, 1))));
}

#[test]
fn a_default_a_block_and_an_absent_answer_have_none() {
    let set = Explicit::new(2).starts(&[0.0, 10.0], &[0.0, 1.0]);
    let with_default = set.fallback(Fallback::Value(7.0));
    let clips = lists([&[(0.0, Some(7.0)), (5.0, None)], &[]]);
    assert_eq!(read(&with_default, &clips, 0.0), (Answer::Value(7.0), Some((0, 0))));
    assert_eq!(read(&with_default, &clips, 5.0), (Answer::Blocked, None));
    assert_eq!(read(&with_default, &clips, 10.0), (Answer::Value(7.0), None));
    assert_eq!(read(&set, &clips, 10.0), (Answer::Blocked, None));
    assert_eq!(read(&Explicit::new(2), &clips, 0.0), (Answer::Absent, None));
}

#[test]
fn a_refusal_is_the_values() {
    let set = accepted(&Explicit::new(1).starts(&[0.0], &[0.0]));
    let clips = lists([&[(0.0, Some(1.0))]]);
    let good = clips.lent();
    for (resolver, samples, time, refused) in [
        (&Resolver::new(), good, 0.0, Refusal::NoSet),
        (&set, Samples { ends: &[], ..good }, 0.0, Refusal::Misshapen),
        (&set, Samples { times: &[f64::NAN], ..good }, 0.0, Refusal::Unstorable),
        (&set, Samples { marks: &[2], ..good }, 0.0, Refusal::BadSamples),
        (&set, good, f64::INFINITY, Refusal::TimeNotFinite),
    ] {
        assert_eq!(resolver.value_read(&samples, StageTime(time)), Err(refused));
        assert_eq!(resolver.value(&samples, StageTime(time)), Err(refused));
    }
}

#[test]
fn the_lent_lists_say_at_that_place_what_was_answered() {
    let starts: Vec<f64> = (0..20).map(|i| f64::from(i) * 10.0).collect();
    let numbers: Vec<f64> = (0..20).map(|i| f64::from(i * 7 % 5)).collect();
    let set =
        Explicit::new(5).starts(&starts, &numbers).knots(&[0.0, 90.0, 130.0], &[0.0, 40.0, 3.0]).interpolate(true);
    // Clip 3 has no samples; every sixth sample is a block.
    let sample = |clip: i32, i: i32| (f64::from(i * 4 + clip), (i % 6 != 5).then_some(f64::from(clip * 100 + i)));
    let mut clips = SampleLists::new();
    for clip in 0..5 {
        clips.push_clip((0..if clip == 3 { 0 } else { 10 }).map(|i| sample(clip, i)));
    }
    let (resolver, lent) = (accepted(&set), clips.lent());
    let mut blocked = 0;
    for time in (-80..1000).map(|i| StageTime(f64::from(i) * 0.25)) {
        let read = resolver.value_read(&lent, time).unwrap();
        assert_eq!(resolver.value(&lent, time), Ok(read.value));
        let Some(SampleRead { clip, place }) = read.sample else {
            assert_eq!(read.value, Answer::Blocked);
            blocked += 1;
            continue;
        };
        let begin = if clip == 0 { 0 } else { lent.ends[usize::try_from(clip).unwrap() - 1] };
        let value = lent.values[usize::try_from(begin + place).unwrap()];
        assert_eq!(read.value.value().map(f64::to_bits), Some(value.to_bits()), "at {time:?}");
    }
    assert!((1..500).contains(&blocked), "{blocked} blocked");
}
