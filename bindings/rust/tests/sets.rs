//! The standing set as it can be looked at, empty lists, stage samples, and a template's clip times.
#![allow(clippy::float_cmp, reason = "what is said to the last bit is compared to the last bit")]

use tavitrozy::{
    Answer, ClipTime, Explicit, Fallback, LayerOffset, Resolver, SampleLists, Samples, StageTime, State, Supplied,
    Template, TemplateTimes,
};

fn accepted(set: &Explicit) -> Resolver {
    let mut resolver = Resolver::new();
    resolver.accept(set).unwrap();
    resolver
}

#[test]
fn the_standing_set_is_sorted_and_moved() {
    let set = Explicit::new(3).starts(&[10.0, 0.0], &[2.0, 1.0]).knots(&[20.0, 0.0], &[5.0, 6.0]).blocks(&[10.0, 0.0]);
    let mut resolver = accepted(&set.fallback(Fallback::Block).interpolate(true));
    let standing = resolver.standing().unwrap();
    assert_eq!(standing.clips, 3);
    assert_eq!((standing.start_times, standing.start_clips), (&[0.0, 10.0][..], &[1, 2][..]));
    assert_eq!((standing.knot_xs, standing.knot_ys), (&[0.0, 20.0][..], &[6.0, 5.0][..]));
    assert_eq!(standing.blocks, [10.0, 0.0]);
    assert_eq!((standing.fallback, standing.interpolate), (Fallback::Block, true));
    assert_eq!(standing.starts().collect::<Vec<_>>(), [(StageTime(0.0), 1), (StageTime(10.0), 2)]);
    assert_eq!(standing.knots().len(), 2);

    resolver.retime(LayerOffset::new(100.0, -1.0)).unwrap();
    let moved = resolver.standing().unwrap();
    assert_eq!(moved.starts().collect::<Vec<_>>(), [(StageTime(90.0), 2), (StageTime(100.0), 1)]);
    let knots = [(StageTime(80.0), ClipTime(5.0)), (StageTime(100.0), ClipTime(6.0))];
    assert_eq!(moved.knots().collect::<Vec<_>>(), knots);
    assert_eq!(moved.blocks, [90.0, 100.0]);
}

#[test]
fn each_retiming_moves_what_the_one_before_left() {
    let set = Explicit::new(1).starts(&[0.7], &[0.0]).knots(&[0.7], &[5.0]).blocks(&[0.7]);
    let mut resolver = accepted(&set);
    resolver.retime(LayerOffset::new(0.0, 3.0)).unwrap();
    assert_eq!(resolver.standing().unwrap().start_times, [2.099_999_999_999_999_6]);
    // With its own roundings: joined, the two would be the identity.
    resolver.retime(LayerOffset::new(0.0, 0.333_333_333_333_333_3)).unwrap();
    let (moved, time) = (resolver.standing().unwrap(), [0.699_999_999_999_999_8]);
    assert_eq!((moved.start_times, moved.knot_xs, moved.blocks), (&time[..], &time[..], &time[..]));
    assert_eq!(moved.knot_ys, [5.0]);

    resolver.accept(&set).unwrap();
    assert_eq!(resolver.standing().unwrap().start_times, [0.7]);
}

#[test]
fn the_identity_leaves_a_zero_as_it_is() {
    let mut resolver = accepted(&Explicit::new(1).starts(&[0.0], &[0.0]));
    let is_negative = |resolver: &Resolver| resolver.standing().unwrap().start_times[0].is_sign_negative();
    resolver.retime(LayerOffset::new(-0.0, -1.0)).unwrap();
    assert!(is_negative(&resolver));
    resolver.retime(LayerOffset::IDENTITY).unwrap();
    resolver.retime(LayerOffset::new(-0.0, 1.0)).unwrap();
    assert!(is_negative(&resolver));
    resolver.retime(LayerOffset::new(0.0, 2.0)).unwrap();
    assert!(!is_negative(&resolver));
}

#[test]
fn a_track_follows_all_retimings() {
    let set = Explicit::new(2).starts(&[0.0, 20.0], &[0.0, 1.0]).knots(&[0.0, 20.0], &[10.0, 0.0]);
    let mut resolver = accepted(&set);
    let mut lists = SampleLists::new();
    lists.push_clip([(0.0, Some(1.0)), (10.0, Some(2.0))]);
    lists.push_clip([(0.0, Some(3.0))]);
    for (offset, scale) in [(100.0, 0.5), (0.0, -2.0)] {
        resolver.retime(LayerOffset::new(offset, scale)).unwrap();
    }
    let track = resolver.bake(&lists.lent()).unwrap();
    assert_eq!(track.len(), 1);
    assert_eq!(track.read(StageTime(-200.000_000_000_000_03)), Answer::Value(3.0));
    assert_eq!(track.read(StageTime(-200.0)), Answer::Value(2.0));
}

#[test]
fn a_clone_stands_on_its_own() {
    let mut first = accepted(&Explicit::new(1).starts(&[0.0], &[0.0]));
    let second = first.clone();
    first.retime(LayerOffset::new(5.0, 1.0)).unwrap();
    assert_eq!(first.standing().unwrap().start_times, [5.0]);
    assert_eq!(second.standing().unwrap().start_times, [0.0]);
    assert!(Resolver::default().standing().is_none());
}

#[test]
fn threads_may_ask_one_resolver() {
    let resolver = accepted(&Explicit::new(1).starts(&[0.0], &[0.0]));
    let mut lists = SampleLists::new();
    lists.push_clip((0..100u8).map(|i| (f64::from(i), Some(f64::from(i)))));
    let track = resolver.bake(&lists.lent()).unwrap();
    std::thread::scope(|scope| {
        for _ in 0..4 {
            scope.spawn(|| {
                assert!(tavitrozy::environment_is_exact());
                assert_eq!(resolver.bake(&lists.lent()).unwrap(), track);
                assert_eq!(track.read(StageTime(41.5)), Answer::Value(41.0));
            });
        }
    });
}

#[test]
fn empty_lists_are_lists() {
    let resolver = accepted(&Explicit::new(0));
    let none = Samples::new(&[], &[], &[], &[]);
    assert_eq!(resolver.value(&none, StageTime(0.0)), Ok(Answer::Absent));
    assert_eq!(resolver.untimed(&none), Ok(State::Absent));
    assert_eq!(resolver.stage_sample_times(&none), Ok(vec![]));
    assert_eq!(resolver.stage_samples(&none), Ok(vec![]));
    assert_eq!(resolver.change_count(&none), Ok(0));
    assert_eq!(resolver.bake_into(&none, &mut [], &mut [], &mut []), Ok((Answer::Absent, 0)));
    assert_eq!(resolver.bake(&none).unwrap().read(StageTime(3.0)), Answer::Absent);
    assert_eq!(tavitrozy::normalize(&[], &[], &[]).unwrap().lent().ends, [0]);
    assert_eq!(resolver.bake(&SampleLists::new().lent()).unwrap().len(), 0);
}

#[test]
fn a_clip_without_samples_gives_a_block() {
    let resolver = accepted(&Explicit::new(1).starts(&[0.0], &[0.0]));
    let none = Samples::new(&[], &[], &[], &[0]);
    assert_eq!(resolver.untimed(&none), Ok(State::Blocked));
    assert_eq!(resolver.stage_samples(&none), Ok(vec![(StageTime(0.0), Supplied::Blocked)]));
    let track = resolver.bake(&none).unwrap();
    assert_eq!((track.head(), track.len()), (Answer::Blocked, 0));
}

#[test]
fn stage_samples_say_what_is_supplied() {
    let resolver = accepted(&Explicit::new(1).starts(&[0.0], &[0.0]));
    let mut lists = SampleLists::new();
    lists.push_clip([(1.0, Some(5.0)), (2.0, None)]);
    let samples = lists.lent();
    assert_eq!(resolver.untimed(&samples), Ok(State::Present));
    let times = [0.0, 1.0, 2.0].map(StageTime);
    assert_eq!(resolver.stage_sample_times(&samples), Ok(times.to_vec()));
    let supplied = [Supplied::Opaque, Supplied::Opaque, Supplied::Blocked];
    assert_eq!(resolver.stage_samples(&samples), Ok(times.into_iter().zip(supplied).collect()));
    assert_eq!(resolver.stage_sample_count(&samples), Ok(3));
    let (mut out_times, mut marks) = ([0.0; 4], [9; 4]);
    assert_eq!(resolver.stage_samples_into(&samples, &mut out_times, &mut marks), Ok(3));
    assert_eq!(marks, [0, 0, 1, 9]);
}

#[test]
fn an_offset_moves_starts_and_not_clip_times() {
    let times = TemplateTimes::new(101.0, 103.0, 1.0).offset(0.25);
    let mut resolver = Resolver::new();
    resolver.accept_template(&Template::new(b"run.#.usd", times)).unwrap();
    let standing = resolver.standing().unwrap();
    assert_eq!(standing.start_times, [101.25, 102.25, 103.25]);
    assert_eq!(standing.knot_xs, [100.75, 101.0, 102.0, 103.0, 103.25]);
    let clip_times = tavitrozy::template_clip_times(times).unwrap();
    assert_eq!(clip_times, [101.0, 102.0, 103.0].map(ClipTime));
    let names = clip_times.iter().map(|&time| tavitrozy::name(b"run.#.usd", time).unwrap());
    assert_eq!(names.collect::<Vec<_>>(), [b"run.101.usd", b"run.102.usd", b"run.103.usd"]);
    // At a start its name would be another's where the offset is a whole number.
    let whole = TemplateTimes { offset: Some(-1.0), ..times };
    assert_eq!(tavitrozy::template_clip_times(whole).unwrap(), clip_times);
}

#[test]
fn normalising_sorts_and_keeps_the_last_of_equals() {
    let lists = tavitrozy::normalize(&[3.0, -0.0, 3.0, 0.0], &[1.0, 2.0, 3.0, 4.0], &[0, 0, 1, 0]).unwrap();
    let samples = lists.lent();
    assert_eq!(samples.times.iter().map(|t| t.to_bits()).collect::<Vec<_>>(), [-0.0f64, 3.0].map(f64::to_bits));
    assert_eq!(samples.values, [4.0, 3.0]);
    assert_eq!(samples.marks, [0, 1]);
    assert_eq!(samples.ends, [2]);
}
