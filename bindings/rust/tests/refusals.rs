//! Each number at least once, and that a refused call changes nothing.
#![allow(clippy::float_cmp, reason = "what is said to the last bit is compared to the last bit")]

use tavitrozy::{
    ClipTime, Explicit, Fallback, LayerOffset, Refusal, Resolver, SampleLists, Samples, StageTime, Template,
    TemplateTimes, limit, mark,
};

const ONE_START: Explicit = Explicit::new(1).starts(&[0.0], &[0.0]);
const NO_SAMPLES: Samples = Samples::new(&[], &[], &[], &[0]);

fn standing() -> Resolver {
    let mut resolver = Resolver::new();
    resolver.accept(&ONE_START).unwrap();
    resolver
}

fn number(result: Result<impl Sized, Refusal>) -> u8 {
    result.err().map_or(0, Refusal::number)
}

fn accept(set: &Explicit) -> u8 {
    number(Resolver::new().accept(set))
}

fn template(pattern: &[u8], times: TemplateTimes) -> u8 {
    number(Resolver::new().accept_template(&Template::new(pattern, times)))
}

#[test]
fn one_long_and_unlike_lists() {
    assert_eq!(accept(&Explicit::new(257)), 1);
    assert_eq!(accept(&Explicit::new(1).starts(&[0.0], &[])), 1);
    let many = vec![0.0; limit::KNOTS + 1];
    assert_eq!(accept(&Explicit::new(1).knots(&many, &many)), 1);
    assert_eq!(accept(&Explicit::new(1).blocks(&many[..=limit::BLOCKS])), 1);
    assert_eq!(template(&[b'#'; limit::TEMPLATE_BYTES + 1], TemplateTimes::new(1.0, 1.0, 1.0)), 1);
    assert_eq!(number(standing().bake(&Samples::new(&[], &[], &[], &[]))), 1);
    assert_eq!(number(tavitrozy::normalize(&[0.0], &[], &[])), 1);
    assert_eq!(number(tavitrozy::name(&[b'#'; 256], ClipTime(0.0))), 1);
}

#[test]
fn two_times_out_of_range_and_nans() {
    let beyond = limit::TIME.next_up();
    assert_eq!(accept(&Explicit::new(1).starts(&[beyond], &[0.0])), 2);
    assert_eq!(accept(&Explicit::new(1).starts(&[limit::TIME], &[0.0])), 0);
    assert_eq!(accept(&ONE_START.fallback(Fallback::Value(f64::NAN))), 2);
    assert_eq!(template(b"#", TemplateTimes::new(1.0, f64::INFINITY, 1.0)), 2);
    assert_eq!(template(b"#", TemplateTimes::new(1.0, 2.0, 1.0).offset(f64::NAN)), 2);
    assert_eq!(number(standing().retime(LayerOffset::new(2.0 * limit::TIME, 1.0))), 2);
    assert_eq!(number(tavitrozy::name(b"#", ClipTime(f64::NAN))), 2);
    assert_eq!(number(tavitrozy::template_clip_times(TemplateTimes::new(beyond, beyond, 1.0))), 2);
    let nan = Samples::new(&[0.0], &[f64::NAN], &[mark::VALUE], &[1]);
    assert_eq!(number(standing().value(&nan, StageTime(0.0))), 2);
    let blocked = Samples { marks: &[mark::BLOCK], ..nan };
    assert_eq!(number(standing().value(&blocked, StageTime(0.0))), 0);
}

#[test]
fn three_to_five_clip_numbers_starts_and_knots() {
    for clip in [-1.0, 0.5, 1.0, f64::NAN] {
        assert_eq!(accept(&Explicit::new(1).starts(&[0.0], &[clip])), 3, "clip {clip}");
    }
    assert_eq!(accept(&Explicit::new(1).starts(&[0.0], &[-0.0])), 0);
    assert_eq!(accept(&Explicit::new(1).starts(&[3.0, 3.0], &[0.0, 0.0])), 4);
    assert_eq!(accept(&Explicit::new(1).knots(&[3.0; 3], &[0.0; 3])), 5);
}

#[test]
fn six_to_eight_templates() {
    let one = TemplateTimes::new(1.0, 1.0, 1.0);
    assert_eq!(template(b"no run", one), 6);
    assert_eq!(template(b"#a#", one), 6);
    assert_eq!(template(b"#.#######", one), 6);
    for times in [TemplateTimes::new(1.0, 2.0, 0.0), TemplateTimes::new(2.0, 1.0, 1.0), one.offset(1.5)] {
        assert_eq!(template(b"#", times), 7);
        assert_eq!(number(tavitrozy::template_clip_times(times)), 7);
    }
    for (end, refused) in [(256.0, 0), (257.0, 8)] {
        let times = TemplateTimes::new(1.0, end, 1.0);
        assert_eq!(template(b"#", times), refused);
        assert_eq!(number(tavitrozy::template_clip_times(times)), refused);
    }
    // A stride too small to move the time.
    assert_eq!(template(b"#", TemplateTimes::new(limit::TIME, limit::TIME, 1e-10)), 8);
}

#[test]
fn nine_samples_and_marks() {
    let resolver = standing();
    let asked = |samples: Samples| number(resolver.untimed(&samples));
    assert_eq!(asked(Samples::new(&[1.0, 1.0], &[0.0; 2], &[0; 2], &[2])), 9);
    assert_eq!(asked(Samples::new(&[1.0], &[0.0], &[0], &[0])), 9);
    assert_eq!(asked(Samples::new(&[1.0], &[0.0], &[0], &[2])), 9);
    assert_eq!(asked(Samples::new(&[1.0], &[0.0], &[mark::NONE], &[1])), 9);
    assert_eq!(number(tavitrozy::normalize(&[1.0], &[0.0], &[3])), 9);
    assert_eq!(number(Resolver::new().accept_marked(&ONE_START, 3)), 9);
    let template = Template::new(b"#", TemplateTimes::new(1.0, 1.0, 1.0));
    assert_eq!(number(Resolver::new().accept_template_marked(&template, 255)), 9);
}

#[test]
fn ten_stage_times_asked_about() {
    let resolver = standing();
    for time in [f64::NAN, f64::INFINITY, f64::NEG_INFINITY].map(StageTime) {
        assert_eq!(number(resolver.active_clip(time)), 10);
        assert_eq!(number(resolver.clip_time(time)), 10);
        assert_eq!(number(resolver.value(&NO_SAMPLES, time)), 10);
    }
    assert_eq!(resolver.active_clip(StageTime(f64::MAX)), Ok(Some(0)));
}

#[test]
fn twenty_no_set() {
    let mut resolver = Resolver::new();
    assert!(resolver.standing().is_none());
    assert_eq!(number(resolver.retime(LayerOffset::IDENTITY)), 20);
    assert_eq!(number(resolver.active_clip(StageTime(f64::NAN))), 20);
    assert_eq!(number(resolver.clip_time(StageTime(0.0))), 20);
    assert_eq!(number(resolver.value(&NO_SAMPLES, StageTime(0.0))), 20);
    assert_eq!(number(resolver.untimed(&NO_SAMPLES)), 20);
    assert_eq!(number(resolver.stage_sample_count(&NO_SAMPLES)), 20);
    assert_eq!(number(resolver.stage_sample_times(&NO_SAMPLES)), 20);
    assert_eq!(number(resolver.stage_samples(&NO_SAMPLES)), 20);
    assert_eq!(number(resolver.change_count(&NO_SAMPLES)), 20);
    assert_eq!(number(resolver.bake(&NO_SAMPLES)), 20);
}

#[test]
fn a_refused_retiming_leaves_what_earlier_ones_left() {
    let mut resolver = Resolver::new();
    resolver.accept(&Explicit::new(1).starts(&[0.0, 10.0], &[0.0, 0.0]).knots(&[0.0, 10.0], &[0.0, 10.0])).unwrap();
    resolver.retime(LayerOffset::new(1.0, 2.0)).unwrap();
    let before = format!("{resolver:?}");
    for (offset, scale, refused) in [(f64::NAN, 1.0, 2), (0.0, f64::INFINITY, 2), (0.0, 1e300, 2), (0.0, 0.0, 4)] {
        assert_eq!(number(resolver.retime(LayerOffset::new(offset, scale))), refused);
        assert_eq!(format!("{resolver:?}"), before);
    }
    assert_eq!(resolver.retime(LayerOffset::new(-1.0, 1.0)), Ok(()));
    assert_eq!(resolver.standing().unwrap().start_times, [0.0, 20.0]);
}

#[test]
fn twenty_two_precisely_one_slot_too_few() {
    let resolver = standing();
    let mut lists = SampleLists::new();
    lists.push_clip((0..10u8).map(|i| (f64::from(i), Some(f64::from(i)))));
    let samples = lists.lent();
    let count = resolver.change_count(&samples).unwrap();
    assert_eq!(count, 9);
    let bake = |slots: usize| {
        let (mut times, mut values, mut marks) = ([7.0; 20], [7.0; 20], [7u8; 20]);
        let short = &mut marks[..slots];
        let reply = resolver.bake_into(&samples, &mut times, &mut values, short);
        let written = reply.map_or(0, |(_, count)| count);
        assert!(times[written..].iter().chain(&values[written..]).all(|&slot| slot == 7.0));
        assert!(marks[written..].iter().all(|&slot| slot == 7));
        reply
    };
    assert_eq!(number(bake(count - 1)), 22);
    assert_eq!(bake(count).map(|(_, count)| count), Ok(count));
    assert_eq!(number(resolver.stage_sample_times_into(&samples, &mut [])), 22);
    assert_eq!(number(resolver.stage_samples_into(&samples, &mut [0.0; 20], &mut [])), 22);
    assert_eq!(number(tavitrozy::name_into(b"##", ClipTime(1.0), &mut [0])), 22);
    assert_eq!(number(tavitrozy::template_clip_times_into(TemplateTimes::new(1.0, 3.0, 1.0), &mut [0.0; 2])), 22);
    assert_eq!(number(tavitrozy::normalize_into(&[0.0], &[0.0], &[0], &mut [0.0], &mut [], &mut [0])), 22);
}

#[test]
fn a_refused_call_leaves_the_set() {
    let mut resolver = Resolver::new();
    let set = Explicit::new(2).starts(&[1.0, 0.0], &[0.0, 1.0]).knots(&[3.0, 2.0], &[5.0, 6.0]).blocks(&[9.0]);
    resolver.accept(&set.fallback(Fallback::Value(4.0))).unwrap();
    let before = format!("{resolver:?}");
    assert_eq!(number(resolver.accept(&Explicit::new(300))), 1);
    assert_eq!(number(resolver.accept(&Explicit::new(2).starts(&[8.0, 8.0], &[0.0, 1.0]))), 4);
    assert_eq!(number(resolver.accept_template(&Template::new(b"x", TemplateTimes::new(1.0, 2.0, 1.0)))), 6);
    assert_eq!(number(resolver.retime(LayerOffset::new(0.0, 0.0))), 4);
    assert_eq!(format!("{resolver:?}"), before);
}

#[test]
fn numbers_and_words() {
    let numbers = Refusal::ALL.map(Refusal::number);
    assert_eq!(numbers, [1, 2, 3, 4, 5, 6, 7, 8, 9, 10, 20, 21, 22, 23]);
    for refusal in Refusal::ALL {
        assert_eq!(Refusal::of_number(refusal.number()), Some(refusal));
        let error: &dyn std::error::Error = &refusal;
        assert!(error.to_string().ends_with(&format!("({})", refusal.number())));
    }
    assert_eq!(Refusal::of_number(0), None);
    assert_eq!(Refusal::of_number(11), None);
}
