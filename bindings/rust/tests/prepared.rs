//! Sets that are examined and then installed: what an acceptance does, in two steps.
#![allow(clippy::float_cmp, reason = "what is said to the last bit is compared to the last bit")]

use tavitrozy::{
    Answer, Explicit, Fallback, LayerOffset, Prepared, Refusal, Resolver, SampleLists, Samples, StageTime, State,
    Template, TemplateTimes, limit,
};

const EXPLICIT: Explicit = Explicit::new(3)
    .starts(&[10.0, -0.0, 5.0], &[1.0, 0.0, 2.0])
    .knots(&[20.0, 10.0, 0.0, 10.0], &[7.0, 9.0, 8.0, -0.0])
    .blocks(&[10.0, 0.0, 10.0])
    .fallback(Fallback::Value(-0.0))
    .interpolate(true);
const TEMPLATE: Template = Template::new(b"f.###.usd", TemplateTimes::new(1.0, 3.0, 1.0)).blocks(&[2.0, 1.0]);

/// A set of which every field must give way.
fn standing() -> Resolver {
    let (starts, knots) = ([-3.0, -2.0, -1.0, 0.0, 7.0], [1.0, 2.0, 3.0, 4.0, 5.0]);
    let set = Explicit::new(4).starts(&starts, &[0.0, 1.0, 2.0, 3.0, 3.0]).knots(&knots, &knots).blocks(&knots);
    let mut resolver = Resolver::new();
    resolver.accept(&set.fallback(Fallback::Value(8.0)).interpolate(true)).unwrap();
    resolver
}

fn installed(set: &Prepared) -> Resolver {
    let mut resolver = standing();
    resolver.install(set);
    resolver
}

/// All that counts, a zero's sign too.
fn shown(resolver: &Resolver) -> String {
    format!("{:?}", resolver.standing())
}

/// Accepted, and examined and installed: the same number, and the same stands then.
fn both_ways(accepted: Result<(), Refusal>, resolver: &Resolver, examined: &Result<Prepared, Refusal>) -> u8 {
    assert_eq!(accepted.err(), examined.as_ref().err().copied());
    match examined {
        Ok(set) => {
            assert_eq!(shown(&installed(set)), shown(resolver));
            assert_eq!(format!("{:?}", Some(set.set())), shown(resolver));
        }
        Err(_) => assert_eq!(shown(resolver), shown(&standing())),
    }
    accepted.err().map_or(0, Refusal::number)
}

fn explicit(set: &Explicit, mark: u8) -> u8 {
    let mut resolver = standing();
    both_ways(resolver.accept_marked(set, mark), &resolver, &tavitrozy::examine_marked(set, mark))
}

fn template(set: &Template, mark: u8) -> u8 {
    let mut resolver = standing();
    both_ways(resolver.accept_template_marked(set, mark), &resolver, &tavitrozy::examine_template_marked(set, mark))
}

#[test]
fn the_two_in_a_row_are_the_acceptance() {
    assert_eq!(explicit(&EXPLICIT, 0), 0);
    assert_eq!(explicit(&EXPLICIT.fallback(Fallback::Block).interpolate(false), 1), 0);
    assert_eq!(explicit(&Explicit::new(0), 2), 0);
    assert_eq!(template(&TEMPLATE, 2), 0);
    let offset = Template { times: TEMPLATE.times.offset(0.5), ..TEMPLATE };
    assert_eq!(template(&offset.fallback(Fallback::Value(4.0)).interpolate(true), 0), 0);
    let accepted = |set: &Explicit| Resolver::new().accept(set);
    assert_eq!(tavitrozy::examine(&EXPLICIT).map(drop), accepted(&EXPLICIT));
    assert_eq!(tavitrozy::examine_template(&TEMPLATE).map(drop), Resolver::new().accept_template(&TEMPLATE));
}

/// Spoils one field.
type Fault = fn(Explicit) -> Explicit;

#[test]
fn an_explicit_set_with_one_fault_or_two() {
    let faults: [(u8, Fault); 6] = [
        (1, |set| Explicit { clips: 257, ..set }),
        (2, |set| set.blocks(&[f64::NAN])),
        (3, |set| Explicit { start_clips: &[1.0, 0.5, 2.0], ..set }),
        (4, |set| Explicit { start_times: &[10.0, 0.0, 10.0], ..set }),
        (5, |set| Explicit { knot_xs: &[10.0, 10.0, 0.0, 10.0], ..set }),
        (9, |set| set),
    ];
    for (i, (number, first)) in faults.iter().enumerate() {
        for (other, second) in &faults[i..] {
            let mark = if *other == 9 { 3 } else { 0 };
            assert_eq!(explicit(&second(first(EXPLICIT)), mark), *number, "{number} and {other}");
        }
    }
}

#[test]
fn a_template_set_with_one_fault_or_two() {
    let times = |start, end, stride| TemplateTimes::new(start, end, stride).offset(0.0);
    let far = TemplateTimes::new(0.0, 0.0, 2_199_023_255_553.0).offset(2_199_023_255_552.0);
    let close = times(900_000_000_000.0, 900_000_000_000.001, 0.000_1);
    for (number, times) in
        [(7, times(3.0, 1.0, 1.0)), (8, times(1.0, 257.0, 1.0)), (2, far), (4, close), (5, times(1.0, 1.0, 1.0))]
    {
        let set = Template { times, ..TEMPLATE };
        assert_eq!(template(&set, 2), number);
        assert_eq!(template(&set, 3), number, "9 comes last");
        assert_eq!(template(&Template { pattern: b"f.usd", ..set }, 3), if number == 7 { 7 } else { 6 });
        assert_eq!(template(&set.blocks(&[f64::NAN]), 3), 2);
        assert_eq!(template(&set.blocks(&[f64::NAN; limit::BLOCKS + 1]), 3), 1);
    }
    assert_eq!(template(&TEMPLATE, 3), 9);
}

#[test]
fn a_retiming_does_not_reach_the_prepared_set() {
    let set = tavitrozy::examine(&EXPLICIT).unwrap();
    let (mut first, second) = (installed(&set), installed(&set));
    first.retime(LayerOffset::new(100.0, -2.0)).unwrap();
    assert_eq!(first.standing().unwrap().start_times, [80.0, 90.0, 100.0]);
    assert_eq!(shown(&second), format!("{:?}", Some(set.set())));
    first.install(&set);
    assert_eq!(shown(&first), shown(&second));
}

#[test]
fn it_is_kept_and_looked_at_without_a_resolver() {
    let set = {
        let (times, clips) = (vec![10.0, 0.0], vec![1.0, 0.0]);
        tavitrozy::examine(&Explicit::new(2).starts(&times, &clips).blocks(&times)).unwrap()
    };
    let (copy, view) = (set.clone(), set.set());
    assert_eq!((view.clips, view.start_times, view.start_clips), (2, &[0.0, 10.0][..], &[0, 1][..]));
    assert_eq!((view.blocks, view.fallback, view.interpolate), (&[10.0, 0.0][..], Fallback::None, false));
    assert_eq!(view.starts().len() + view.knots().len(), 2);
    let shown = format!("{set:?}");
    drop(set);
    assert_eq!(format!("{copy:?}"), shown);
    std::thread::scope(|scope| {
        for _ in 0..4 {
            scope.spawn(|| assert_eq!(installed(&copy).standing().unwrap().start_times, copy.set().start_times));
        }
    });
}

#[test]
fn nothing_of_what_stood_stays() {
    let blocked = tavitrozy::examine(&Explicit::new(1).starts(&[0.0], &[0.0])).unwrap();
    let none = Samples::new(&[], &[], &[], &[0]);
    assert_eq!(installed(&blocked).value(&none, StageTime(2.0)), Ok(Answer::Blocked));
    let empty = installed(&tavitrozy::examine(&Explicit::new(0)).unwrap());
    let none = Samples { ends: &[], ..none };
    assert_eq!(empty.value(&none, StageTime(2.0)), Ok(Answer::Absent));
    assert_eq!(empty.untimed(&none), Ok(State::Absent));
    assert_eq!(empty.active_clip(StageTime(2.0)), Ok(None));
}

#[test]
fn the_track_that_is_shown_is_the_one_that_is_drawn() {
    let mut desk = standing();
    let mut lists = SampleLists::new();
    for clip in 0..4u8 {
        lists.push_clip([(0.0, Some(f64::from(clip))), (2.5, None)]);
    }
    let before = desk.bake(&lists.lent()).unwrap();
    let set = tavitrozy::examine(&Explicit::new(4).starts(&[0.0, 2.0], &[3.0, 2.0])).unwrap();
    let preview = installed(&set).bake(&lists.lent()).unwrap();
    assert_eq!(desk.bake(&lists.lent()).unwrap(), before);
    desk.install(&set);
    assert_eq!(desk.bake(&lists.lent()).unwrap(), preview);
    assert_ne!(preview, before);
}

#[test]
fn sets_at_the_limits() {
    let many: Vec<f64> = (0..512u16).map(f64::from).collect();
    let set = Explicit::new(256).starts(&many[..256], &many[..256]).knots(&many, &many).blocks(&many[..256]);
    assert_eq!(explicit(&set, 2), 0);
    let long = Template { times: TemplateTimes::new(1.0, 256.0, 1.0).offset(0.5), ..TEMPLATE };
    assert_eq!(template(&long, 2), 0);
}
