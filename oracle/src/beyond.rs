//! What the Rust does where docs/VALUE-CLIPS.md refuses: docs/DIFFERENCES.md lists these, and here they are run.

use crate::calls::{Explicit, Filling, Template};
use crate::doubles::FAR;
use crate::examine::{explicit_dictionary, template_dictionary};
use crate::pcp::clip::effective_set_names;
use crate::pcp::clip::reach;
use crate::sdf::LayerOffset;

const NONE: Filling = Filling { blocks: Vec::new(), mark: 2, value: 0.0, flag: false };

fn template(bytes: &[u8], start: f64, end: f64, stride: f64, offset: Option<f64>) -> Template {
    Template { bytes: bytes.to_vec(), start, end, stride, offset, filling: NONE }
}

fn set(starts: &[f64], clip: f64, knots: &[f64]) -> Explicit {
    Explicit {
        clips: 1,
        start_times: starts.to_vec(),
        start_clips: vec![clip; starts.len()],
        knot_x: knots.to_vec(),
        knot_y: knots.to_vec(),
        filling: NONE,
    }
}

/// Each claim with whether it holds.
fn claims() -> Vec<(&'static str, bool)> {
    let parse = |e: &Explicit| reach::parse_set(&explicit_dictionary(e));
    let expand = |t: &Template| reach::expand(&template_dictionary(t));
    let far = FAR * 2.0;
    let many: Vec<f64> = (0..600).map(f64::from).collect();
    let mut list = vec![
        ("a start beyond 2^40 is accepted", parse(&set(&[far], 0.0, &[])).is_some()),
        ("a knot beyond 2^40 is accepted", parse(&set(&[0.0], 0.0, &[far])).is_some()),
        ("600 starts and 600 knots are accepted", parse(&set(&many, 0.0, &many)).is_some()),
        ("a start that is NaN is no set", parse(&set(&[f64::NAN], 0.0, &[])).is_none()),
        ("a knot that is infinite is no set", parse(&set(&[0.0], 0.0, &[f64::INFINITY])).is_none()),
        ("a template start beyond 2^40 is expanded", expand(&template(b"#", far, far, 1.0, None)).is_some()),
        ("a run of 33 is read", reach::name(&"#".repeat(33), 1.0).is_some_and(|name| name.len() == 33)),
        ("a fraction of 7 is read", reach::name("#.#######", 1.5).as_deref() == Some("1.5000000")),
        ("a template start that is NaN has no clip", expand(&template(b"#", f64::NAN, 1.0, 1.0, None)).is_none()),
        ("300 clips are expanded", expand(&template(b"#", 1.0, 300.0, 1.0, None)).is_some_and(|set| set.0 == 300)),
    ];

    let nan_offset = expand(&template(b"#", 1.0, 2.0, 1.0, Some(f64::NAN)));
    let nan_offset =
        nan_offset.is_some_and(|(_, starts, knots)| starts[0].0.is_nan() && knots.iter().any(|k| k.x.is_nan()));
    list.push(("an offset that is NaN makes NaN starts and knots", nan_offset));

    let same = reach::parse_set(&template_dictionary(&template(b"f.#.usd", 1.0, 2.0, 0.5, None)));
    let same = same.is_some_and(|set| set.asset_paths[0] == set.asset_paths[1]);
    list.push(("clips at 1 and 1.5 of f.#.usd have one name, so one layer", same));

    let mut near = parse(&set(&[0.0, 1e-5], 0.0, &[0.0, 1.0, 2.0])).expect("accepted");
    near.retime_stage_times(LayerOffset::new(1e12, 0.0));
    list.push(("retiming may make starts equal", near.active[0].0 == near.active[1].0));
    list.push(("retiming may make three knots equal", near.times[0].x == near.times[2].x));
    near.retime_stage_times(LayerOffset::new(0.0, 1e300));
    list.push(("retiming may leave the finite doubles", near.active[0].0.is_infinite()));
    list.push(("a stage time may be infinite", near.active_entry(f64::INFINITY).is_some()));

    let sets = [("a".to_owned(), ()), ("b".to_owned(), ())].into();
    let listed = |names: &[&str]| {
        let order: Vec<String> = names.iter().map(|&name| name.to_owned()).collect();
        effective_set_names(&sets, Some(&order)).into_iter().cloned().collect::<Vec<_>>()
    };
    list.push(("a name that is listed again stands in the order again", listed(&["b", "x", "b"]) == ["b", "b"]));
    list.push(("300 names are listed", listed(&["b"; 300]).len() == 300));

    let block = LayerOffset::IDENTITY.apply(-0.0);
    list.push(("the identity's formula turns -0.0 round", block.is_sign_positive()));
    list
}

pub fn test() -> bool {
    let claims = claims();
    let wrong: Vec<_> = claims.iter().filter(|claim| !claim.1).collect();
    wrong.iter().for_each(|claim| println!("not so: {}", claim.0));
    println!("{} claims about the Rust beyond the document, {} wrong", claims.len(), wrong.len());
    wrong.is_empty()
}
