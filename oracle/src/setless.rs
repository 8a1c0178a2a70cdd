//! Questions that need no set: names, clip times of a template, samples in normal form, the order of two bit patterns.

use crate::calls::{Samples, Template};
use crate::desk::Answered;
use crate::examine::{check_runs, latin, template_dictionary};
use crate::notes::Notes;
use crate::numbers;
use crate::pcp::clip::reach;
use crate::plain;
use crate::sdf;
use crate::text::Line;
use crate::vt::Value;

pub fn name(bytes: &[u8], time: f64, slots: u64, out: &mut Line, notes: &mut Notes) -> Answered {
    check_runs(bytes, notes);
    numbers::name(bytes, time)?;
    let name = reach::name(&latin(bytes), time).map(|name| name.chars().map(|c| c as u8).collect::<Vec<u8>>());
    if notes.check {
        notes.compare("name", name.clone(), Some(plain::name(bytes, time)));
    }
    let name = name.ok_or(0u32)?;
    numbers::room(slots, name.len())?;
    out.word("name").bytes(&name);
    Ok(())
}

/// The clip times of a template's clips, one for each: the Rust's knots without an offset, which would add two more and
/// move none of these.
pub fn clip_times(t: &Template, slots: u64, out: &mut Line, notes: &mut Notes) -> Answered {
    numbers::template(t)?;
    let without = Template { offset: None, ..t.clone() };
    let (clips, _, knots) = reach::expand(&template_dictionary(&without)).ok_or(0u32)?;
    let rust: Vec<f64> = knots.iter().map(|knot| knot.y).collect();
    assert!(clips == rust.len(), "a knot for each clip");
    if notes.check {
        let text: Vec<u64> = plain::clip_times(t).iter().map(|time| time.to_bits()).collect();
        notes.compare("cliptimes", rust.iter().map(|time| time.to_bits()).collect(), text);
    }
    numbers::room(slots, rust.len())?;
    out.word("cliptimes").doubles(&rust);
    Ok(())
}

pub fn key_compare(first: u64, second: u64, out: &mut Line, notes: &mut Notes) -> Answered {
    let rust = f64::from_bits(first).total_cmp(&f64::from_bits(second));
    if notes.check {
        notes.compare("keycmp", rust, plain::total_order(first, second));
    }
    out.word("keycmp").order(rust);
    Ok(())
}

pub fn normalize(s: &Samples, slots: u64, out: &mut Line, notes: &mut Notes) -> Answered {
    numbers::normalize(s)?;
    // A block's slot goes through the Rust with it: the value is the sample's place in the lent lists.
    let lent = (0..s.times.len()).map(|i| (s.times[i], Value::Double(i as f64))).collect();
    let rust: Vec<(u64, u64, u8)> = sdf::normalize_time_samples(lent)
        .into_iter()
        .map(|(time, value)| match value {
            Value::Double(i) => (time.to_bits(), s.values[i as usize].to_bits(), s.marks[i as usize]),
            _ => unreachable!("places were lent"),
        })
        .collect();
    if notes.check {
        notes.compare("normalize", rust.clone(), plain::normalize(s));
    }
    numbers::room(slots, rust.len())?;
    out.word("normalize").number(rust.len() as u64);
    for &(time, value, mark) in &rust {
        out.bits(time).bits(value).number(mark.into());
    }
    Ok(())
}
