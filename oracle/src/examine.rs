//! Examining: the set that fields make, by the Rust's own `parse_set` and `expand_template`, or the number that refuses them.

use crate::calls::{Explicit, Fields, Filling, Template};
use crate::gf::vec2d;
use crate::notes::Notes;
use crate::numbers::{self, Refusal};
use crate::pcp::clip::keys;
use crate::pcp::clip::reach::{self, Map};
use crate::plain;
use crate::prepared::{Prepared, clip_path};
use crate::sdf::AssetPath;
use crate::vt::Value;

fn pairs(x: &[f64], y: &[f64]) -> Value {
    Value::Vec2dVec(x.iter().zip(y).map(|(&x, &y)| vec2d(x, y)).collect())
}

/// Bytes as text, a character a byte; texts are in the order of the bytes.
pub fn latin(bytes: &[u8]) -> String {
    bytes.iter().map(|&byte| byte as char).collect()
}

fn dictionary(filling: &Filling) -> Map {
    let mut set = Map::new();
    set.insert(keys::MANIFEST_ASSET_PATH.into(), Value::AssetPath(AssetPath::new("m")));
    set.insert(keys::INTERPOLATE_MISSING.into(), Value::Bool(filling.flag));
    set
}

/// An explicit set's dictionary, as a layer would author it.
pub fn explicit_dictionary(e: &Explicit) -> Map {
    let mut set = dictionary(&e.filling);
    let paths = (0..e.clips as usize).map(clip_path).collect();
    set.insert(keys::ASSET_PATHS.into(), Value::AssetPathVec(paths));
    set.insert(keys::ACTIVE.into(), pairs(&e.start_times, &e.start_clips));
    set.insert(keys::TIMES.into(), pairs(&e.knot_x, &e.knot_y));
    set
}

/// A template set's dictionary.
pub fn template_dictionary(t: &Template) -> Map {
    let mut set = dictionary(&t.filling);
    set.insert(keys::TEMPLATE_ASSET_PATH.into(), Value::String(latin(&t.bytes)));
    set.insert(keys::TEMPLATE_START_TIME.into(), Value::Double(t.start));
    set.insert(keys::TEMPLATE_END_TIME.into(), Value::Double(t.end));
    set.insert(keys::TEMPLATE_STRIDE.into(), Value::Double(t.stride));
    if let Some(offset) = t.offset {
        set.insert(keys::TEMPLATE_ACTIVE_OFFSET.into(), Value::Double(offset));
    }
    set
}

/// The set that these fields make. Nothing that stands is looked at.
pub fn examine(fields: &Fields, notes: &mut Notes) -> Result<Prepared, Refusal> {
    let set = match fields {
        Fields::Explicit(e) => explicit(e, notes)?,
        Fields::Template(t) => template(t, notes)?,
    };
    if notes.check {
        notes.compare("set", set.rust_bits(), set.document_bits());
    }
    Ok(set)
}

fn explicit(e: &Explicit, notes: &mut Notes) -> Result<Prepared, Refusal> {
    let number = numbers::explicit(e);
    // The Rust pairs its lists itself, so unlike lengths can't be put to it; limits and marks it does not know.
    if matches!(number, Err(1)) {
        return Err(1);
    }
    let parsed = reach::parse_set(&explicit_dictionary(e));
    match (number, parsed) {
        (Ok(()), Some(set)) => Ok(Prepared::new(set, &e.filling, plain::explicit(e))),
        (Ok(()), None) => {
            notes.differs("explicit", "no set", "accepted");
            Err(0)
        }
        (Err(number), parsed) => {
            if notes.check && matches!(number, 3..=5) && parsed.is_some() {
                notes.differs("explicit", "a set", number);
            }
            Err(number)
        }
    }
}

fn template(t: &Template, notes: &mut Notes) -> Result<Prepared, Refusal> {
    check_runs(&t.bytes, notes);
    if let Err(number) = numbers::template(t) {
        // 8 is judged before the Rust is asked: on a t that does not move it never ends.
        if notes.check && number == 7 && reach::expand(&template_dictionary(t)).is_some() {
            notes.differs("template", "a set", number);
        }
        return Err(number);
    }
    let dictionary = template_dictionary(t);
    let Some((_, starts, knots)) = reach::expand(&dictionary) else {
        notes.differs("template", "no expansion", "an expansion");
        return Err(0);
    };
    let starts: Vec<f64> = starts.iter().map(|start| start.0).collect();
    let knots: Vec<f64> = knots.iter().map(|knot| knot.x).collect();
    let number = numbers::made(&starts, &knots, &[]);
    let parsed = reach::parse_set(&dictionary);
    if notes.check && parsed.is_none() != matches!(number, Err(4 | 5)) && !matches!(number, Err(2)) {
        notes.differs("template", parsed.is_some(), number);
    }
    number?;
    numbers::default_mark(&t.filling)?;
    let set = parsed.expect("no two starts and no three knots are equal");
    Ok(Prepared::new(set, &t.filling, plain::template(t)))
}

/// The Rust reads a template exactly where its runs are such as the document wants, their widths apart.
pub fn check_runs(bytes: &[u8], notes: &mut Notes) {
    if notes.check {
        let rust = reach::name(&latin(bytes), 0.0).is_some();
        notes.compare("template's runs", rust, numbers::template_runs(bytes).is_some());
    }
}
