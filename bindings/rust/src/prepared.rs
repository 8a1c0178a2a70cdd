//! Sets that are examined before they are installed.

use std::fmt;
use std::sync::OnceLock;

use crate::ffi;
use crate::{Explicit, Refusal, Resolver, StandingSet, Template};

/// A set that was examined and not refused: the very set that an acceptance would put in the resolver.
///
/// It is a value: it may be kept, and [installed](Resolver::install) at any later time, several times and in several
/// resolvers. So a client's set can be shown before it takes the place of the one that stands:
///
/// ```
/// use tavitrozy::{Answer, Explicit, Refusal, Resolver, SampleLists, StageTime};
///
/// let mut desk = Resolver::new();
/// desk.accept(&Explicit::new(2).starts(&[0.0, 10.0], &[0.0, 1.0]))?;
/// let mut clips = SampleLists::new();
/// clips.push_clip([(0.0, Some(1.0))]);
/// clips.push_clip([(0.0, Some(2.0))]);
///
/// // What is refused touches no resolver.
/// let refused = tavitrozy::examine(&Explicit::new(2).starts(&[5.0, 5.0], &[0.0, 1.0]));
/// assert_eq!(refused.unwrap_err(), Refusal::EqualStarts);
///
/// // The preview is a resolver of its own; the desk stays as it was.
/// let prepared = tavitrozy::examine(&Explicit::new(2).starts(&[0.0, 5.0], &[0.0, 1.0]))?;
/// let mut preview = Resolver::new();
/// preview.install(&prepared);
/// assert_eq!(preview.value(&clips.lent(), StageTime(7.0))?, Answer::Value(2.0));
/// assert_eq!(desk.value(&clips.lent(), StageTime(7.0))?, Answer::Value(1.0));
///
/// desk.install(&prepared);
/// assert_eq!(desk.value(&clips.lent(), StageTime(7.0))?, Answer::Value(2.0));
/// # Ok::<(), Refusal>(())
/// ```
#[derive(Clone)]
pub struct Prepared {
    set: Box<ffi::Prepared>,
    /// It has starts and knots as pairs and a view has them as lists: where it is looked at it is installed here first.
    shown: OnceLock<Resolver>,
}

impl Prepared {
    fn of(examined: ffi::Examined) -> Result<Prepared, Refusal> {
        Refusal::checked(examined.number, ())?;
        Ok(Prepared { set: Box::new(examined.set), shown: OnceLock::new() })
    }

    /// For the library, which takes it by value.
    pub(crate) fn lent(&self) -> ffi::Prepared {
        ffi::Prepared::clone(&self.set)
    }

    /// The set, as it stands once it is installed.
    #[must_use]
    pub fn set(&self) -> StandingSet<'_> {
        let installed = || {
            let mut resolver = Resolver::new();
            resolver.install(self);
            resolver
        };
        self.shown.get_or_init(installed).held()
    }
}

impl fmt::Debug for Prepared {
    fn fmt(&self, f: &mut fmt::Formatter<'_>) -> fmt::Result {
        f.debug_tuple("Prepared").field(&self.set()).finish()
    }
}

/// Examines an explicit set. No resolver is touched; what is handed back can be [installed](Resolver::install).
///
/// # Errors
///
/// 1, 2, 3, 4, 5.
pub fn examine(set: &Explicit<'_>) -> Result<Prepared, Refusal> {
    examine_marked(set, set.fallback.marked().mark)
}

/// [`examine`] with any byte as the default's mark, so that 9 can be asked for: for tests of the library.
#[doc(hidden)]
pub fn examine_marked(set: &Explicit<'_>, default_mark: u8) -> Result<Prepared, Refusal> {
    // SAFETY: each pointer comes with its own slice's length, and the slices are only read.
    Prepared::of(unsafe {
        ffi::tavitrozy_examine(
            set.clips,
            set.start_times.as_ptr(),
            set.start_times.len(),
            set.start_clips.as_ptr(),
            set.start_clips.len(),
            set.knot_xs.as_ptr(),
            set.knot_xs.len(),
            set.knot_ys.as_ptr(),
            set.knot_ys.len(),
            set.blocks.as_ptr(),
            set.blocks.len(),
            ffi::Marked { mark: default_mark, ..set.fallback.marked() },
            set.interpolate,
        )
    })
}

/// Examines a template set, as [`examine`] does an explicit one.
///
/// # Errors
///
/// 1, 2, 7, 6, 8, then 2, 4 and 5 for what the template expands to.
pub fn examine_template(set: &Template<'_>) -> Result<Prepared, Refusal> {
    examine_template_marked(set, set.fallback.marked().mark)
}

/// [`examine_template`] with any byte as the default's mark: for tests of the library.
#[doc(hidden)]
pub fn examine_template_marked(set: &Template<'_>, default_mark: u8) -> Result<Prepared, Refusal> {
    let (times, has_offset) = set.times.lent();
    // SAFETY: each pointer comes with its own slice's length, and the slices are only read.
    Prepared::of(unsafe {
        ffi::tavitrozy_examine_template(
            set.pattern.as_ptr(),
            set.pattern.len(),
            times,
            has_offset,
            set.blocks.as_ptr(),
            set.blocks.len(),
            ffi::Marked { mark: default_mark, ..set.fallback.marked() },
            set.interpolate,
        )
    })
}
