//! The resolver: the one set that stands, and every question about it.

use crate::set::StandingSet;
use crate::{Answer, ClipTime, Explicit, LayerOffset, Prepared, Refusal, Samples, StageTime, Template, Track};
use crate::{ffi, limit, mark};

/// Holds one clip set, or none, and answers questions about it. A refused call leaves it as it was.
///
/// A question lends the resolver's lists and copies nothing; several threads may ask the same resolver at once.
///
/// ```
/// use tavitrozy::{Answer, Explicit, Resolver, SampleLists, StageTime};
///
/// let mut resolver = Resolver::new();
/// resolver.accept(&Explicit::new(2).starts(&[0.0, 20.0], &[0.0, 1.0]).knots(&[0.0, 20.0], &[10.0, 0.0]))?;
/// let mut clips = SampleLists::new();
/// clips.push_clip([(0.0, Some(1.0)), (10.0, Some(2.0))]);
/// clips.push_clip([(0.0, Some(3.0))]);
///
/// assert_eq!(resolver.value(&clips.lent(), StageTime(5.0))?, Answer::Value(2.0));
/// let track = resolver.bake(&clips.lent())?;
/// assert_eq!(track.head(), Answer::Value(2.0));
/// assert_eq!((track.times(), track.values()), (&[20.0][..], &[3.0][..]));
/// # Ok::<(), tavitrozy::Refusal>(())
/// ```
#[derive(Clone)]
pub struct Resolver {
    shape: ffi::Shape,
    lists: Box<ffi::Lists>,
}

/// What a set says without a time.
#[derive(Clone, Copy, Debug, PartialEq, Eq, Hash)]
pub enum State {
    /// A clip that a start names has samples, or the default is a value.
    Present,
    /// There are starts, and none of that.
    Blocked,
    /// The set has no starts.
    Absent,
}

/// What [`Resolver::value_read`] answers: the value, and beside it the sample that it was read from.
#[derive(Clone, Copy, Debug, PartialEq, Eq)]
pub struct ValueRead {
    /// What [`Resolver::value`] answers.
    pub value: Answer,
    /// The sample, if the value was read from one: `None` for the default, a blocked answer (a block that was read, too)
    /// and an absent one.
    pub sample: Option<SampleRead>,
}

/// A sample, by its clip and its place there.
///
/// In the lent lists it stands at `place`, of clip 0, and at `ends[clip - 1] + place`, of any other clip.
#[derive(Clone, Copy, Debug, PartialEq, Eq, Hash)]
pub struct SampleRead {
    /// The number of the clip that was read.
    pub clip: u64,
    /// The sample's place, counted from 0 at the clip's first sample.
    pub place: u64,
}

/// What is supplied at a stage sample's time.
#[derive(Clone, Copy, Debug, PartialEq, Eq, Hash)]
pub enum Supplied {
    /// A value.
    Opaque,
    /// None: a block, or no sample and no default value.
    Blocked,
}

/// A call that asks: the shape, its lists lent for reading, and the rest.
macro_rules! asked {
    ($call:ident, $resolver:expr $(, $rest:expr)*) => {{
        let lists = &*$resolver.lists;
        // SAFETY: each pointer comes with its own list's length, and the lists are only read; the shape and the lists
        // are those that a call of the library handed back, since nothing else writes them.
        unsafe {
            ffi::$call(
                $resolver.shape,
                lists.starts.as_ptr(),
                lists.starts.len(),
                lists.numbers.as_ptr(),
                lists.numbers.len(),
                lists.xs.as_ptr(),
                lists.xs.len(),
                lists.ys.as_ptr(),
                lists.ys.len(),
                lists.blocks.as_ptr(),
                lists.blocks.len()
                $(, $rest)*
            )
        }
    }};
}

/// A call that asks about samples.
macro_rules! asked_with {
    ($call:ident, $resolver:expr, $samples:expr $(, $rest:expr)*) => {{
        let Samples { times, values, marks, ends } = *$samples;
        asked!(
            $call, $resolver, times.as_ptr(), times.len(), values.as_ptr(), values.len(), marks.as_ptr(), marks.len(),
            ends.as_ptr(), ends.len() $(, $rest)*
        )
    }};
}

/// A call that writes: the shape, its lists lent for writing, and the rest.
macro_rules! written {
    ($call:ident, $resolver:expr $(, $rest:expr)*) => {{
        let lists = &mut *$resolver.lists;
        // SAFETY: as where a call asks; the lists are borrowed for writing, so no list of the arguments overlaps them. A
        // prepared set among them is one that examining handed back, since nothing else writes it.
        unsafe {
            ffi::$call(
                $resolver.shape,
                lists.starts.as_mut_ptr(),
                lists.starts.len(),
                lists.numbers.as_mut_ptr(),
                lists.numbers.len(),
                lists.xs.as_mut_ptr(),
                lists.xs.len(),
                lists.ys.as_mut_ptr(),
                lists.ys.len(),
                lists.blocks.as_mut_ptr(),
                lists.blocks.len()
                $(, $rest)*
            )
        }
    }};
}

/// A call that may change what stands: the shape that comes back is kept if the call is accepted.
macro_rules! settled {
    ($call:ident, $resolver:expr $(, $rest:expr)*) => {{
        let settled = written!($call, $resolver $(, $rest)*);
        Refusal::checked(settled.number, settled.shape).map(|shape| $resolver.shape = shape)
    }};
}

impl Resolver {
    /// A resolver in which no set stands.
    #[must_use]
    pub fn new() -> Resolver {
        let lists = ffi::Lists {
            starts: [0.0; limit::STARTS],
            numbers: [0; limit::STARTS],
            xs: [0.0; limit::KNOTS],
            ys: [0.0; limit::KNOTS],
            blocks: [0.0; limit::BLOCKS],
        };
        // SAFETY: the call takes nothing.
        Resolver { shape: unsafe { ffi::tavitrozy_lent_fresh() }, lists: Box::new(lists) }
    }

    /// Takes an explicit set, which replaces the one that stood.
    ///
    /// # Errors
    ///
    /// 1, 2, 3, 4, 5.
    pub fn accept(&mut self, set: &Explicit<'_>) -> Result<(), Refusal> {
        self.accept_marked(set, set.fallback.marked().mark)
    }

    /// [`accept`](Self::accept) with any byte as the default's mark, so that 9 can be asked for: for tests of the library.
    #[doc(hidden)]
    pub fn accept_marked(&mut self, set: &Explicit<'_>, default_mark: u8) -> Result<(), Refusal> {
        settled!(
            tavitrozy_lent_accept,
            self,
            set.clips,
            set.start_times.as_ptr(),
            set.start_times.len(),
            set.start_clips.as_ptr(),
            set.start_clips.len(),
            set.knot_xs.as_ptr(),
            set.knot_xs.len(),
            set.knot_ys.as_ptr(),
            set.knot_ys.len(),
            set.blocks.as_ptr(),
            set.blocks.len(),
            ffi::Marked { mark: default_mark, ..set.fallback.marked() },
            set.interpolate
        )
    }

    /// Takes a template set, which replaces the one that stood.
    ///
    /// # Errors
    ///
    /// 1, 2, 7, 6, 8, then 2, 4 and 5 for what the template expands to.
    pub fn accept_template(&mut self, set: &Template<'_>) -> Result<(), Refusal> {
        self.accept_template_marked(set, set.fallback.marked().mark)
    }

    /// [`accept_template`](Self::accept_template) with any byte as the default's mark: for tests of the library.
    #[doc(hidden)]
    pub fn accept_template_marked(&mut self, set: &Template<'_>, default_mark: u8) -> Result<(), Refusal> {
        let (times, has_offset) = set.times.lent();
        settled!(
            tavitrozy_lent_accept_template,
            self,
            set.pattern.as_ptr(),
            set.pattern.len(),
            times,
            has_offset,
            set.blocks.as_ptr(),
            set.blocks.len(),
            ffi::Marked { mark: default_mark, ..set.fallback.marked() },
            set.interpolate
        )
    }

    /// Puts a prepared set in place of the one that stood. It is never refused.
    ///
    /// A set may be installed at any time after it was [examined](crate::examine), several times and in several resolvers:
    /// it stays as it was prepared, whatever retimings the resolver sees. [`accept`](Self::accept) is the examining and, if
    /// it is not refused, the installing.
    pub fn install(&mut self, set: &Prepared) {
        self.shape = written!(tavitrozy_lent_install, self, set.lent());
    }

    /// Moves the starts, knots and block times of the standing set.
    ///
    /// It may be repeated, as where one layer is referenced through another: each retiming moves what the one before left,
    /// with its own roundings. [`LayerOffset::IDENTITY`] changes nothing.
    ///
    /// # Errors
    ///
    /// 20, 2, 4, 5. What earlier retimings left stays.
    pub fn retime(&mut self, offset: LayerOffset) -> Result<(), Refusal> {
        let LayerOffset { offset, scale } = offset;
        settled!(tavitrozy_lent_retime, self, ffi::LayerOffset { offset, scale })
    }

    /// The set that stands, if one does.
    #[must_use]
    pub fn standing(&self) -> Option<StandingSet<'_>> {
        self.shape.stands.then(|| self.held())
    }

    /// The set that stands, where one does.
    pub(crate) fn held(&self) -> StandingSet<'_> {
        StandingSet::of(&self.shape, &self.lists)
    }

    /// The number of the active clip: that of the last start at or before the stage time, of the first start if none is;
    /// `None` where the set has no starts.
    ///
    /// # Errors
    ///
    /// 20, 10.
    pub fn active_clip(&self, time: StageTime) -> Result<Option<u64>, Refusal> {
        let reply = asked!(tavitrozy_lent_active_clip, self, ffi::AtStage { value: time.0 });
        Refusal::checked(reply.number, reply.found.then_some(reply.clip))
    }

    /// The clip time to which the knots lead from a stage time.
    ///
    /// # Errors
    ///
    /// 20, 10.
    pub fn clip_time(&self, time: StageTime) -> Result<ClipTime, Refusal> {
        let reply = asked!(tavitrozy_lent_clip_time, self, ffi::AtStage { value: time.0 });
        Refusal::checked(reply.number, ClipTime(reply.time.value))
    }

    /// What the attribute is at a stage time, with the bits that were lent: -0.0 stays -0.0.
    ///
    /// # Errors
    ///
    /// 20, 1, 2, 9, 10.
    pub fn value(&self, samples: &Samples<'_>, time: StageTime) -> Result<Answer, Refusal> {
        self.value_read(samples, time).map(|read| read.value)
    }

    /// [`value`](Self::value), and the sample that it was read from. A missing value that was found at another start has
    /// that start's clip; one that is held has what was read where it is held from.
    ///
    /// ```
    /// use tavitrozy::{Answer, Explicit, Resolver, SampleLists, SampleRead, StageTime};
    ///
    /// let mut resolver = Resolver::new();
    /// resolver.accept(&Explicit::new(2).starts(&[0.0, 10.0], &[0.0, 1.0]))?;
    /// let mut clips = SampleLists::new();
    /// clips.push_clip([(0.0, Some(1.0)), (5.0, Some(2.0))]);
    /// clips.push_clip([(10.0, Some(3.0)), (20.0, None)]);
    ///
    /// let read = resolver.value_read(&clips.lent(), StageTime(12.0))?;
    /// assert_eq!(read.value, Answer::Value(3.0));
    /// assert_eq!(read.sample, Some(SampleRead { clip: 1, place: 0 }));
    /// assert_eq!(resolver.value_read(&clips.lent(), StageTime(20.0))?.sample, None); // blocked
    /// # Ok::<(), tavitrozy::Refusal>(())
    /// ```
    ///
    /// # Errors
    ///
    /// 20, 1, 2, 9, 10.
    pub fn value_read(&self, samples: &Samples<'_>, time: StageTime) -> Result<ValueRead, Refusal> {
        let reply = asked_with!(tavitrozy_lent_value, self, samples, ffi::AtStage { value: time.0 });
        let sample = reply.sampled.then_some(SampleRead { clip: reply.clip, place: reply.place });
        Refusal::checked(reply.number, ValueRead { value: Answer::of_mark(reply.mark, reply.value), sample })
    }

    /// What the set says without a time.
    ///
    /// # Errors
    ///
    /// 20, 1, 2, 9.
    pub fn untimed(&self, samples: &Samples<'_>) -> Result<State, Refusal> {
        let reply = asked_with!(tavitrozy_lent_untimed, self, samples);
        let state = match reply.state {
            0 => State::Present,
            1 => State::Blocked,
            _ => State::Absent,
        };
        Refusal::checked(reply.number, state)
    }

    /// How many stage sample times there are, and stage samples.
    ///
    /// # Errors
    ///
    /// 20, 1, 2, 9.
    pub fn stage_sample_count(&self, samples: &Samples<'_>) -> Result<usize, Refusal> {
        let reply = asked_with!(tavitrozy_lent_stage_sample_count, self, samples);
        Refusal::checked(reply.number, reply.count)
    }

    /// The stage times at which samples lie, ascending.
    ///
    /// # Errors
    ///
    /// 20, 1, 2, 9.
    pub fn stage_sample_times(&self, samples: &Samples<'_>) -> Result<Vec<StageTime>, Refusal> {
        let mut times = vec![0.0; self.stage_sample_count(samples)?];
        self.stage_sample_times_into(samples, &mut times)?;
        Ok(times.into_iter().map(StageTime).collect())
    }

    /// [`stage_sample_times`](Self::stage_sample_times) written to the front of a lent list; how many there are.
    ///
    /// # Errors
    ///
    /// 20, 1, 2, 9, 22.
    pub fn stage_sample_times_into(&self, samples: &Samples<'_>, times: &mut [f64]) -> Result<usize, Refusal> {
        let reply = asked_with!(tavitrozy_lent_stage_sample_times, self, samples, times.as_mut_ptr(), times.len());
        Refusal::checked(reply.number, reply.count)
    }

    /// The stage times at which samples lie, and what is supplied at each.
    ///
    /// # Errors
    ///
    /// 20, 1, 2, 9.
    pub fn stage_samples(&self, samples: &Samples<'_>) -> Result<Vec<(StageTime, Supplied)>, Refusal> {
        let count = self.stage_sample_count(samples)?;
        let (mut times, mut marks) = (vec![0.0; count], vec![0; count]);
        self.stage_samples_into(samples, &mut times, &mut marks)?;
        let supplied = |mark| if mark == mark::VALUE { Supplied::Opaque } else { Supplied::Blocked };
        Ok(times.into_iter().map(StageTime).zip(marks.into_iter().map(supplied)).collect())
    }

    /// [`stage_samples`](Self::stage_samples) written to the front of lent lists, as times and [marks](crate::mark); how
    /// many there are.
    ///
    /// # Errors
    ///
    /// 20, 1, 2, 9, 22.
    pub fn stage_samples_into(
        &self,
        samples: &Samples<'_>,
        times: &mut [f64],
        marks: &mut [u8],
    ) -> Result<usize, Refusal> {
        let reply = asked_with!(
            tavitrozy_lent_stage_samples,
            self,
            samples,
            times.as_mut_ptr(),
            times.len(),
            marks.as_mut_ptr(),
            marks.len()
        );
        Refusal::checked(reply.number, reply.count)
    }

    /// How many changes the track has.
    ///
    /// # Errors
    ///
    /// 20, 1, 2, 9.
    pub fn change_count(&self, samples: &Samples<'_>) -> Result<usize, Refusal> {
        let reply = asked_with!(tavitrozy_lent_change_count, self, samples);
        Refusal::checked(reply.number, reply.count)
    }

    /// The whole answer as one track: what holds first, and every change at the very double where the value changes.
    /// Value zero is written 0.0, and from -0.0 to 0.0 is no change.
    ///
    /// # Errors
    ///
    /// 20, 1, 2, 9.
    pub fn bake(&self, samples: &Samples<'_>) -> Result<Track, Refusal> {
        // Enough where the knots do not turn back; if the count were asked for first, most bakes would take 1.5 to 2 times
        // as long.
        let starts = self.standing().map_or(0, |set| set.start_times.len());
        match self.bake_with_room(samples, samples.times.len().min(limit::SAMPLES) + starts) {
            Err(Refusal::NoRoom) => self.bake_with_room(samples, self.change_count(samples)?),
            baked => baked,
        }
    }

    fn bake_with_room(&self, samples: &Samples<'_>, room: usize) -> Result<Track, Refusal> {
        let bake = |times: &mut [f64], values: &mut [f64], marks: &mut [u8]| {
            self.bake_into(samples, times, values, marks).map(|(head, count)| (head, count, ()))
        };
        Track::with_room(room, bake).map(|(track, ())| track)
    }

    /// [`bake`](Self::bake) written to the front of lent lists: the head, and how many changes there are. Slots past the
    /// changes are left as they are.
    ///
    /// # Errors
    ///
    /// 20, 1, 2, 9, and 22 exactly where the shortest list has fewer slots than there are changes.
    pub fn bake_into(
        &self,
        samples: &Samples<'_>,
        times: &mut [f64],
        values: &mut [f64],
        marks: &mut [u8],
    ) -> Result<(Answer, usize), Refusal> {
        let reply = asked_with!(
            tavitrozy_lent_bake,
            self,
            samples,
            times.as_mut_ptr(),
            times.len(),
            values.as_mut_ptr(),
            values.len(),
            marks.as_mut_ptr(),
            marks.len()
        );
        Refusal::checked(reply.number, (Answer::of_mark(reply.mark, reply.value), reply.count))
    }
}

impl Default for Resolver {
    fn default() -> Self {
        Resolver::new()
    }
}

impl std::fmt::Debug for Resolver {
    fn fmt(&self, f: &mut std::fmt::Formatter<'_>) -> std::fmt::Result {
        f.debug_tuple("Resolver").field(&self.standing()).finish()
    }
}
