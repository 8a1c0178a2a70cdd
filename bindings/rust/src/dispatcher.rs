//! The dispatcher: several sets on one part, each under its name, and the two questions that one of them answers.

use crate::{Answer, Explicit, Fallback, LayerOffset, Order, Prepared, Refusal, SampleRead, SetSamples};
use crate::{StageTime, StandingSet, Template, Track, ValueRead};
use crate::{ffi, limit};

/// Holds up to 16 sets, each under a name, and takes value and track from one of them: the first in an order that has starts
/// and whose manifest declares the attribute. A refused call leaves it as it was.
///
/// The order is that of an [`Order`] list, if one is given, and else the byte order of the names. Sets are accepted or
/// installed one by one and stay: none is replaced or removed. A name may have any bytes, at most 255. The samples of **all**
/// sets are lent with each question, in the order of acceptance, and all are checked.
///
/// It stands beside any [`Resolver`](crate::Resolver), and neither touches the other. Its 234 KB are on the heap; a question
/// copies nothing of them, and several threads may ask the same dispatcher at once.
///
/// ```
/// use tavitrozy::{Answer, Dispatcher, Explicit, Order, SampleLists, SetSampleLists, StageTime};
///
/// let mut hinge = Dispatcher::new();
/// hinge.accept(b"coarse", true, &Explicit::new(1).starts(&[0.0], &[0.0]))?;
/// hinge.accept(b"fine", true, &Explicit::new(1).starts(&[0.0], &[0.0]))?;
/// let (mut coarse, mut fine) = (SampleLists::new(), SampleLists::new());
/// coarse.push_clip([(0.0, Some(10.0))]);
/// fine.push_clip([(0.0, Some(9.5)), (1.0, Some(10.5))]);
/// let mut lists = SetSampleLists::new();
/// lists.push_set(&coarse);
/// lists.push_set(&fine);
///
/// // Without an order list: by their names, and `coarse` comes before `fine`.
/// let by_name = hinge.value(None, &lists.lent(), StageTime(1.0))?;
/// assert_eq!((by_name.reply, by_name.set), (Answer::Value(10.0), Some(0)));
///
/// let order = Order::of_names(["fine", "coarse"]);
/// let track = hinge.bake(Some(&order), &lists.lent())?;
/// assert_eq!(track.set, Some(0));
/// assert_eq!(track.reply.read(StageTime(1.0)), Answer::Value(10.5));
/// # Ok::<(), tavitrozy::Refusal>(())
/// ```
#[derive(Clone)]
pub struct Dispatcher {
    pages: ffi::Pages,
}

/// What a dispatcher replies: what the answering set replies, and which set that is.
#[derive(Clone, Copy, Debug, PartialEq, Eq, Hash)]
pub struct Placed<T> {
    /// The place, from 0, of the set that answers in the order in force: that of the order list without names that no set
    /// has, each name counted once, or the byte order of all names. Sets that do not qualify are counted.
    ///
    /// `None`: no set qualifies. The answer is then [`Answer::Absent`].
    pub set: Option<usize>,
    /// The answering set's reply.
    pub reply: T,
}

/// A set of a dispatcher.
#[derive(Clone, Copy, Debug)]
pub struct NamedSet<'a> {
    /// Its name.
    pub name: &'a [u8],
    /// Whether its manifest declares the attribute.
    pub declares: bool,
    /// The set, moved by every retiming under its name.
    pub set: StandingSet<'a>,
}

/// A call of the library with the pages, each as the pointer that this method gives and its length, and the rest.
macro_rules! lent {
    ($call:ident, $pages:expr, $pointer:ident $(, $rest:expr)*) => {
        // SAFETY: each pointer comes with its own list's length. The lists are those that calls of the library made, since
        // nothing else writes them. Where they are written they are borrowed for that, so no list of the arguments overlaps
        // them; outputs are borrowed for writing, so none overlaps. A prepared set is one that examining handed back.
        unsafe {
            ffi::$call(
                $pages.starts.$pointer(),
                $pages.starts.len(),
                $pages.numbers.$pointer(),
                $pages.numbers.len(),
                $pages.xs.$pointer(),
                $pages.xs.len(),
                $pages.ys.$pointer(),
                $pages.ys.len(),
                $pages.blocks.$pointer(),
                $pages.blocks.len(),
                $pages.defaults.$pointer(),
                $pages.defaults.len(),
                $pages.counts.$pointer(),
                $pages.counts.len(),
                $pages.bytes.$pointer(),
                $pages.bytes.len()
                $(, $rest)*
            )
        }
    };
}

/// A call that may change the dispatcher, with the name.
macro_rules! named {
    ($call:ident, $dispatcher:expr, $name:expr $(, $rest:expr)*) => {{
        let pages = &mut $dispatcher.pages;
        let number = lent!($call, pages, as_mut_ptr, $name.as_ptr(), $name.len() $(, $rest)*);
        Refusal::checked(number, ())
    }};
}

/// A question, with the order list and the samples.
macro_rules! asked {
    ($call:ident, $dispatcher:expr, $order:expr, $samples:expr $(, $rest:expr)*) => {{
        let pages = &$dispatcher.pages;
        let (listed, name_ends) = $order.map_or((&[][..], &[][..]), |order| (order.names(), order.ends()));
        let SetSamples { counts, ends, times, values, marks } = *$samples;
        lent!(
            $call, pages, as_ptr, $order.is_some(), listed.as_ptr(), listed.len(), name_ends.as_ptr(), name_ends.len(),
            counts.as_ptr(), counts.len(), ends.as_ptr(), ends.len(), times.as_ptr(), times.len(),
            values.as_ptr(), values.len(), marks.as_ptr(), marks.len() $(, $rest)*
        )
    }};
}

impl Dispatcher {
    /// A dispatcher that holds no set.
    ///
    /// # Panics
    ///
    /// If the library that is linked has dispatchers of another size: it is not the version that this crate was written for.
    #[must_use]
    pub fn new() -> Dispatcher {
        let doubles = |count: usize| vec![0.0; count].into_boxed_slice();
        let mut pages = ffi::Pages {
            starts: doubles(limit::SETS * limit::STARTS),
            numbers: vec![0; limit::SETS * limit::STARTS].into_boxed_slice(),
            xs: doubles(limit::SETS * limit::KNOTS),
            ys: doubles(limit::SETS * limit::KNOTS),
            blocks: doubles(limit::SETS * limit::BLOCKS),
            defaults: doubles(limit::SETS),
            counts: vec![0; 1 + 5 * limit::SETS].into_boxed_slice(),
            bytes: vec![0; limit::SETS * (NAME_PAGE + 3)].into_boxed_slice(),
        };
        let sized = lent!(tavitrozy_sets_fresh, pages, as_mut_ptr);
        assert!(
            sized,
            "the library has dispatchers of another size: it is not the version that this crate was written for"
        );
        Dispatcher { pages }
    }

    /// Takes an explicit set under a name; `declares` says whether its manifest declares the attribute.
    ///
    /// # Errors
    ///
    /// 23, 1, 2, 3, 4, 5.
    pub fn accept(&mut self, name: &[u8], declares: bool, set: &Explicit<'_>) -> Result<(), Refusal> {
        self.accept_marked(name, declares, set, set.fallback.marked().mark)
    }

    /// [`accept`](Self::accept) with any byte as the default's mark, so that 9 can be asked for: for tests of the library.
    #[doc(hidden)]
    pub fn accept_marked(
        &mut self,
        name: &[u8],
        declares: bool,
        set: &Explicit<'_>,
        default_mark: u8,
    ) -> Result<(), Refusal> {
        named!(
            tavitrozy_sets_accept,
            self,
            name,
            declares,
            set.clips,
            set.start_times.as_ptr(),
            set.start_times.len(),
            set.start_clips.as_ptr(),
            set.start_clips.len(),
            set.knot_xs.as_ptr(),
            set.knot_xs.len(),
            set.knot_ys.as_ptr(),
            set.knot_ys.len(),
            set.blocks.as_ptr(),
            set.blocks.len(),
            ffi::Marked { mark: default_mark, ..set.fallback.marked() },
            set.interpolate
        )
    }

    /// Takes a template set under a name.
    ///
    /// # Errors
    ///
    /// 23, 1, 2, 7, 6, 8, then 2, 4 and 5 for what the template expands to.
    pub fn accept_template(&mut self, name: &[u8], declares: bool, set: &Template<'_>) -> Result<(), Refusal> {
        self.accept_template_marked(name, declares, set, set.fallback.marked().mark)
    }

    /// [`accept_template`](Self::accept_template) with any byte as the default's mark: for tests of the library.
    #[doc(hidden)]
    pub fn accept_template_marked(
        &mut self,
        name: &[u8],
        declares: bool,
        set: &Template<'_>,
        default_mark: u8,
    ) -> Result<(), Refusal> {
        let (times, has_offset) = set.times.lent();
        named!(
            tavitrozy_sets_accept_template,
            self,
            name,
            declares,
            set.pattern.as_ptr(),
            set.pattern.len(),
            times,
            has_offset,
            set.blocks.as_ptr(),
            set.blocks.len(),
            ffi::Marked { mark: default_mark, ..set.fallback.marked() },
            set.interpolate
        )
    }

    /// Puts a prepared set under a name. The set stays as it was prepared, and may go under several names.
    ///
    /// [`accept`](Self::accept) looks for 23 first, then it is the examining and, if that is not refused, this.
    ///
    /// # Errors
    ///
    /// 23.
    pub fn install(&mut self, name: &[u8], declares: bool, set: &Prepared) -> Result<(), Refusal> {
        named!(tavitrozy_sets_install, self, name, declares, set.lent())
    }

    /// Moves the starts, knots and block times of the set of that name, as [`Resolver::retime`](crate::Resolver::retime) does.
    ///
    /// # Errors
    ///
    /// 20, if no set has the name; 2, 4, 5. What earlier retimings left stays.
    pub fn retime(&mut self, name: &[u8], offset: LayerOffset) -> Result<(), Refusal> {
        let LayerOffset { offset, scale } = offset;
        named!(tavitrozy_sets_retime, self, name, ffi::LayerOffset { offset, scale })
    }

    /// The sets, in the order of acceptance.
    #[must_use]
    pub fn sets(&self) -> impl ExactSizeIterator<Item = NamedSet<'_>> + '_ {
        (0..self.count(0)).map(|i| self.set(i))
    }

    /// What stands at a place of the counts.
    fn count(&self, place: usize) -> usize {
        as_usize(self.pages.counts[place])
    }

    /// The i-th set, as tavitrozy.h says where it lies.
    fn set(&self, i: usize) -> NamedSet<'_> {
        let pages = &self.pages;
        // How many clips, starts, knots and blocks: a count for each set, one kind after the other.
        let [clips, starts, knots, blocks] = [0, 1, 2, 3].map(|kind| self.count(1 + kind * limit::SETS + i));
        // Behind the names the default's mark, the flag and whether it declares, likewise.
        let [mark, interpolate, declares] =
            [0, 1, 2].map(|kind| pages.bytes[limit::SETS * NAME_PAGE + kind * limit::SETS + i]);
        let name = &pages.bytes[i * NAME_PAGE..][..NAME_PAGE];
        let set = StandingSet {
            clips: clips as u64,
            start_times: &pages.starts[i * limit::STARTS..][..starts],
            start_clips: &pages.numbers[i * limit::STARTS..][..starts],
            knot_xs: &pages.xs[i * limit::KNOTS..][..knots],
            knot_ys: &pages.ys[i * limit::KNOTS..][..knots],
            blocks: &pages.blocks[i * limit::BLOCKS..][..blocks],
            fallback: Fallback::of_marked(ffi::Marked { mark, value: pages.defaults[i] }),
            interpolate: interpolate != 0,
        };
        NamedSet { name: &name[1..][..usize::from(name[0])], declares: declares != 0, set }
    }

    /// What the attribute is at a stage time, by the set that answers.
    ///
    /// # Errors
    ///
    /// 23, 1, 2, 9, 10.
    pub fn value(
        &self,
        order: Option<&Order<'_>>,
        samples: &SetSamples<'_>,
        time: StageTime,
    ) -> Result<Placed<Answer>, Refusal> {
        self.value_read(order, samples, time).map(|Placed { set, reply }| Placed { set, reply: reply.value })
    }

    /// [`value`](Self::value), and the sample that it was read from: clip and place are those within the answering set's own
    /// samples.
    ///
    /// # Errors
    ///
    /// 23, 1, 2, 9, 10.
    pub fn value_read(
        &self,
        order: Option<&Order<'_>>,
        samples: &SetSamples<'_>,
        time: StageTime,
    ) -> Result<Placed<ValueRead>, Refusal> {
        let ffi::PlacedValue { reply, placed, set } =
            asked!(tavitrozy_sets_value, self, order, samples, ffi::AtStage { value: time.0 });
        let sample = reply.sampled.then_some(SampleRead { clip: reply.clip, place: reply.place });
        let read = ValueRead { value: Answer::of_mark(reply.mark, reply.value), sample };
        Refusal::checked(reply.number, Placed { set: placed.then(|| as_usize(set)), reply: read })
    }

    /// The whole answer of the set that answers as one track. Where no set qualifies its head is absent.
    ///
    /// # Errors
    ///
    /// 23, 1, 2, 9.
    pub fn bake(&self, order: Option<&Order<'_>>, samples: &SetSamples<'_>) -> Result<Placed<Track>, Refusal> {
        // Enough where the knots do not turn back. Otherwise room is added until the track fits: a bake that has none stops
        // to count there, so that all those together take less time than the one that fits.
        let mut room = samples.times.len().min(limit::SAMPLES) + limit::STARTS;
        loop {
            match self.bake_with_room(order, samples, room) {
                Err(Refusal::NoRoom) => room *= 4,
                baked => return baked,
            }
        }
    }

    fn bake_with_room(
        &self,
        order: Option<&Order<'_>>,
        samples: &SetSamples<'_>,
        room: usize,
    ) -> Result<Placed<Track>, Refusal> {
        let bake = |times: &mut [f64], values: &mut [f64], marks: &mut [u8]| {
            let Placed { set, reply: (head, count) } = self.bake_into(order, samples, times, values, marks)?;
            Ok((head, count, set))
        };
        Track::with_room(room, bake).map(|(track, set)| Placed { set, reply: track })
    }

    /// [`bake`](Self::bake) written to the front of lent lists: the head, and how many changes there are. Slots past the
    /// changes are left as they are.
    ///
    /// # Errors
    ///
    /// 23, 1, 2, 9, and 22 exactly where the shortest list has fewer slots than the track of the set that answers has changes.
    pub fn bake_into(
        &self,
        order: Option<&Order<'_>>,
        samples: &SetSamples<'_>,
        times: &mut [f64],
        values: &mut [f64],
        marks: &mut [u8],
    ) -> Result<Placed<(Answer, usize)>, Refusal> {
        let ffi::PlacedBaked { reply, placed, set } = asked!(
            tavitrozy_sets_bake,
            self,
            order,
            samples,
            times.as_mut_ptr(),
            times.len(),
            values.as_mut_ptr(),
            values.len(),
            marks.as_mut_ptr(),
            marks.len()
        );
        let baked = (Answer::of_mark(reply.mark, reply.value), reply.count);
        Refusal::checked(reply.number, Placed { set: placed.then(|| as_usize(set)), reply: baked })
    }
}

/// The bytes that a name has room in: its length, then its bytes.
const NAME_PAGE: usize = limit::SET_NAME_BYTES + 1;

/// A count of the library: it is of things in memory.
fn as_usize(count: u64) -> usize {
    usize::try_from(count).expect("a count of things in memory")
}

impl Default for Dispatcher {
    fn default() -> Self {
        Dispatcher::new()
    }
}

impl std::fmt::Debug for Dispatcher {
    fn fmt(&self, f: &mut std::fmt::Formatter<'_>) -> std::fmt::Result {
        f.debug_list().entries(self.sets()).finish()
    }
}
