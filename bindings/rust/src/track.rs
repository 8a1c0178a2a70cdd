//! Answers, and the track that a bake gives.

use crate::ffi;
use crate::{StageTime, mark};

/// What an attribute is at a stage time.
///
/// Two answers are equal if they are alike, as a track counts it: the same variant and, of values, the same number. So
/// 0.0 and -0.0 are equal. The value question keeps a zero's sign: to tell it, compare `value().map(f64::to_bits)`.
#[derive(Clone, Copy, Debug)]
pub enum Answer {
    /// This value is drawn.
    Value(f64),
    /// A block: nothing is drawn.
    Blocked,
    /// The set has no starts and says nothing; of a dispatcher, that no set qualifies.
    Absent,
}

impl Answer {
    /// The value, if there is one.
    #[must_use]
    pub fn value(self) -> Option<f64> {
        match self {
            Answer::Value(value) => Some(value),
            Answer::Blocked | Answer::Absent => None,
        }
    }

    pub(crate) fn of_mark(mark: u8, value: f64) -> Answer {
        match mark {
            mark::VALUE => Answer::Value(value),
            mark::BLOCK => Answer::Blocked,
            _ => Answer::Absent,
        }
    }

    /// As a track writes it: value zero as 0.0.
    fn written(self) -> Answer {
        match self {
            // Both zeros are equal to this one.
            Answer::Value(0.0) => Answer::Value(0.0),
            other => other,
        }
    }

    /// The [mark](crate::mark) and the value slot, 0.0 where there is no value.
    #[must_use]
    pub fn marked(self) -> (u8, f64) {
        match self {
            Answer::Value(value) => (mark::VALUE, value),
            Answer::Blocked => (mark::BLOCK, 0.0),
            Answer::Absent => (mark::NONE, 0.0),
        }
    }
}

impl PartialEq for Answer {
    fn eq(&self, other: &Self) -> bool {
        // Of numbers as written the bits decide. A NaN, which no answer of the library holds, thus still equals itself.
        let bits = |answer: &Answer| {
            let (mark, value) = answer.written().marked();
            (mark, value.to_bits())
        };
        bits(self) == bits(other)
    }
}

impl Eq for Answer {}

/// A change of a track: from this stage time on, this time included, this holds.
#[derive(Clone, Copy, Debug, PartialEq)]
pub struct Change {
    /// The very double where the value changes.
    pub time: StageTime,
    /// What holds from there on.
    pub answer: Answer,
}

/// A track: what holds first, and every change, ascending. Reading it needs no set, no clip and no samples.
///
/// Zero is written 0.0 throughout, of values and of times. Two tracks are equal if their heads are alike and their changes
/// lie at equal times and are alike; they are then so bit for bit.
#[derive(Clone, Debug)]
pub struct Track {
    head: Answer,
    times: Vec<f64>,
    values: Vec<f64>,
    marks: Vec<u8>,
}

impl Track {
    fn of_lists(head: Answer, times: Vec<f64>, values: Vec<f64>, marks: Vec<u8>) -> Track {
        Track { head, times, values, marks }
    }

    /// What a bake makes of so many slots: the head, the number of changes, and beside them what else it replies.
    pub(crate) fn with_room<T, E>(
        room: usize,
        bake: impl FnOnce(&mut [f64], &mut [f64], &mut [u8]) -> Result<(Answer, usize, T), E>,
    ) -> Result<(Track, T), E> {
        let (mut times, mut values, mut marks) = (vec![0.0; room], vec![0.0; room], vec![0; room]);
        let (head, count, beside) = bake(&mut times, &mut values, &mut marks)?;
        cut(&mut times, count);
        cut(&mut values, count);
        cut(&mut marks, count);
        Ok((Track::of_lists(head, times, values, marks), beside))
    }

    /// A track of a head and changes, for one that was kept somewhere; `None` unless it is such as a bake writes: times
    /// finite and ascending, each change unlike what held before, no NaN, and an absent head without changes. A zero, of a
    /// value or of a time, is written 0.0 as a bake does.
    #[must_use]
    pub fn new(head: Answer, changes: impl IntoIterator<Item = Change>) -> Option<Track> {
        let mut track = Track::of_lists(head.written(), Vec::new(), Vec::new(), Vec::new());
        let is_nan = |answer: Answer| answer.value().is_some_and(f64::is_nan);
        let mut last = Change { time: StageTime(f64::MIN), answer: head };
        for change in changes {
            let absent = head == Answer::Absent || change.answer == Answer::Absent;
            let ascends = change.time.0.is_finite() && change.time > last.time;
            if absent || !ascends || is_nan(change.answer) || change.answer == last.answer {
                return None;
            }
            let (mark, value) = change.answer.written().marked();
            // Time zero is written 0.0.
            track.times.push(change.time.0 + 0.0);
            track.values.push(value);
            track.marks.push(mark);
            last = change;
        }
        (!is_nan(head)).then_some(track)
    }

    /// What holds from the lowest finite double on.
    #[must_use]
    pub fn head(&self) -> Answer {
        self.head
    }

    /// How many changes there are.
    #[must_use]
    pub fn len(&self) -> usize {
        self.times.len()
    }

    /// Whether nothing changes: the head holds at every stage time.
    #[must_use]
    pub fn is_empty(&self) -> bool {
        self.times.is_empty()
    }

    /// The stage time of each change, ascending.
    #[must_use]
    pub fn times(&self) -> &[f64] {
        &self.times
    }

    /// The value of each change, 0.0 for a block. A value zero is 0.0, whatever its sign was.
    #[must_use]
    pub fn values(&self) -> &[f64] {
        &self.values
    }

    /// The [mark](crate::mark) of each change: a value or a block.
    #[must_use]
    pub fn marks(&self) -> &[u8] {
        &self.marks
    }

    /// Each change, ascending.
    #[must_use]
    pub fn changes(&self) -> impl ExactSizeIterator<Item = Change> + '_ {
        let entries = self.times.iter().zip(&self.values).zip(&self.marks);
        entries.map(|((&time, &value), &mark)| Change { time: StageTime(time), answer: Answer::of_mark(mark, value) })
    }

    /// What holds at a stage time: the last change at or before it, else the head.
    ///
    /// ```
    /// use tavitrozy::{Answer, Change, StageTime, Track};
    ///
    /// let change = Change { time: StageTime(20.0), answer: Answer::Value(3.0) };
    /// let track = Track::new(Answer::Value(2.0), [change]).unwrap();
    /// assert_eq!(track.read(StageTime(19.5)), Answer::Value(2.0));
    /// assert_eq!(track.read(StageTime(20.0)), Answer::Value(3.0));
    /// ```
    #[must_use]
    pub fn read(&self, time: StageTime) -> Answer {
        let (mark, value) = self.head.marked();
        let (times, values, marks) = (&self.times, &self.values, &self.marks);
        // SAFETY: each pointer comes with its own list's length.
        let entry = unsafe {
            ffi::tavitrozy_read(
                ffi::Entry { value, mark },
                times.as_ptr(),
                times.len(),
                values.as_ptr(),
                values.len(),
                marks.as_ptr(),
                marks.len(),
                ffi::AtStage { value: time.0 },
            )
        };
        Answer::of_mark(entry.mark, entry.value)
    }
}

/// Keeps the first entries, and no room for more.
fn cut<T>(list: &mut Vec<T>, count: usize) {
    list.truncate(count);
    list.shrink_to_fit();
}

impl PartialEq for Track {
    fn eq(&self, other: &Self) -> bool {
        self.head == other.head && self.changes().eq(other.changes())
    }
}

impl Eq for Track {}
