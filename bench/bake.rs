//! The plain Rust bake: what the library's bake is held against. The track of docs/VALUE-CLIPS.md, walked by cells: from
//! one time at which the source of the value may change to the next. It has the library's contract: the changes are
//! counted first, and a refusal alters no lent list.

use crate::calls::Samples;
use crate::doubles::{at, place};
use crate::numbers::{self, Refusal};
use crate::plain::{ABSENT, Answer, BLOCKED, Set, along, number};

type Knot = (f64, f64);

/// The stage time at which a segment reaches a clip time, by the inverse formula.
fn inverse((sa, ca): Knot, (sb, cb): Knot, c: f64) -> f64 {
    sa + (c - ca) / (cb - ca) * (sb - sa)
}

/// What leads from stage to clip time inside a cell.
#[derive(Clone, Copy)]
enum Line {
    Identity,
    Flat(f64),
    Segment(Knot, Knot),
}

impl Line {
    fn clip_time(self, t: f64) -> f64 {
        match self {
            Line::Identity => t,
            Line::Flat(y) => y,
            Line::Segment(a, b) => along(a, b, t),
        }
    }

    fn stage_time(self, c: f64) -> f64 {
        match self {
            Line::Segment(a, b) => inverse(a, b, c),
            Line::Identity | Line::Flat(_) => c,
        }
    }
}

/// A clip's samples; there is at least one.
#[derive(Clone, Copy)]
struct Clip<'a> {
    times: &'a [f64],
    values: &'a [f64],
    marks: &'a [u8],
}

impl Clip<'_> {
    fn answer(&self, place: usize) -> Answer {
        if self.marks[place] == 0 { number(self.values[place]) } else { BLOCKED }
    }

    /// The held reading's place, looked for from a hint outward.
    fn held(&self, clip_time: f64, hint: usize) -> usize {
        let (mut lo, mut hi, mut step) = (hint, hint + 1, 1);
        if self.times[hint] <= clip_time {
            while hi < self.times.len() && self.times[hi] <= clip_time {
                lo = hi;
                hi = (hi + step).min(self.times.len());
                step *= 2;
            }
        } else {
            (lo, hi) = (hint.saturating_sub(1), hint);
            while lo > 0 && self.times[lo] > clip_time {
                hi = lo;
                lo = lo.saturating_sub(step);
                step *= 2;
            }
        }
        lo + self.times[lo..hi].partition_point(|&c| c <= clip_time).max(1) - 1
    }
}

/// The inverse times of the segment at hand that the clip's samples have, ascending; `upcoming` is the first above t.
struct Inverses<'a> {
    line: Line,
    /// The samples that the segment spans.
    spanned: &'a [f64],
    rising: bool,
    next: usize,
    upcoming: f64,
}

impl<'a> Inverses<'a> {
    fn new(line: Line, clip: Clip<'a>, t: f64) -> Self {
        let (low, high, rising) = match line {
            Line::Identity => (f64::MIN, f64::MAX, true),
            Line::Segment(a, b) if a.1 != b.1 => (a.1.min(b.1), a.1.max(b.1), a.1 < b.1),
            _ => (f64::MAX, f64::MIN, true),
        };
        let from = clip.times.partition_point(|&c| c < low);
        let to = clip.times.partition_point(|&c| c <= high).max(from);
        let mut inverses = Inverses { line, spanned: &clip.times[from..to], rising, next: 0, upcoming: f64::INFINITY };
        let (mut lo, mut hi) = (0, inverses.spanned.len());
        while lo < hi {
            let middle = (lo + hi) / 2;
            if inverses.at(middle) <= t { lo = middle + 1 } else { hi = middle }
        }
        inverses.next = lo;
        inverses.upcoming = inverses.at(lo);
        inverses
    }

    /// The i-th inverse time, infinity behind the last.
    fn at(&self, i: usize) -> f64 {
        let n = self.spanned.len();
        match (i < n, self.rising) {
            (false, _) => f64::INFINITY,
            (true, true) => self.line.stage_time(self.spanned[i]),
            (true, false) => self.line.stage_time(self.spanned[n - 1 - i]),
        }
    }

    fn pass(&mut self, t: f64) {
        while self.upcoming <= t && self.next < self.spanned.len() {
            self.next += 1;
            self.upcoming = self.at(self.next);
        }
    }
}

/// The least place in (lo, hi] at which a monotone test says yes; it says yes at hi. Galloping from a guess, then bisection.
fn first(mut lo: i64, mut hi: i64, guess: i64, test: impl Fn(f64) -> bool) -> i64 {
    let guess = guess.clamp(lo + 1, hi);
    let down = test(at(guess));
    if down {
        hi = guess
    } else {
        lo = guess
    }
    let mut step = 1i64;
    while lo + 1 < hi {
        let probe = if down { hi.saturating_sub(step).max(lo + 1) } else { lo.saturating_add(step).min(hi - 1) };
        let yes = test(at(probe));
        if yes {
            hi = probe
        } else {
            lo = probe
        }
        if yes != down {
            break;
        }
        step = step.saturating_mul(2);
    }
    while lo + 1 < hi {
        let middle = (lo & hi) + ((lo ^ hi) >> 1);
        if test(at(middle)) { hi = middle } else { lo = middle }
    }
    hi
}

/// What of a set and its samples no walk changes.
struct Facts<'a> {
    set: &'a Set,
    samples: &'a Samples,
    contributes: Vec<bool>,
    /// Segments whose inverse times may pass the upper knot by rounding, by their lower knot, with the greatest such time.
    late: Vec<(usize, f64)>,
}

impl<'a> Facts<'a> {
    fn new(set: &'a Set, samples: &'a Samples) -> Self {
        let filling = &set.filling;
        let blocked = |t: f64| filling.flag && filling.blocks.contains(&t);
        let greatest = |i: usize| set.knots[i].0 + (set.knots[i + 1].0 - set.knots[i].0);
        let segments = 0..set.knots.len().saturating_sub(1);
        Facts {
            set,
            samples,
            contributes: set.starts.iter().map(|start| !blocked(start.0)).collect(),
            late: segments.map(|i| (i, greatest(i))).filter(|&(i, t)| t > set.knots[i + 1].0).collect(),
        }
    }

    /// The samples of the clip of start p, if it contributes any.
    fn clip(&self, p: usize) -> Option<Clip<'a>> {
        let clip = self.set.starts[p].1;
        let from = if clip == 0 { 0 } else { self.samples.ends[clip - 1] as usize };
        let places = from..self.samples.ends[clip] as usize;
        let (times, values) = (&self.samples.times[places.clone()], &self.samples.values[places.clone()]);
        (self.contributes[p] && !places.is_empty()).then(|| Clip { times, values, marks: &self.samples.marks[places] })
    }

    /// The answer where the clip of start p gives no reading.
    fn gap(&self, p: usize) -> Answer {
        let filling = &self.set.filling;
        if filling.mark == 0 {
            return number(filling.value);
        }
        let found =
            |q: usize| self.clip(q).map(|clip| clip.answer(clip.held(self.set.clip_time(self.set.starts[q].0), 0)));
        let nearest = || (0..p).rev().find_map(found).or_else(|| (p + 1..self.set.starts.len()).find_map(found));
        filling.flag.then(nearest).flatten().unwrap_or(BLOCKED)
    }

    /// The window's inverse times that pass their segment's upper knot, ascending.
    fn late(&self, p: usize, clip: Clip<'_>) -> Vec<f64> {
        let start = if p == 0 { f64::MIN } else { self.set.starts[p].0 };
        let next = self.set.starts.get(p + 1).map_or(f64::INFINITY, |next| next.0);
        let mut times = Vec::new();
        for &(i, greatest) in &self.late {
            let (a, b) = (self.set.knots[i], self.set.knots[i + 1]);
            if greatest >= start && b.0 < next {
                let inverses = Inverses::new(Line::Segment(a, b), clip, b.0);
                let passing = (inverses.next..inverses.spanned.len()).map(|i| inverses.at(i));
                times.extend(passing.filter(|&t| start <= t && t < next));
            }
        }
        times.sort_unstable_by(f64::total_cmp);
        times
    }
}

/// The walk over all cells, upward; each change is handed to `each`.
struct Walk<'a, F: FnMut(f64, Answer)> {
    facts: &'a Facts<'a>,
    each: F,
    head: Answer,
    last: Answer,
    /// How many knots have x ≤ t.
    knots: usize,
    /// The last reading's place.
    place: usize,
}

impl<F: FnMut(f64, Answer)> Walk<'_, F> {
    /// The value from t on.
    fn say(&mut self, t: f64, answer: Answer) {
        if t == f64::MIN {
            self.head = answer.written();
        } else if !answer.alike(self.last) {
            (self.each)(at(place(t)), answer.written());
        }
        self.last = answer;
    }

    /// The line at t, which is not below the t before.
    fn line(&mut self, t: f64) -> Line {
        let knots = &self.facts.set.knots;
        while self.knots < knots.len() && knots[self.knots].0 <= t {
            self.knots += 1;
        }
        match self.knots {
            0 if knots.is_empty() => Line::Identity,
            0 => Line::Flat(knots[0].1),
            k if k == knots.len() => Line::Flat(knots[k - 1].1),
            k => Line::Segment(knots[k - 1], knots[k]),
        }
    }

    /// The x of the least knot above t, and whether two share it.
    fn next_knot(&self) -> (f64, bool) {
        let knots = &self.facts.set.knots[self.knots..];
        let x = knots.first().map_or(f64::INFINITY, |knot| knot.0);
        (x, knots.get(1).is_some_and(|knot| knot.0 == x))
    }

    /// A reading cell: the doubles above t and below `end` that read another sample than the one before.
    fn reading(&mut self, clip: Clip<'_>, line: Line, t: f64, end: f64) {
        let last = if end == f64::INFINITY { place(f64::MAX) } else { place(end) - 1 };
        let last_place = clip.held(line.clip_time(at(last)), self.place);
        let rising = last_place > self.place;
        let mut from = place(t);
        while self.place != last_place {
            let threshold = clip.times[self.place + usize::from(rising)];
            let guess = place(line.stage_time(threshold));
            from = first(from, last, guess, |u| (line.clip_time(u) >= threshold) == rising);
            let hint = if rising { self.place + 1 } else { self.place - 1 };
            self.place = clip.held(line.clip_time(at(from)), hint);
            self.say(at(from), clip.answer(self.place));
        }
    }

    /// One start: a reading cell from knot to knot.
    fn alone(&mut self, clip: Clip<'_>) {
        let mut t = f64::MIN;
        while t < f64::INFINITY {
            let line = self.line(t);
            self.place = clip.held(line.clip_time(t), self.place);
            self.say(t, clip.answer(self.place));
            let (end, _) = self.next_knot();
            self.reading(clip, line, t, end);
            t = end;
        }
    }

    /// The window of start p: constant from one gathered time to the next, a reading cell before a jump.
    fn window(&mut self, p: usize, clip: Clip<'_>) {
        let starts = &self.facts.set.starts;
        let next = starts.get(p + 1).map_or(f64::INFINITY, |next| next.0);
        let mut t = if p == 0 { f64::MIN } else { starts[p].0 };
        let mut line = self.line(t);
        let (mut knots, mut inverses) = (self.knots, Inverses::new(line, clip, t));
        let mut late = self.facts.late(p, clip).into_iter().peekable();
        self.place = 0;
        while t < next {
            self.place = clip.held(line.clip_time(t), self.place);
            self.say(t, clip.answer(self.place));
            while late.next_if(|&time| time <= t).is_some() {}
            let (x, jump) = self.next_knot();
            let mut end = next.min(x).min(inverses.upcoming).min(late.peek().copied().unwrap_or(f64::INFINITY));
            if t < starts[p].0 {
                end = end.min(starts[p].0);
            }
            if jump && x == end {
                self.reading(clip, line, t, end);
            }
            t = end;
            line = self.line(t);
            if self.knots == knots {
                inverses.pass(t);
            } else {
                (knots, inverses) = (self.knots, Inverses::new(line, clip, t));
            }
        }
    }
}

/// Hands every change to `each`, ascending; the head.
fn walk(facts: &Facts<'_>, each: impl FnMut(f64, Answer)) -> Answer {
    let starts = &facts.set.starts;
    let mut walk = Walk { facts, each, head: ABSENT, last: ABSENT, knots: 0, place: 0 };
    for p in 0..starts.len() {
        match facts.clip(p) {
            Some(clip) if starts.len() == 1 => walk.alone(clip),
            Some(clip) => walk.window(p, clip),
            None => walk.say(if p == 0 { f64::MIN } else { starts[p].0 }, facts.gap(p)),
        }
    }
    walk.head
}

/// The track, written to the front of the lent lists; head and count, or the number that refuses it.
pub fn bake(
    set: &Set,
    samples: &Samples,
    times: &mut [f64],
    values: &mut [f64],
    marks: &mut [u8],
) -> Result<(Answer, usize), Refusal> {
    numbers::samples(samples, set.clips)?;
    let facts = Facts::new(set, samples);
    let mut count = 0;
    let head = walk(&facts, |_, _| count += 1);
    let room = times.len().min(values.len()).min(marks.len());
    numbers::room(room as u64, count)?;
    let mut i = 0;
    walk(&facts, |time, answer| {
        (times[i], values[i], marks[i]) = (time, f64::from_bits(answer.bits), answer.mark);
        i += 1;
    });
    Ok((head, count))
}
