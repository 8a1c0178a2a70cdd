//! Time taken: medians of rounds, the sides taking turns; and bakes in processes of their own, with a limit on their time.

use std::hint::black_box;
use std::io::Read;
use std::process::{Command, Stdio};
use std::time::{Duration, Instant};

fn seconds(f: impl FnOnce()) -> f64 {
    let began = Instant::now();
    f();
    began.elapsed().as_secs_f64()
}

/// The mean time of one question of `questions`, by each side: the median of five rounds of 0.05 s or more (three, if a
/// round takes long), after a first go that warms up.
pub fn take_turns(questions: usize, sides: &mut [&mut dyn FnMut(usize)]) -> Vec<f64> {
    let warm = |side: &mut &mut dyn FnMut(usize)| {
        side(0);
        let once = seconds(|| side(questions / 2)).max(1e-9) * questions as f64;
        (0.05 / once).ceil() as usize
    };
    let passes: Vec<usize> = sides.iter_mut().map(warm).collect();
    let mut rounds = vec![Vec::new(); sides.len()];
    while rounds[0].len() < if rounds[0].first().is_some_and(|round| round * questions as f64 > 0.5) { 3 } else { 5 } {
        for (i, side) in sides.iter_mut().enumerate() {
            let asked = (0..passes[i]).flat_map(|_| 0..questions);
            let taken = seconds(|| asked.for_each(side));
            rounds[i].push(taken / (passes[i] * questions) as f64);
        }
    }
    rounds.into_iter().map(median).collect()
}

/// As `take_turns` for jobs that eat what they are lent: each side takes a batch of `jobs` and gives its time, as `batch`
/// does. A first round warms up.
pub fn take_batches(jobs: usize, sides: &mut [&mut dyn FnMut() -> f64]) -> Vec<f64> {
    let mut rounds = vec![Vec::new(); sides.len()];
    for _ in 0..6 {
        for (side, rounds) in sides.iter_mut().zip(&mut rounds) {
            let (mut taken, mut done) = (0.0, 0);
            while taken < 0.05 {
                taken += side();
                done += jobs;
            }
            rounds.push(taken / done as f64);
        }
    }
    rounds.into_iter().map(|side| median(side[1..].to_vec())).collect()
}

/// The time of a job for each of a batch. Each gets a copy; the clock runs neither while these are made nor while they are
/// dropped.
pub fn batch<T: Clone>(lent: &[T], job: impl FnMut(&mut T)) -> f64 {
    let mut copies = black_box(lent.to_vec());
    let taken = seconds(|| copies.iter_mut().for_each(job));
    drop(black_box(copies));
    taken
}

pub fn median(mut list: Vec<f64>) -> f64 {
    list.sort_by(f64::total_cmp);
    list[list.len() / 2]
}

/// A bake's time, and its track's count and hash.
#[derive(Clone, Copy)]
pub struct Baked {
    pub seconds: f64,
    pub count: usize,
    pub hash: u64,
}

/// Times a bake that gives a count and a hash; one that takes a second or more is done once.
pub fn bake<T>(mut bake: impl FnMut() -> T, look: impl FnOnce(&T) -> (usize, u64)) -> Baked {
    let mut track = None;
    let mut taken = seconds(|| track = Some(bake()));
    let (count, hash) = look(&track.expect("baked"));
    if taken < 1.0 {
        taken = take_turns(1, &mut [&mut |_| drop(black_box(bake()))])[0];
    }
    Baked { seconds: taken, count, hash }
}

/// A side's bake of a named set in a process of its own, or why there is none.
pub fn bake_apart(side: &str, name: &str, room: usize, limit: Duration) -> Result<Baked, String> {
    let over = format!("over {} s", limit.as_secs());
    let program = std::env::current_exe().expect("a path");
    let words = ["bake", side, name, &room.to_string()];
    let mut child = Command::new(program).args(words).stdout(Stdio::piped()).spawn().expect("a child");
    let began = Instant::now();
    // Its own rounds come after the one bake that the limit is for.
    let rounds = Duration::from_secs(5);
    while child.try_wait().expect("a child").is_none() {
        if began.elapsed() > limit + rounds {
            child.kill().and_then(|()| child.wait()).expect("a child");
            return Err(over);
        }
        std::thread::sleep(Duration::from_millis(20));
    }
    let mut told = String::new();
    child.stdout.take().expect("piped").read_to_string(&mut told).expect("text");
    match told.split_whitespace().collect::<Vec<_>>()[..] {
        [seconds, count, hash] => {
            let number = "a number";
            let (seconds, count) = (seconds.parse().expect(number), count.parse().expect(number));
            let baked = Baked { seconds, count, hash: hash.parse().expect(number) };
            if seconds > limit.as_secs_f64() { Err(over) } else { Ok(baked) }
        }
        _ => Err("failed".into()),
    }
}
