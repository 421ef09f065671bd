//! The load of `inst_loads` on a shared hub. The words are `uniform`, `split` or `hot`, the numbers of threads and of
//! rounds, and the number of transfers of each thread in a round.
use crate::shared::{SharedHub, Size, Submission};
use crate::text::Ident;
use std::thread;

const PARTICIPANTS: u32 = 64;
const PLACES: u32 = 1_024;
const FUNDS: u64 = 200_000;
const CENTS: u64 = 100;
const STAMP: u64 = 1_000;
const SIZE: Size = Size {
    participants: PARTICIPANTS as u8,
    places: PLACES as usize,
    limit: 10_000,
    ahead: 1_000,
};

#[derive(Clone, Copy)]
enum Pattern {
    Uniform,
    Split,
    Hot,
}

#[derive(Clone, Copy)]
struct Load {
    pattern: Pattern,
    threads: u32,
    /// The number of transfers of each thread in a round.
    share: u32,
}

impl Pattern {
    /// Returns the most transfers of each thread that find places.
    fn most(self, threads: u32) -> u32 {
        match self {
            Pattern::Uniform => PARTICIPANTS * PLACES / threads,
            Pattern::Split => PARTICIPANTS / threads * PLACES,
            Pattern::Hot => PLACES / threads,
        }
    }
}

impl Load {
    fn pair(self, thread: u32, number: u32) -> (u8, u8) {
        match self.pattern {
            Pattern::Uniform => pair_of(0, PARTICIPANTS, number * self.threads + thread),
            Pattern::Split => {
                let size = PARTICIPANTS / self.threads;
                pair_of(thread * size, size, number)
            }
            Pattern::Hot => (0, 1),
        }
    }
}

fn pair_of(first: u32, size: u32, number: u32) -> (u8, u8) {
    let from = number % size;
    let to = (from + 1 + number / size % (size - 1)) % size;
    ((first + from) as u8, (first + to) as u8)
}

/// Returns how many of the thread's transfers were accepted.
fn settle(hub: &SharedHub, load: Load, thread: u32) -> u32 {
    let mut settled = 0;
    for number in 0..load.share {
        let (from, to) = load.pair(thread, number);
        let Ok(id) = Ident::read(&format!("T{thread}-{number}")) else {
            continue;
        };
        let submission = Submission {
            id,
            to,
            cents: CENTS,
            stamp: STAMP,
        };
        let is_settled = hub
            .submit(from, &submission, STAMP)
            .and_then(|_| hub.confirm(to, from, id, STAMP));
        settled += u32::from(is_settled == Ok(true));
    }
    settled
}

fn round(load: Load) -> Option<u32> {
    let hub = SharedHub::new(SIZE);
    let reference = Ident::read("F1").ok()?;
    for who in 0..SIZE.participants {
        hub.fund(who, reference, FUNDS);
    }
    let settled = thread::scope(|scope| {
        let threads: Vec<_> = (0..load.threads)
            .map(|thread| scope.spawn({ let hub = &hub; move || settle(hub, load, thread) }))
            .collect();
        threads
            .into_iter()
            .map(|thread| thread.join().unwrap_or(0))
            .sum::<u32>()
    });
    let sum: u64 = (0..SIZE.participants).map(|who| hub.position(who)).sum();
    let is_whole = sum == FUNDS * u64::from(SIZE.participants) && hub.is_whole();
    (is_whole && settled == load.share * load.threads).then_some(settled)
}

/// Runs the load that the words ask for. Returns how many transfers were settled, or `None` if one wasn't. By default
/// each thread makes as many as find places.
pub fn run(words: &[String]) -> Option<u64> {
    let pattern = match words.first()?.as_str() {
        "uniform" => Pattern::Uniform,
        "split" => Pattern::Split,
        "hot" => Pattern::Hot,
        _ => return None,
    };
    let threads = words.get(1)?.parse().ok().filter(|n| (1..=15).contains(n))?;
    let rounds: u32 = words.get(2)?.parse().ok()?;
    let share = match words.get(3) {
        Some(word) => word.parse().ok()?,
        None => pattern.most(threads),
    };
    let load = Load {
        pattern,
        threads,
        share,
    };
    (0..rounds).map(|_| round(load).map(u64::from)).sum()
}
