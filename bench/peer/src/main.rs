//! Times calls of moka's cache, as `moka_cache_speed` times those of ours, by the same words:
//!
//! `peer PEER WORK CALLS THREADS KEYS` shares the calls among the threads, which have one cache of
//! numbers. Standard output has how many calls are over, standard error how many nanoseconds a thread
//! took for each of its calls. Its works are those of that program with these names.

mod works;

use foldhash::fast::FixedState;
use moka::future::{Cache, CacheBuilder};
use std::collections::hash_map::RandomState;
use std::hash::BuildHasher;
use std::sync::atomic::{AtomicU64, Ordering};
use std::sync::{Arc, Barrier};
use std::thread;
use std::time::{Duration, Instant};
use works::{fill, make, Work};

/// What the command line asks for.
struct Asked {
    peer: String,
    work: Work,
    calls: u64,
    threads: u64,
    keys: u64,
}

impl Asked {
    /// Reads the command line; None where a word is missing or no number.
    fn read() -> Option<Asked> {
        let words: Vec<String> = std::env::args().skip(1).collect();
        let number = |place: usize| words.get(place)?.parse().ok();
        Some(Asked {
            peer: words.first()?.clone(),
            work: Work::of(words.get(1)?)?,
            calls: number(2)?,
            threads: number(3)?,
            keys: number(4)?,
        })
    }
}

fn main() {
    let Some(asked) = Asked::read() else {
        eprintln!("usage: peer moka|heard|fast|fast-heard WORK CALLS THREADS KEYS");
        std::process::exit(2);
    };
    let heard = asked.peer.ends_with("heard");
    if asked.peer.starts_with("fast") {
        time(built(FixedState::default(), heard), &asked);
    } else {
        time(built(RandomState::new(), heard), &asked);
    }
}

/// An empty cache of a capacity that it never reaches; with a listener that counts what leaves, where
/// it is asked for.
fn built<S>(hasher: S, heard: bool) -> Cache<u64, u64, S>
where
    S: BuildHasher + Clone + Send + Sync + 'static,
{
    let builder = CacheBuilder::new(u64::MAX);
    if !heard {
        return builder.build_with_hasher(hasher);
    }
    let counted = Arc::new(AtomicU64::new(0));
    builder
        .eviction_listener(move |_, _, _| {
            counted.fetch_add(1, Ordering::SeqCst);
        })
        .build_with_hasher(hasher)
}

/// Times the work, of which a get finds each key: from the moment at which all threads stand at the
/// barrier to that at which the last has ended.
fn time<S>(cache: Cache<u64, u64, S>, asked: &Asked)
where
    S: BuildHasher + Clone + Send + Sync + 'static,
{
    if asked.work == Work::Get {
        fill(&cache, asked.keys);
    }
    let share = asked.calls / asked.threads;
    let barrier = Barrier::new(asked.threads as usize + 1);
    let (over, taken) = thread::scope(|scope| {
        let (cache, barrier) = (&cache, &barrier);
        let all: Vec<_> = (0..asked.threads)
            .map(|thread| {
                scope.spawn(move || {
                    barrier.wait();
                    make(cache, asked.work, asked.keys, thread, share)
                })
            })
            .collect();
        barrier.wait();
        let start = Instant::now();
        let over: u64 = all.into_iter().map(|one| one.join().unwrap()).sum();
        (over, start.elapsed())
    });
    tell(asked, share, over, taken);
}

/// Prints how many calls are over, and how long they took.
fn tell(asked: &Asked, share: u64, over: u64, taken: Duration) {
    let (peer, work, threads) = (&asked.peer, asked.work.name(), asked.threads);
    println!("{peer} {work} {over}");
    let each = taken.as_nanos() / u128::from(share.max(1));
    let rate = 1_000_000_000 * u128::from(asked.calls) / taken.as_nanos().max(1);
    eprintln!("{peer} {work}: {threads} threads, {each} ns a call, {rate} calls a second");
}
