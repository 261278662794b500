//! The works, and the calls that a thread makes of them.

use futures_executor::block_on;
use moka::future::Cache;
use std::future::ready;
use std::hash::BuildHasher;

/// What each thread does.
#[derive(Clone, Copy, PartialEq)]
pub enum Work {
    /// Looks keys up that are stored.
    Get,
    /// Stores values under keys.
    Insert,
    /// Looks a key up for each call, and loads it where it is absent.
    Load,
    /// Stores a key and takes it out, and so on with the next key; each call is a task of its own.
    Remove,
    /// Puts a value over what stands under a key, or where nothing does.
    Upsert,
}

/// Each of them, with its word.
const WORKS: [(&str, Work); 5] = [
    ("get", Work::Get),
    ("insert", Work::Insert),
    ("load", Work::Load),
    ("remove", Work::Remove),
    ("upsert", Work::Upsert),
];

impl Work {
    /// The work of this word.
    pub fn of(word: &str) -> Option<Work> {
        WORKS.iter().find(|(name, _)| *name == word).map(|(_, work)| *work)
    }

    /// Its word.
    pub fn name(self) -> &'static str {
        WORKS.iter().find(|(_, work)| *work == self).map_or("", |(name, _)| name)
    }
}

/// Stores each key below this.
pub fn fill<S>(cache: &Cache<u64, u64, S>, keys: u64)
where
    S: BuildHasher + Clone + Send + Sync + 'static,
{
    block_on(async {
        for key in 0..keys {
            cache.insert(key, key).await;
        }
    });
}

/// Makes so many calls as this thread, and tells how many are over. They are one task, but for
/// removals.
pub fn make<S>(cache: &Cache<u64, u64, S>, work: Work, keys: u64, thread: u64, calls: u64) -> u64
where
    S: BuildHasher + Clone + Send + Sync + 'static,
{
    if work == Work::Remove {
        return remove(cache, keys, thread, calls);
    }
    block_on(async {
        for call in 0..calls {
            let key = key_of(call, thread, keys);
            match work {
                Work::Get => drop(cache.get(&key).await),
                Work::Insert => cache.insert(key, call).await,
                Work::Load => drop(cache.get_with(call, ready(call)).await),
                Work::Upsert => {
                    cache.entry(key).and_upsert_with(|_| ready(call)).await;
                }
                Work::Remove => {}
            }
        }
    });
    calls
}

// Stores a key and takes it out, in two tasks, so many times half.
fn remove<S>(cache: &Cache<u64, u64, S>, keys: u64, thread: u64, calls: u64) -> u64
where
    S: BuildHasher + Clone + Send + Sync + 'static,
{
    for round in 0..calls / 2 {
        let key = key_of(round, thread, keys);
        block_on(cache.insert(key, round));
        block_on(cache.remove(&key));
    }
    calls / 2 * 2
}

// The key of a thread's call: each is far from the one before.
fn key_of(call: u64, thread: u64, keys: u64) -> u64 {
    call.wrapping_mul(7919).wrapping_add(thread) % keys
}
