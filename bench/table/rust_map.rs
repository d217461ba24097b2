//! The words of crates/table_load on the standard library's hash map behind one mutex, or with the feature `dash` on
//! dashmap's. Both begin empty and grow, unless the last word is `full`.
use std::time::Instant;

#[derive(Clone, Copy, Default)]
struct Tally {
    placed: u64,
    found: u64,
    hits: u64,
    missing: u64,
    sum: u64,
}

struct Load {
    threads: u64,
    keys: u64,
    rounds: u64,
    mode: Mode,
}

#[derive(Clone, Copy, PartialEq)]
enum Mode {
    Own,
    Same,
    Mixed,
}

#[derive(Clone, Copy)]
enum Phase {
    Empty,
    Insert,
    Present,
    Absent,
    Mixed,
}

#[cfg(not(feature = "dash"))]
mod map {
    use std::collections::HashMap;
    use std::collections::hash_map::Entry;
    use std::sync::Mutex;

    pub struct Shared(Mutex<HashMap<u64, u64>>);

    impl Shared {
        pub fn new(room: usize) -> Shared {
            Shared(Mutex::new(HashMap::with_capacity(room)))
        }

        pub fn insert(&self, key: u64, value: u64) -> bool {
            match self.0.lock().unwrap().entry(key) {
                Entry::Occupied(_) => false,
                Entry::Vacant(place) => {
                    place.insert(value);
                    true
                }
            }
        }

        pub fn find(&self, key: u64) -> Option<u64> {
            self.0.lock().unwrap().get(&key).copied()
        }
    }
}

#[cfg(feature = "dash")]
mod map {
    use dashmap::DashMap;
    use dashmap::mapref::entry::Entry;

    pub struct Shared(DashMap<u64, u64>);

    impl Shared {
        pub fn new(room: usize) -> Shared {
            Shared(DashMap::with_capacity(room))
        }

        pub fn insert(&self, key: u64, value: u64) -> bool {
            match self.0.entry(key) {
                Entry::Occupied(_) => false,
                Entry::Vacant(place) => {
                    place.insert(value);
                    true
                }
            }
        }

        pub fn find(&self, key: u64) -> Option<u64> {
            self.0.get(&key).map(|value| *value)
        }
    }
}

use map::Shared;

#[inline]
fn key_of(number: u64) -> u64 {
    let first = number.wrapping_add(1).wrapping_mul(0x9e37_79b9_7f4a_7c15);
    let key = (first ^ (first >> 32)).wrapping_mul(0x243f_6a88_85a3_08d3);
    if key == 0 || key == u64::MAX { 1 } else { key }
}

fn insert_share(map: &Shared, tally: &mut Tally, first: u64, count: u64, index: u64, parts: u64) {
    for number in first + count * index / parts..first + count * (index + 1) / parts {
        if map.insert(key_of(number), number + 1) {
            tally.placed += 1;
        } else {
            tally.found += 1;
        }
    }
}

fn find_all(map: &Shared, tally: &mut Tally, first: u64, count: u64, rounds: u64) {
    for _ in 0..rounds {
        for number in first..first + count {
            match map.find(key_of(number)) {
                Some(value) => {
                    tally.hits += 1;
                    tally.sum += value;
                }
                None => tally.missing += 1,
            }
        }
    }
}

impl Load {
    fn work(&self, map: &Shared, phase: Phase, index: u64, before: Tally) -> Tally {
        let mut tally = before;
        let half = self.keys / 2;
        match phase {
            Phase::Insert => match self.mode {
                Mode::Own => insert_share(map, &mut tally, 0, self.keys, index, self.threads),
                Mode::Same => insert_share(map, &mut tally, 0, self.keys, 0, 1),
                Mode::Mixed => insert_share(map, &mut tally, 0, half, index, self.threads),
            },
            Phase::Mixed if index % 2 == 0 => find_all(map, &mut tally, 0, half, self.rounds),
            Phase::Mixed => {
                insert_share(map, &mut tally, half, self.keys - half, index / 2, self.threads / 2)
            }
            Phase::Empty => find_all(map, &mut tally, 0, self.keys, 1),
            Phase::Present => find_all(map, &mut tally, 0, self.keys, self.rounds),
            Phase::Absent => find_all(map, &mut tally, self.keys, self.keys, self.rounds),
        }
        tally
    }

    /// Runs a phase in one thread for each tally, the first in this one, and answers its nanoseconds.
    fn run(&self, map: &Shared, phase: Phase, tallies: &mut [Tally]) -> u128 {
        let start = Instant::now();
        std::thread::scope(|scope| {
            let (first, others) = tallies.split_first_mut().unwrap();
            for (tally, index) in others.iter_mut().zip(1..) {
                scope.spawn(move || *tally = self.work(map, phase, index, *tally));
            }
            *first = self.work(map, phase, 0, *first);
        });
        start.elapsed().as_nanos()
    }
}

fn main() {
    let words: Vec<String> = std::env::args().skip(1).collect();
    let number = |at: usize| words[at].parse::<u64>().unwrap();
    let load = Load {
        threads: number(0),
        keys: number(2),
        rounds: number(3),
        mode: match words[4].as_str() {
            "same" => Mode::Same,
            "mixed" => Mode::Mixed,
            _ => Mode::Own,
        },
    };
    let full = words.last().is_some_and(|word| word == "full");
    let map = Shared::new(if full { number(1) as usize } else { 0 });
    let mut tallies = vec![Tally::default(); load.threads as usize];
    load.run(&map, Phase::Empty, &mut tallies);
    let inserts = load.run(&map, Phase::Insert, &mut tallies);
    let phases = match load.mode {
        Mode::Mixed => vec![("mixed", load.run(&map, Phase::Mixed, &mut tallies))],
        _ => vec![
            ("insert", inserts),
            ("again", load.run(&map, Phase::Insert, &mut tallies)),
            ("present", load.run(&map, Phase::Present, &mut tallies)),
            ("absent", load.run(&map, Phase::Absent, &mut tallies)),
        ],
    };
    let all = tallies.iter().fold(Tally::default(), |all, one| Tally {
        placed: all.placed + one.placed,
        found: all.found + one.found,
        hits: all.hits + one.hits,
        missing: all.missing + one.missing,
        sum: all.sum + one.sum,
    });
    println!("placed {}\nfound {}\nfull 0", all.placed, all.found);
    println!("hits {}\nmissing {}\nsum {}", all.hits, all.missing, all.sum);
    for (phase, time) in phases {
        println!("{phase} {time} ns");
    }
}
