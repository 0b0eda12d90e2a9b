//! Rust's BTreeMap under a Mutex or an RwLock: the cells of peer.hpp, on the same keys.
use std::collections::BTreeMap;
use std::collections::btree_map::Entry;
use std::env;
use std::fs;
use std::process::exit;
use std::sync::atomic::{AtomicBool, Ordering};
use std::sync::{Mutex, RwLock};
use std::thread;
use std::time::{Duration, Instant};

/// A map that threads share.
trait Shared: Default + Sync {
    const NAME: &'static str;

    /// Sets the key to the value, and answers whether it was absent.
    fn put(&self, key: u64, value: u64) -> bool;

    /// Takes the key out, and answers whether it was there.
    fn remove(&self, key: u64) -> bool;

    fn get(&self, key: u64) -> bool;

    /// How many pairs a walk through all of them meets.
    fn scan(&self) -> u64;

    /// How many pairs a copy has.
    fn copied(&self) -> u64;
}

type Sorted = BTreeMap<u64, u64>;

fn put(map: &mut Sorted, key: u64, value: u64) -> bool {
    match map.entry(key) {
        Entry::Vacant(place) => {
            place.insert(value);
            true
        }
        Entry::Occupied(mut place) => {
            place.insert(value);
            false
        }
    }
}

fn scan(map: &Sorted) -> u64 {
    map.values().filter(|&&value| value != u64::MAX).count() as u64
}

#[derive(Default)]
struct Exclusive(Mutex<Sorted>);

impl Shared for Exclusive {
    const NAME: &'static str = "BTreeMap-Mutex";

    fn put(&self, key: u64, value: u64) -> bool {
        put(&mut self.0.lock().unwrap(), key, value)
    }

    fn remove(&self, key: u64) -> bool {
        self.0.lock().unwrap().remove(&key).is_some()
    }

    fn get(&self, key: u64) -> bool {
        self.0.lock().unwrap().get(&key).map_or(false, |&value| value != u64::MAX)
    }

    fn scan(&self) -> u64 {
        scan(&self.0.lock().unwrap())
    }

    fn copied(&self) -> u64 {
        let copy = self.0.lock().unwrap().clone();
        copy.len() as u64
    }
}

#[derive(Default)]
struct Readers(RwLock<Sorted>);

impl Shared for Readers {
    const NAME: &'static str = "BTreeMap-RwLock";

    fn put(&self, key: u64, value: u64) -> bool {
        put(&mut self.0.write().unwrap(), key, value)
    }

    fn remove(&self, key: u64) -> bool {
        self.0.write().unwrap().remove(&key).is_some()
    }

    fn get(&self, key: u64) -> bool {
        self.0.read().unwrap().get(&key).map_or(false, |&value| value != u64::MAX)
    }

    fn scan(&self) -> u64 {
        scan(&self.0.read().unwrap())
    }

    fn copied(&self) -> u64 {
        let copy = self.0.read().unwrap().clone();
        copy.len() as u64
    }
}

/// Ends the cell with no figure: the driver says so and goes on.
fn fail(why: &str) -> ! {
    eprintln!("{why}");
    exit(1)
}

/// A bijection of 64 bits: different numbers have different keys, in an order as if by lot.
fn spread(number: u64) -> u64 {
    let number = (number ^ (number >> 30)).wrapping_mul(0xbf58_476d_1ce4_e5b9);
    let number = (number ^ (number >> 27)).wrapping_mul(0x94d0_49bb_1331_11eb);
    number ^ (number >> 31)
}

/// The numbers of one thread in one phase: the same for each map.
struct Draws(u64);

impl Draws {
    fn new(phase: u64, thread: u64) -> Draws {
        Draws(spread(phase * 64 + thread + 1))
    }

    fn draw(&mut self) -> u64 {
        self.0 = self.0.wrapping_add(0x9e37_79b9_7f4a_7c15);
        spread(self.0)
    }
}

/// The upper half of a number as a key below a bound.
fn key_of(number: u64, keys: u64) -> u64 {
    ((number >> 32) * keys) >> 32
}

/// The lower half of a number as a share of a bound.
fn share_of(number: u64, whole: u64) -> u64 {
    ((number & 0xffff_ffff) * whole) >> 32
}

#[repr(C)]
struct Timespec {
    seconds: i64,
    nanos: i64,
}

extern "C" {
    fn clock_gettime(clock: i32, time: *mut Timespec) -> i32;
}

/// The processor time of the process, of all its threads together.
fn processor_nanos() -> u64 {
    const PROCESS: i32 = 2;
    let mut time = Timespec { seconds: 0, nanos: 0 };
    // The C library writes the whole of the struct, which has the layout of its own on 64-bit Linux.
    if unsafe { clock_gettime(PROCESS, &mut time) } != 0 {
        fail("no processor time");
    }
    time.seconds as u64 * 1_000_000_000 + time.nanos as u64
}

fn resident_bytes() -> u64 {
    let text = fs::read_to_string("/proc/self/statm").unwrap_or_default();
    match text.split(' ').nth(1).map(str::parse::<u64>) {
        Some(Ok(pages)) => pages * 4096,
        _ => fail("no /proc/self/statm"),
    }
}

/// The time from its making on, by the wall and of all threads together.
struct Watch {
    wall: Instant,
    processor: u64,
}

impl Watch {
    fn new() -> Watch {
        Watch { wall: Instant::now(), processor: processor_nanos() }
    }

    fn tell(&self, name: &str, cell: &str, calls: u64) {
        let wall = self.wall.elapsed().as_nanos();
        println!("{name} {cell} {calls} {wall} {}", processor_nanos() - self.processor);
    }
}

#[derive(Clone, Copy)]
struct Mix {
    gets: u64,
    keys: u64,
    threads: u64,
    millis: u64,
    most: u64,
}

#[derive(Default)]
struct Tally {
    calls: u64,
    found: u64,
    fresh: u64,
    taken: u64,
}

impl Tally {
    fn add(&mut self, other: &Tally) {
        self.calls += other.calls;
        self.found += other.found;
        self.fresh += other.fresh;
        self.taken += other.taken;
    }
}

/// How many calls stand between two looks at the clock.
const BATCH: u64 = 64;

fn one_call<M: Shared>(map: &M, mix: &Mix, number: u64, tally: &mut Tally) {
    let key = key_of(number, mix.keys);
    let share = share_of(number, 200);
    if share < 2 * mix.gets {
        tally.found += u64::from(map.get(key));
    } else if share % 2 == 0 {
        tally.fresh += u64::from(map.put(key, number >> 1));
    } else {
        tally.taken += u64::from(map.remove(key));
    }
}

/// What one thread does: calls until the time is over, or so many.
fn work<M: Shared>(map: &M, mix: &Mix, phase: u64, thread: u64, end: Instant) -> Tally {
    let mut draws = Draws::new(phase, thread);
    let mut tally = Tally::default();
    while tally.calls < mix.most && Instant::now() < end {
        for _ in 0..BATCH {
            one_call(map, mix, draws.draw(), &mut tally);
        }
        tally.calls += BATCH;
    }
    tally
}

fn all_work<M: Shared>(map: &M, mix: &Mix, phase: u64) -> Tally {
    let end = Instant::now() + Duration::from_millis(mix.millis);
    let mut sum = Tally::default();
    thread::scope(|scope| {
        let threads: Vec<_> =
            (0..mix.threads).map(|thread| scope.spawn(move || work(map, mix, phase, thread, end))).collect();
        for thread in threads {
            sum.add(&thread.join().unwrap());
        }
    });
    sum
}

/// `mix GETS KEYS THREADS WARM MILLIS MOST`
fn mix<M: Shared>(mix: Mix, warm: u64, cell: &str) {
    let map = M::default();
    let mut draws = Draws::new(0, 0);
    let mut pairs = 0;
    while pairs < mix.keys / 2 {
        pairs += u64::from(map.put(key_of(draws.draw(), mix.keys), 0));
    }
    let before = all_work(&map, &Mix { millis: warm, ..mix }, 1);
    let watch = Watch::new();
    let tally = all_work(&map, &mix, 2);
    watch.tell(M::NAME, cell, tally.calls);
    let left = (0..mix.keys).filter(|&key| map.get(key)).count() as u64;
    if left + before.taken + tally.taken != pairs + before.fresh + tally.fresh {
        fail("keys are lost");
    }
}

/// `rising KEYS`
fn rising<M: Shared>(keys: u64, cell: &str) {
    let map = M::default();
    let watch = Watch::new();
    for key in 0..keys {
        map.put(key, key);
    }
    watch.tell(M::NAME, cell, keys);
}

fn filled<M: Shared>(pairs: u64) -> M {
    let map = M::default();
    for number in 0..pairs {
        map.put(spread(number), number);
    }
    map
}

fn write_until<M: Shared>(map: &M, pairs: u64, thread: u64, ended: &AtomicBool) -> u64 {
    let mut draws = Draws::new(1, thread);
    let mut count = 0;
    while !ended.load(Ordering::Relaxed) {
        map.put(spread(key_of(draws.draw(), pairs)), count);
        count += 1;
    }
    count
}

/// `scan PAIRS WRITERS MILLIS`
fn scans<M: Shared>(pairs: u64, writers: u64, millis: u64, cell: &str) {
    let map: M = filled(pairs);
    let (map, ended) = (&map, &AtomicBool::new(false));
    thread::scope(|scope| {
        let watch = Watch::new();
        let end = Instant::now() + Duration::from_millis(millis);
        let threads: Vec<_> =
            (0..writers).map(|thread| scope.spawn(move || write_until(map, pairs, thread, ended))).collect();
        let mut met = 0;
        while met == 0 || Instant::now() < end {
            let seen = map.scan();
            if seen != pairs {
                fail("a scan lacks pairs");
            }
            met += seen;
        }
        watch.tell(M::NAME, cell, met);
        ended.store(true, Ordering::SeqCst);
        let writes = threads.into_iter().map(|thread| thread.join().unwrap()).sum();
        watch.tell(M::NAME, &format!("beside-{cell}"), writes);
    });
}

/// `copy PAIRS MILLIS`
fn copies<M: Shared>(pairs: u64, millis: u64, cell: &str) {
    let map: M = filled(pairs);
    let end = Instant::now() + Duration::from_millis(millis);
    let watch = Watch::new();
    let mut count = 0;
    while count == 0 || Instant::now() < end {
        if map.copied() != pairs {
            fail("a copy lacks pairs");
        }
        count += 1;
    }
    watch.tell(M::NAME, cell, count);
}

/// `memory PAIRS`
fn memory<M: Shared>(pairs: u64, cell: &str) {
    let before = resident_bytes();
    let map: M = filled(pairs);
    println!("{} {cell} {pairs} {} 0", M::NAME, resident_bytes() - before);
    drop(map);
}

fn run<M: Shared>(words: &[String]) {
    let cell = words.join("/");
    let numbers: Vec<u64> = words[1..].iter().map(|word| word.parse().unwrap_or_else(|_| fail("a number?"))).collect();
    match (words[0].as_str(), numbers.as_slice()) {
        ("mix", &[gets, keys, threads, warm, millis, most]) => {
            mix::<M>(Mix { gets, keys, threads, millis, most }, warm, &cell)
        }
        ("rising", &[keys]) => rising::<M>(keys, &cell),
        ("scan", &[pairs, writers, millis]) => scans::<M>(pairs, writers, millis, &cell),
        ("copy", &[pairs, millis]) => copies::<M>(pairs, millis, &cell),
        ("memory", &[pairs]) => memory::<M>(pairs, &cell),
        _ => fail("which cell?"),
    }
}

fn main() {
    let words: Vec<String> = env::args().skip(1).collect();
    match words.split_first() {
        Some((lock, rest)) if !rest.is_empty() && lock == "mutex" => run::<Exclusive>(rest),
        Some((lock, rest)) if !rest.is_empty() && lock == "rwlock" => run::<Readers>(rest),
        _ => fail("mutex or rwlock, and which cell?"),
    }
}
