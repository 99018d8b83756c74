//! How long calls take, and how it is told: lines "test|peer|threads|nanoseconds|share".
use std::hint::spin_loop;
use std::sync::atomic::{AtomicI64, AtomicUsize, Ordering::SeqCst};
use std::time::{Duration, Instant};

pub const SPAN: Duration = Duration::from_millis(3);
pub const CHUNK: u64 = 2_000;
/// Fewer where threads wait for each other, so that they end together.
pub const SHORT_CHUNK: u64 = 100;
/// How long a writer waits from one store to the next, where it doesn't store all the time.
const PAUSE: Duration = Duration::from_micros(10);

#[repr(align(128))]
pub struct Apart<T>(pub T);

#[repr(C)]
struct TimeSpec {
    seconds: i64,
    nanoseconds: i64,
}

const THREAD_CPUTIME: i32 = 3;

unsafe extern "C" {
    fn clock_gettime(clock: i32, time: *mut TimeSpec) -> i32;
}

pub fn processor_time() -> f64 {
    let mut time = TimeSpec { seconds: 0, nanoseconds: 0 };
    unsafe { clock_gettime(THREAD_CPUTIME, &mut time) };
    time.seconds as f64 * 1e9 + time.nanoseconds as f64
}

/// One thread's nanoseconds, by the wall's clock and by the processor's, and its operations.
pub struct Spent {
    pub wall: f64,
    pub processor: f64,
    pub operations: f64,
}

/// A row of an operation.
pub fn time_row(test: &str, peer: &str, threads: usize, work: impl Fn(usize) + Sync) {
    time_chunks(test, peer, threads, |thread| (0..CHUNK).for_each(|_| work(thread)));
}

/// A row of an operation on what the threads have in common.
pub fn time_common(test: &str, peer: &str, threads: usize, work: impl Fn() + Sync) {
    let spent = run(threads, SHORT_CHUNK, |_| (0..SHORT_CHUNK).for_each(|_| work()));
    tell(test, peer, &spent, &spent);
}

/// A row of chunks.
pub fn time_chunks(test: &str, peer: &str, threads: usize, work: impl Fn(usize) + Sync) {
    let spent = run(threads, CHUNK, work);
    tell(test, peer, &spent, &spent);
}

/// A row in which the first thread does something else than the others, and a line for each.
pub fn time_beside(tests: [&str; 2], peer: &str, threads: usize, first: impl Fn() + Sync, others: impl Fn() + Sync) {
    let spent = run(threads, SHORT_CHUNK, |thread| match thread {
        0 => (0..SHORT_CHUNK).for_each(|_| first()),
        _ => (0..SHORT_CHUNK).for_each(|_| others()),
    });
    tell(tests[0], peer, &spent, &spent[..1]);
    if threads > 1 {
        tell(tests[1], peer, &spent, &spent[1..]);
    }
}

/// The threads meet, and work in chunks of so many operations until a common moment.
pub fn run(threads: usize, chunk: u64, work: impl Fn(usize) + Sync) -> Vec<Spent> {
    let (ready, end, base) = (AtomicUsize::new(0), AtomicI64::new(0), Instant::now());
    let now = || base.elapsed().as_nanos() as i64;
    let run = |thread: usize| {
        if ready.fetch_add(1, SeqCst) + 1 == threads {
            end.store(now() + SPAN.as_nanos() as i64, SeqCst);
        }
        while end.load(SeqCst) == 0 {
            spin_loop();
        }
        let (start, before, mut operations) = (Instant::now(), processor_time(), 0);
        while {
            work(thread);
            operations += chunk;
            now() < end.load(SeqCst)
        } {}
        let wall = start.elapsed().as_nanos() as f64;
        Spent { wall, processor: processor_time() - before, operations: operations as f64 }
    };
    std::thread::scope(|scope| {
        let workers: Vec<_> = (0..threads).map(|t| scope.spawn({ let run = &run; move || run(t) })).collect();
        workers.into_iter().map(|worker| worker.join().unwrap()).collect()
    })
}

/// A line: the time of some of the threads by their operations, and the least part of its time, of 100, that a thread
/// had a processor, or that it shared with the others.
pub fn tell(test: &str, peer: &str, spent: &[Spent], told: &[Spent]) {
    let wall: f64 = told.iter().map(|s| s.wall).sum();
    let operations: f64 = told.iter().map(|s| s.operations).sum();
    let least = spent.iter().map(|s| s.wall).fold(f64::MAX, f64::min);
    let most = spent.iter().map(|s| s.wall).fold(0.0, f64::max);
    let share = spent.iter().map(|s| s.processor / s.wall).fold(least / most, f64::min);
    println!("{test}|{peer}|{}|{:.2}|{:.0}", spent.len(), wall / operations, 100.0 * share);
}

/// The rows of a cell that is read in chunks, by the writer beside the readers: none, one that waits from one store to
/// the next, one that doesn't. Only the readers are told.
pub fn time_reads(peer: &str, threads: usize, chunk: u64, store: impl Fn() + Sync, read: impl Fn(usize, u64) + Sync) {
    let spent = run(threads, chunk, |thread| read(thread, chunk));
    tell("read of one cell, no writer", peer, &spent, &spent);
    if threads == 1 {
        return;
    }
    let seldom = || {
        let next = Instant::now() + PAUSE;
        store();
        while Instant::now() < next {
            spin_loop();
        }
    };
    let spent = run(threads, SHORT_CHUNK, |thread| if thread == 0 { seldom() } else { read(thread, SHORT_CHUNK) });
    tell("read of one cell, a new object each 10 us", peer, &spent, &spent[1..]);
    let always = || (0..SHORT_CHUNK).for_each(|_| store());
    let spent = run(threads, SHORT_CHUNK, |thread| if thread == 0 { always() } else { read(thread, SHORT_CHUNK) });
    tell("read of one cell, new objects all the time", peer, &spent, &spent[1..]);
}
