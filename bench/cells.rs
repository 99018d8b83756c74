//! Rows of cells that hold an `Arc`: behind a `Mutex`, and an `ArcSwap`.
#[cfg(arc_swap)]
use crate::timing;
use crate::timing::{Apart, CHUNK, SHORT_CHUNK, time_beside, time_chunks, time_common, time_reads, time_row};
use crate::{Object, PEER, new_object};
use std::hint::black_box;
use std::mem;
use std::sync::{Arc, Mutex};

/// What holds an `Arc`, and any thread loads and changes.
pub trait Cell: Sync {
    const PEER: &str;
    fn holding(handle: Arc<Object>) -> Self;
    fn load(&self) -> Arc<Object>;
    fn exchange(&self, handle: Arc<Object>) -> Arc<Object>;
    fn compare_exchange(&self, expected: &Arc<Object>, desired: Arc<Object>) -> bool;
    /// What it makes of the object goes in, once no other came between.
    fn update(&self, next: impl Fn(&Object) -> Object);
}

impl Cell for Mutex<Arc<Object>> {
    const PEER: &str = PEER;

    fn holding(handle: Arc<Object>) -> Self {
        Mutex::new(handle)
    }

    fn load(&self) -> Arc<Object> {
        self.lock().unwrap().clone()
    }

    fn exchange(&self, handle: Arc<Object>) -> Arc<Object> {
        mem::replace(&mut *self.lock().unwrap(), handle)
    }

    fn compare_exchange(&self, expected: &Arc<Object>, desired: Arc<Object>) -> bool {
        let mut held = self.lock().unwrap();
        let equal = Arc::ptr_eq(&held, expected);
        let old = if equal { mem::replace(&mut *held, desired) } else { desired };
        drop(held);
        drop(old);
        equal
    }

    fn update(&self, next: impl Fn(&Object) -> Object) {
        let mut held = self.lock().unwrap();
        let new = Arc::new(next(&held));
        let old = mem::replace(&mut *held, new);
        drop(held);
        drop(old);
    }
}

#[cfg(arc_swap)]
impl Cell for arc_swap::ArcSwap<Object> {
    const PEER: &str = "Rust arc-swap";

    fn holding(handle: Arc<Object>) -> Self {
        arc_swap::ArcSwap::new(handle)
    }

    fn load(&self) -> Arc<Object> {
        self.load_full()
    }

    fn exchange(&self, handle: Arc<Object>) -> Arc<Object> {
        self.swap(handle)
    }

    fn compare_exchange(&self, expected: &Arc<Object>, desired: Arc<Object>) -> bool {
        Arc::ptr_eq(&self.compare_and_swap(expected, desired), expected)
    }

    fn update(&self, next: impl Fn(&Object) -> Object) {
        self.rcu(|old| next(old));
    }
}

/// The rows of cells: each thread's holds the thread's object, and the common one the first thread's.
pub fn time_cells<C: Cell>(threads: usize, own: &[Apart<Arc<Object>>]) {
    let peer = C::PEER;
    let cells: Vec<_> = own.iter().map(|owner| Apart(C::holding(owner.0.clone()))).collect();
    let common = Apart(C::holding(own[0].0.clone()));
    time_row("cell load + release, own cell", peer, threads, |t| drop(black_box(cells[t].0.load())));
    time_reads(peer, threads, SHORT_CHUNK, || drop(common.0.exchange(new_object())), |_, count| {
        (0..count).for_each(|_| drop(black_box(common.0.load())));
    });
    time_row("cell store of a copy, own cell", peer, threads, |t| drop(cells[t].0.exchange(own[t].0.clone())));
    time_chunks("cell exchange, own cell", peer, threads, |t| {
        let mut handle = own[t].0.clone();
        for _ in 0..CHUNK {
            handle = cells[t].0.exchange(handle);
        }
        drop(black_box(handle));
    });
    time_row("cell compare_exchange of a copy, own cell", peer, threads, |t| {
        black_box(cells[t].0.compare_exchange(&own[t].0, own[t].0.clone()));
    });
    time_beside(
        ["cell store of a copy, others load", "cell load + release, the first stores"],
        peer,
        threads,
        || drop(common.0.exchange(own[0].0.clone())),
        || drop(black_box(common.0.load())),
    );
    time_common("update of a counter, one cell", peer, threads, || common.0.update(|old| [old[0] + 1, 2, 3, 4]));
}

/// The row of a cell that holds nothing.
pub fn time_empty(threads: usize) {
    let empty = Apart(Mutex::new(None::<Arc<Object>>));
    time_common("load of an empty cell, one cell", PEER, threads, || {
        drop(black_box(empty.0.lock().unwrap().clone()));
    });
    #[cfg(arc_swap)]
    swap::time_empty(threads);
}

/// The reads that arc-swap has besides: a guard, and a cache.
#[cfg(arc_swap)]
pub mod swap {
    use super::*;
    use arc_swap::{ArcSwap, ArcSwapOption, Cache};

    pub fn time_empty(threads: usize) {
        let empty = Apart(ArcSwapOption::<Object>::empty());
        time_common("load of an empty cell, one cell", "Rust arc-swap", threads, || {
            drop(black_box(empty.0.load_full()));
        });
    }

    pub fn time_reads(threads: usize) {
        let cell = Apart(ArcSwap::new(new_object()));
        let store = || cell.0.store(new_object());
        timing::time_reads("Rust arc-swap, guard", threads, CHUNK, store, |_, count| {
            (0..count).for_each(|_| drop(black_box(cell.0.load())));
        });
        let caches: Vec<_> = (0..threads).map(|_| Apart(Mutex::new(Cache::new(&cell.0)))).collect();
        timing::time_reads("Rust arc-swap, Cache", threads, CHUNK, store, |thread, count| {
            let mut cache = caches[thread].0.lock().unwrap();
            (0..count).for_each(|_| {
                black_box(cache.load());
            });
        });
    }
}
