//! What a caller waits for `Arc` and `Weak` of Rust's library, for an `Arc` in a `Mutex`, and with
//! `--cfg arc_swap` for one in an `ArcSwap`, by thread count.
//! Prints lines "test|peer|threads|nanoseconds|share", so many of each as the argument says, as peers.cpp does.
mod cells;
mod timing;

use std::hint::black_box;
use std::mem;
use std::sync::{Arc, Mutex, Weak};
use std::time::Instant;
use timing::{Apart, SPAN, Spent, processor_time, run, tell, time_common, time_row};

const MOST_THREADS: usize = 4;
const OBSERVERS: u64 = 1_000;
const CHAIN_LENGTH: u64 = 4_095;
const PEER: &str = "Rust Arc";

type Object = [u64; 4];

fn new_object() -> Arc<Object> {
    Arc::new([1, 2, 3, 4])
}

/// What owns the next one of a stack or a chain.
struct Node {
    _fields: Object,
    next: Option<Arc<Node>>,
}

fn node(next: Option<Arc<Node>>) -> Arc<Node> {
    Arc::new(Node { _fields: [1, 2, 3, 4], next })
}

fn same(left: &Option<Arc<Node>>, right: &Option<Arc<Node>>) -> bool {
    left.as_ref().map(Arc::as_ptr) == right.as_ref().map(Arc::as_ptr)
}

/// What holds the top of a stack, whose first node stays.
trait Head: Sync {
    const PEER: &str;
    fn holding(first: Arc<Node>) -> Self;
    fn load(&self) -> Option<Arc<Node>>;
    /// Answers what it held.
    fn compare_exchange(&self, expected: &Option<Arc<Node>>, desired: Option<Arc<Node>>) -> Option<Arc<Node>>;

    fn push(&self) {
        let mut node = node(self.load());
        loop {
            let held = self.compare_exchange(&node.next, Some(node.clone()));
            if same(&held, &node.next) {
                return;
            }
            Arc::get_mut(&mut node).unwrap().next = held;
        }
    }

    fn pop(&self) -> Option<Arc<Node>> {
        let mut top = self.load();
        while let Some(node) = &top {
            let held = self.compare_exchange(&top, node.next.clone());
            if same(&held, &top) {
                break;
            }
            top = held;
        }
        top
    }
}

impl Head for Mutex<Option<Arc<Node>>> {
    const PEER: &str = PEER;

    fn holding(first: Arc<Node>) -> Self {
        Mutex::new(Some(first))
    }

    fn load(&self) -> Option<Arc<Node>> {
        self.lock().unwrap().clone()
    }

    fn compare_exchange(&self, expected: &Option<Arc<Node>>, desired: Option<Arc<Node>>) -> Option<Arc<Node>> {
        let mut held = self.lock().unwrap();
        if same(&held, expected) { mem::replace(&mut *held, desired) } else { held.clone() }
    }
}

#[cfg(arc_swap)]
impl Head for arc_swap::ArcSwapOption<Node> {
    const PEER: &str = "Rust arc-swap";

    fn holding(first: Arc<Node>) -> Self {
        arc_swap::ArcSwapOption::new(Some(first))
    }

    fn load(&self) -> Option<Arc<Node>> {
        self.load_full()
    }

    fn compare_exchange(&self, expected: &Option<Arc<Node>>, desired: Option<Arc<Node>>) -> Option<Arc<Node>> {
        arc_swap::Guard::into_inner(self.compare_and_swap(expected, desired))
    }
}

fn time_stack<H: Head>(threads: usize) {
    let head = Apart(H::holding(node(None)));
    time_common("stack push + pop", H::PEER, threads, || {
        head.0.push();
        drop(black_box(head.0.pop()));
    });
}

/// The row of chains that end with their first node. Only the end is timed.
fn time_chains() {
    let mut spent = Spent { wall: 0.0, processor: 0.0, operations: 0.0 };
    while spent.wall < SPAN.as_nanos() as f64 {
        let chain = (0..CHAIN_LENGTH).fold(None, |next, _| Some(node(next)));
        let (before, start) = (processor_time(), Instant::now());
        drop(black_box(chain));
        spent.wall += start.elapsed().as_nanos() as f64;
        spent.processor += processor_time() - before;
        spent.operations += CHAIN_LENGTH as f64;
    }
    let spent = [spent];
    tell("end of a chain of 4,095, each", PEER, &spent, &spent);
}

/// The row of a subject's observers, of which each fourth has ended.
fn time_observers() {
    let mut living = Vec::new();
    let observers: Vec<Weak<Object>> = (0..OBSERVERS)
        .map(|i| {
            let observer = new_object();
            let weak = Arc::downgrade(&observer);
            if i % 4 > 0 {
                living.push(observer);
            }
            weak
        })
        .collect();
    let spent = run(1, OBSERVERS, |_| {
        black_box(observers.iter().filter(|observer| observer.upgrade().is_some()).count());
    });
    tell("lock + release, each of 1,000 observers", PEER, &spent, &spent);
}

fn main() {
    let own: Vec<_> = (0..MOST_THREADS).map(|_| Apart(new_object())).collect();
    let weak: Vec<_> = own.iter().map(|owner| Apart(Arc::downgrade(&owner.0))).collect();
    let rounds = std::env::args().nth(1).and_then(|word| word.parse().ok()).unwrap_or(1);
    for _ in 0..rounds {
        for threads in [1, 2, 4] {
            time_row("make + end", PEER, threads, |_| drop(black_box(new_object())));
            time_row("share + release, own object", PEER, threads, |t| drop(black_box(own[t].0.clone())));
            time_common("share + release, one object", PEER, threads, || drop(black_box(own[0].0.clone())));
            time_row("downgrade + release_weak, own object", PEER, threads, |t| {
                let weak: Weak<Object> = Arc::downgrade(&own[t].0);
                drop(black_box(weak));
            });
            time_row("share + release of a weak pointer, own object", PEER, threads, |t| {
                drop(black_box(weak[t].0.clone()));
            });
            time_row("use_count, own object", PEER, threads, |t| {
                black_box(Arc::strong_count(black_box(&own[t].0)));
            });
            time_row("read of a field, own object", PEER, threads, |t| {
                black_box(black_box(&own[t].0)[0]);
            });
            time_row("lock + release, own object", PEER, threads, |t| drop(black_box(weak[t].0.upgrade())));
            cells::time_empty(threads);
            cells::time_cells::<Mutex<Arc<Object>>>(threads, &own);
            #[cfg(arc_swap)]
            cells::time_cells::<arc_swap::ArcSwap<Object>>(threads, &own);
            #[cfg(arc_swap)]
            cells::swap::time_reads(threads);
            time_stack::<Mutex<Option<Arc<Node>>>>(threads);
            #[cfg(arc_swap)]
            time_stack::<arc_swap::ArcSwapOption<Node>>(threads);
        }
        time_observers();
        time_chains();
    }
}
