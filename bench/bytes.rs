//! Makes so many objects in `Arc`s and keeps them to its end.
use std::sync::{Arc, Weak};

#[derive(Default)]
#[allow(dead_code)]
struct Object {
    fields: [u64; 4],
    first: Option<Arc<Object>>,
    next: Option<Arc<Object>>,
    up: Option<Weak<Object>>,
    value: u64,
}

fn main() {
    let count = std::env::args().nth(1).unwrap().parse().unwrap();
    let mut owners = Vec::with_capacity(count);
    owners.resize_with(count, Arc::<Object>::default);
}
