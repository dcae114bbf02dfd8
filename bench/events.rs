//! The same work as that of bench/events.rt.in, over a VecDeque a kind.
use std::collections::VecDeque;
use std::hint::black_box;
use std::time::Instant;

const SCANS: u64 = 1_000_000;
const MANY: u64 = 100_000;

struct Scan {
    kind: u32,
    bytes: Vec<u8>,
    label: Vec<u8>,
}

#[derive(Default)]
struct Queue {
    scans: VecDeque<Scan>,
    statuses: VecDeque<u32>,
    errors: VecDeque<(u32, u32, u32)>,
    in_error: bool,
}

fn scan() -> Scan {
    Scan { kind: 104, bytes: b"5901234123457".to_vec(), label: b"901234123457".to_vec() }
}

fn show(name: &str, count: u64, start: Instant) {
    println!("{name}: {count} in {} us", start.elapsed().as_micros());
}

fn scans() {
    let start = Instant::now();
    let mut queue = Queue::default();
    for _ in 0..SCANS {
        queue.scans.push_back(black_box(scan()));
    }
    let mut sum = 0u64;
    while let Some(scan) = queue.scans.pop_front() {
        sum += u64::from(scan.kind) + (scan.bytes.len() + scan.label.len()) as u64;
    }
    black_box(sum);
    show("scans", SCANS, start);
}

fn statuses() {
    let mut queue = Queue::default();
    for _ in 0..MANY {
        queue.scans.push_back(scan());
    }
    let start = Instant::now();
    for status in 0..MANY {
        queue.statuses.push_back(status as u32);
        black_box(queue.statuses.pop_front());
    }
    show("statuses behind scans", MANY, start);
}

fn errors() {
    let mut queue = Queue::default();
    let start = Instant::now();
    for _ in 0..MANY {
        queue.errors.push_back(black_box((111, 0, 2)));
        queue.in_error = true;
        black_box(&mut queue);
        queue.scans.clear();
        queue.statuses.clear();
        queue.errors.clear();
        queue.in_error = false;
        black_box(&mut queue);
    }
    show("errors and clears", MANY, start);
}

fn requests() {
    let start = Instant::now();
    let mut queue: VecDeque<(u64, u8)> = VecDeque::new();
    for id in 0..MANY {
        queue.push_back(black_box((id, 0)));
    }
    while let Some(request) = queue.pop_front() {
        black_box(request);
    }
    show("requests", MANY, start);
}

fn main() {
    for _ in 0..3 {
        scans();
        statuses();
        errors();
        requests();
    }
}
