//! What a search in an ordered map costs by itself: in one of 10 names and in one of 100,000, made
//! in random order, each with a node of 152 bytes behind it. No search begins before the one before
//! it has ended.
//!
//!   rustc --edition 2021 -O -o out/map map.rs && out/map

use std::arch::x86_64::_mm_lfence;
use std::cmp::Ordering;
use std::collections::BTreeMap;
use std::time::Instant;

const SEARCHES: usize = 4096;
const ROUNDS: usize = 40;

/// A name takes 64 bytes, and is compared by the number that its first 8 bytes are.
#[derive(Clone, Copy)]
struct Name {
    head: u64,
    _bytes: [u64; 7],
}

impl PartialEq for Name {
    fn eq(&self, other: &Self) -> bool {
        self.head == other.head
    }
}

impl Eq for Name {}

impl PartialOrd for Name {
    fn partial_cmp(&self, other: &Self) -> Option<Ordering> {
        Some(self.cmp(other))
    }
}

impl Ord for Name {
    fn cmp(&self, other: &Self) -> Ordering {
        self.head.cmp(&other.head)
    }
}

fn name(i: usize) -> Name {
    Name { head: i as u64 * 257, _bytes: [0; 7] }
}

#[derive(Clone, Copy)]
struct Node {
    holder: u64,
    attributes: u64,
    _rest: [u64; 17],
}

/// Numbers as if by chance (xorshift).
struct Chance(u64);

impl Chance {
    fn below(&mut self, n: usize) -> usize {
        self.0 ^= self.0 << 13;
        self.0 ^= self.0 >> 7;
        self.0 ^= self.0 << 17;
        (self.0 % n as u64) as usize
    }
}

/// Nanoseconds for a search among so many names, in the best round.
fn search(names: usize) -> f64 {
    let mut chance = Chance(88_172_645_463_325_252);
    let mut order: Vec<usize> = (0..names).collect();
    for i in (1..names).rev() {
        order.swap(i, chance.below(i + 1));
    }
    let mut nodes = vec![Node { holder: 0, attributes: 1, _rest: [0; 17] }; names];
    let map: BTreeMap<Name, usize> =
        order.into_iter().enumerate().map(|(node, i)| (name(i), node)).collect();
    let mut best = f64::MAX;
    for _ in 0..ROUNDS {
        let wanted: Vec<Name> = (0..SEARCHES).map(|_| name(chance.below(names))).collect();
        let start = Instant::now();
        for name in &wanted {
            let node = &mut nodes[map[name]];
            node.holder += node.attributes;
            unsafe { _mm_lfence() };
        }
        best = best.min(start.elapsed().as_secs_f64() * 1e9 / SEARCHES as f64);
    }
    assert_eq!(nodes.iter().map(|node| node.holder).sum::<u64>(), (SEARCHES * ROUNDS) as u64);
    best
}

fn main() {
    let (few, many) = (search(10), search(100_000));
    println!(
        "among 10 names {few:.0} ns, among 100,000 names {many:.0} ns: {:.0} ns more",
        many - few
    );
}
