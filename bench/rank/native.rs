//! The same work in plain Rust: tournament trees over arrays, and scans. rustc -O native.rs
use std::hint::black_box;
use std::time::Instant;

const OBJECTS: usize = 65_536;
const MEMBERS: usize = 10;

fn next(state: u64) -> u64 {
    state.wrapping_mul(6_364_136_223_846_793_005).wrapping_add(1_442_695_040_888_963_407)
}

fn level_from(state: u64) -> i128 {
    i128::from((state >> 20) % 1_048_576)
}

/// The greatest of some numbers, over an array of nodes; node i has the children 2i and 2i + 1.
struct Tree {
    nodes: Vec<i128>,
}

impl Tree {
    fn new() -> Tree {
        Tree { nodes: vec![i128::MIN; 2 * OBJECTS] }
    }

    fn set(&mut self, place: usize, level: i128) {
        let mut node = OBJECTS + place;
        self.nodes[node] = level;
        while node > 1 {
            node /= 2;
            let greatest = self.nodes[2 * node].max(self.nodes[2 * node + 1]);
            if self.nodes[node] == greatest {
                break;
            }
            self.nodes[node] = greatest;
        }
    }

    fn greatest(&self) -> i128 {
        self.nodes[1]
    }
}

fn set_in_trees(sets: u32) -> i128 {
    let (mut members, mut outsiders) = (Tree::new(), Tree::new());
    for place in 0..OBJECTS {
        if place < MEMBERS { members.set(place, 0) } else { outsiders.set(place, 0) }
    }
    let (mut state, mut seen) = (1, 0i128);
    for _ in 0..sets {
        state = next(state);
        let place = (state >> 33) as usize % OBJECTS;
        let level = level_from(state);
        if place < MEMBERS { members.set(place, -level) } else { outsiders.set(place, level) }
        seen = seen.wrapping_add(-members.greatest()).wrapping_add(outsiders.greatest());
    }
    seen
}

fn set_and_scan(sets: u32) -> i128 {
    let mut levels = vec![0i128; OBJECTS];
    let (mut state, mut seen) = (1, 0i128);
    for _ in 0..sets {
        state = next(state);
        levels[(state >> 33) as usize % OBJECTS] = level_from(state);
        let least = levels[..MEMBERS].iter().min().unwrap();
        let greatest = levels[MEMBERS..].iter().max().unwrap();
        seen = seen.wrapping_add(*least).wrapping_add(*greatest);
    }
    seen
}

fn main() {
    let start = Instant::now();
    let seen = black_box(set_in_trees(black_box(10_000_000)));
    println!("trees: 10000000 sets in {} ns (sum {seen})", start.elapsed().as_nanos());
    let start = Instant::now();
    let seen = black_box(set_and_scan(black_box(10_000)));
    println!("scans: 10000 sets in {} ns (sum {seen})", start.elapsed().as_nanos());
}
