// The yardstick for a superstep, in plain Rust: `superstep N FOLDER` computes the first superstep of pagerank on N vertices with three
// edges each, in memory: the vertices stand in std's `BTreeMap` as byte vectors, the new ones go to a vector of bytes, and what is
// sent is sorted by vid and folded. It comes to the same numbers and the same checksum of the folds as `px_bench superstep N FOLDER`.
use std::collections::BTreeMap;
use std::env;
use std::error::Error;
use std::time::Instant;

const EDGES: u64 = 3;
const HEADER: usize = 9;
const EDGE: usize = 12;
const SCALE: u64 = 1_000_000_000_000;
const SPREAD: u64 = 0x9E37_79B9_7F4A_7C15;

#[derive(Default)]
struct Tally {
    count: u64,
    sum: u64,
}

impl Tally {
    fn add(&mut self, vid: u64, number: u64) {
        self.count += 1;
        self.sum = self.sum.wrapping_mul(31).wrapping_add(vid.wrapping_add(number));
    }
}

/// What a superstep makes.
#[derive(Default)]
struct Made {
    updates: Vec<u8>,
    sends: Vec<(u64, u64)>,
    contributed: u64,
}

/// A vertex. Its vectors are used again for each record.
#[derive(Default)]
struct Vertex {
    halt: bool,
    value: Vec<u8>,
    edges: Vec<(u64, u32)>,
}

impl Vertex {
    fn decode(&mut self, body: &[u8]) {
        let (header, rest) = body.split_at(HEADER);
        let (value, edges) = rest.split_at(number(&header[1..5]) as usize);
        self.halt = header[0] == 1;
        self.value.clear();
        self.value.extend_from_slice(value);
        self.edges.clear();
        self.edges.extend(
            edges
                .chunks_exact(EDGE)
                .map(|edge| (u64::from_be_bytes(edge[..8].try_into().unwrap()), number(&edge[8..]))),
        );
    }

    fn encode(&self, out: &mut Vec<u8>) {
        out.push(self.halt.into());
        out.extend_from_slice(&(self.value.len() as u32).to_be_bytes());
        out.extend_from_slice(&(self.edges.len() as u32).to_be_bytes());
        out.extend_from_slice(&self.value);
        for (target, weight) in &self.edges {
            out.extend_from_slice(&target.to_be_bytes());
            out.extend_from_slice(&weight.to_be_bytes());
        }
    }

    fn compute(&mut self, count: u64, made: &mut Made) {
        let rank = SCALE / count.max(1);
        self.halt = false;
        self.value.clear();
        self.value.extend_from_slice(&rank.to_be_bytes());
        made.contributed = made.contributed.saturating_add(rank);
        let share = rank / self.edges.len().max(1) as u64;
        made.sends.extend(self.edges.iter().map(|(target, _)| (*target, share)));
    }
}

fn number(bytes: &[u8]) -> u32 {
    u32::from_be_bytes(bytes.try_into().unwrap())
}

// Where edge number i of all goes, of so many vids.
fn target_of(i: u64, count: u64) -> u64 {
    let mixed = i.wrapping_mul(SPREAD);
    let mixed = (mixed ^ (mixed >> 32)).wrapping_mul(SPREAD);
    (mixed >> 32) % count
}

fn load(count: u64) -> BTreeMap<u64, Vec<u8>> {
    let mut vertex = Vertex::default();
    let mut store = BTreeMap::new();
    for vid in 0..count {
        vertex.value = vid.to_be_bytes().to_vec();
        vertex.edges = (0..EDGES).map(|edge| (target_of(vid * EDGES + edge, count), 1)).collect();
        let mut body = Vec::new();
        vertex.encode(&mut body);
        store.insert(vid, body);
    }
    store
}

fn compute(store: &BTreeMap<u64, Vec<u8>>, count: u64) -> Made {
    let mut vertex = Vertex::default();
    let mut made = Made::default();
    for (vid, body) in store {
        vertex.decode(body);
        vertex.compute(count, &mut made);
        made.updates.extend_from_slice(&vid.to_be_bytes());
        vertex.encode(&mut made.updates);
    }
    made
}

// The sum of what is sent to each vid, ascending.
fn fold(sends: &mut [(u64, u64)]) -> Vec<(u64, u64)> {
    sends.sort_unstable();
    sends
        .chunk_by(|a, b| a.0 == b.0)
        .map(|group| (group[0].0, group.iter().fold(0, |sum: u64, send| sum.saturating_add(send.1))))
        .collect()
}

fn main() -> Result<(), Box<dyn Error>> {
    let words: Vec<String> = env::args().skip(1).collect();
    let [count, _] = words.as_slice() else {
        return Err("usage: superstep N FOLDER".into());
    };
    let count: u64 = count.parse()?;
    let store = load(count);
    let start = Instant::now();
    let mut made = compute(&store, count);
    let folds = fold(&mut made.sends);
    eprintln!("{:.6}", start.elapsed().as_secs_f64());
    let mut tally = Tally::default();
    for (vid, number) in folds {
        tally.add(vid, number);
    }
    println!(
        "superstep: {} sends, 0 requests, {} contributed, {} folds, checksum {}",
        made.sends.len(),
        made.contributed,
        tally.count,
        tally.sum
    );
    Ok(())
}
