// The yardstick for a program over records, in plain Rust: `rank N` makes the records of N vertices, and in ten rounds
// decodes each, computes its rank from a message, and encodes it again.
// The records have the same bytes as px_record's, and it comes to the same checksum as `px_bench rank N`.
use std::env;
use std::process::ExitCode;
use std::time::Instant;

const ROUNDS: u64 = 10;
const HEADER: usize = 9;
const EDGE: usize = 12;
const RESTART: u64 = 150_000_000_000;

#[derive(Default)]
struct Tally {
    count: u64,
    sum: u64,
}

struct At {
    superstep: u64,
    count: u64,
}

#[derive(Clone, Copy)]
struct Edge {
    target: u64,
    weight: u32,
}

/// A vertex. Its vectors are used again for each record.
#[derive(Default)]
struct Vertex {
    halt: bool,
    value: Vec<u8>,
    edges: Vec<Edge>,
}

impl Vertex {
    // It is false where the bytes are no vertex.
    fn decode(&mut self, body: &[u8]) -> bool {
        if body.len() < HEADER || body[0] > 1 {
            return false;
        }
        let (header, rest) = body.split_at(HEADER);
        let value = number(&header[1..5]) as usize;
        let edges = number(&header[5..9]) as usize;
        if rest.len() != value + EDGE * edges {
            return false;
        }
        let (value, edges) = rest.split_at(value);
        self.halt = header[0] == 1;
        self.value.clear();
        self.value.extend_from_slice(value);
        self.edges.clear();
        self.edges.extend(edges.chunks_exact(EDGE).map(|edge| Edge {
            target: long_number(&edge[..8]),
            weight: number(&edge[8..]),
        }));
        true
    }

    fn encode(&self, out: &mut Vec<u8>) {
        out.push(self.halt.into());
        out.extend_from_slice(&(self.value.len() as u32).to_be_bytes());
        out.extend_from_slice(&(self.edges.len() as u32).to_be_bytes());
        out.extend_from_slice(&self.value);
        for edge in &self.edges {
            out.extend_from_slice(&edge.target.to_be_bytes());
            out.extend_from_slice(&edge.weight.to_be_bytes());
        }
    }
}

fn number(bytes: &[u8]) -> u32 {
    u32::from_be_bytes(bytes.try_into().unwrap())
}

fn long_number(bytes: &[u8]) -> u64 {
    u64::from_be_bytes(bytes.try_into().unwrap())
}

/// Sums what is sent and contributed.
#[derive(Default)]
struct Sums {
    sum: u64,
}

impl Sums {
    fn send(&mut self, to: u64, payload: &[u8]) {
        let n = payload.try_into().map_or(0, u64::from_be_bytes);
        self.sum = self.sum.wrapping_add(to).wrapping_add(n);
    }

    fn contribute(&mut self, n: u64) {
        self.sum = self.sum.wrapping_add(n);
    }
}

struct PageRank {
    rounds: u64,
}

impl PageRank {
    fn new_rank(&self, at: &At, message: &[u8]) -> Option<u64> {
        if at.superstep > self.rounds {
            return None;
        }
        let sum = message.try_into().map_or(0, u64::from_be_bytes);
        let walked = u128::from(sum) * 85 / 100;
        Some((RESTART / at.count.max(1)).saturating_add(walked as u64))
    }

    fn compute(&self, at: &At, vertex: &mut Vertex, message: &[u8], out: &mut Sums) {
        let Some(rank) = self.new_rank(at, message) else {
            vertex.halt = true;
            return;
        };
        let is_last = at.superstep >= self.rounds;
        vertex.halt = is_last;
        vertex.value.clear();
        vertex.value.extend_from_slice(&rank.to_be_bytes());
        out.contribute(rank);
        if is_last || vertex.edges.is_empty() {
            return;
        }
        let share = (rank / vertex.edges.len() as u64).to_be_bytes();
        for edge in &vertex.edges {
            out.send(edge.target, &share);
        }
    }
}

// A record is the length of a body in 4 bytes, and the body.
fn build(count: u64) -> Vec<u8> {
    let mut records = Vec::new();
    let mut vertex = Vertex::default();
    let mut body = Vec::new();
    for vid in 0..count {
        vertex.value.clear();
        vertex.value.extend_from_slice(&vid.to_be_bytes());
        vertex.edges.clear();
        vertex.edges.extend((1..=vid % 8).map(|i| Edge {
            target: vid.wrapping_mul(i),
            weight: i as u32,
        }));
        body.clear();
        vertex.encode(&mut body);
        records.extend_from_slice(&(body.len() as u32).to_be_bytes());
        records.extend_from_slice(&body);
    }
    records
}

fn split_record(records: &[u8]) -> Option<(&[u8], &[u8])> {
    let (len, rest) = records.split_at_checked(4)?;
    rest.split_at_checked(number(len) as usize)
}

fn sum_of(body: &[u8]) -> u64 {
    body.chunks_exact(8)
        .fold(0, |sum: u64, word| sum.wrapping_add(long_number(word)))
}

fn round(records: &[u8], round: u64, at: &At, out: &mut Sums) -> Option<Tally> {
    let program = PageRank { rounds: 2 };
    let mut vertex = Vertex::default();
    let mut body = Vec::new();
    let mut tally = Tally::default();
    let mut rest = records;
    for vid in 0..at.count {
        let (record, after) = split_record(rest)?;
        rest = after;
        if !vertex.decode(record) {
            return None;
        }
        let message = vid.wrapping_mul(1000).wrapping_add(round).to_be_bytes();
        program.compute(at, &mut vertex, &message, out);
        body.clear();
        vertex.encode(&mut body);
        tally.count += 1;
        tally.sum = tally.sum.wrapping_add(sum_of(&body));
    }
    Some(tally)
}

fn run(records: &[u8], count: u64) -> Option<Tally> {
    let at = At {
        superstep: 1,
        count,
    };
    let mut out = Sums::default();
    let mut tally = Tally::default();
    for number in 0..ROUNDS {
        let ranked = round(records, number, &at, &mut out)?;
        tally.count += ranked.count;
        tally.sum = tally.sum.wrapping_add(ranked.sum);
    }
    tally.sum = tally.sum.wrapping_add(out.sum);
    Some(tally)
}

fn main() -> ExitCode {
    let Some(count) = env::args().nth(1).and_then(|word| word.parse().ok()) else {
        eprintln!("usage: rank N");
        return ExitCode::FAILURE;
    };
    let records = build(count);
    let start = Instant::now();
    let Some(tally) = run(&records, count) else {
        eprintln!("a bad record");
        return ExitCode::FAILURE;
    };
    eprintln!("{:.6}", start.elapsed().as_secs_f64());
    println!("rank: {} vertices, checksum {}", tally.count, tally.sum);
    ExitCode::SUCCESS
}
