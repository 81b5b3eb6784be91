// The yardstick for graph text, in plain Rust: `parse` reads a text on standard input.
// A line is a vid and its edges, each a target or `target:weight`, with blanks between them;
// `#` begins a comment. It comes to the same checksum as `px_bench parse`.
use std::error::Error;
use std::io::{self, Read};
use std::time::Instant;

const CHUNK: usize = 262_144;

#[derive(Default)]
struct Tally {
    count: u64,
    sum: u64,
}

#[derive(Clone, Copy)]
enum State {
    Start,
    Comment,
    Vid(u64),
    Gap,
    Target(u64),
    Colon(u64),
    Weight(u64, u32),
}

/// The vertex of a line. Its vectors are used again for each line.
#[derive(Default)]
struct Vertex {
    vid: u64,
    targets: Vec<u64>,
    weights: Vec<u32>,
}

impl Vertex {
    fn reset(&mut self, vid: u64) {
        self.vid = vid;
        self.targets.clear();
        self.weights.clear();
    }

    fn push(&mut self, target: u64, weight: u32) {
        self.targets.push(target);
        self.weights.push(weight);
    }

    fn sum(&self) -> u64 {
        let mut sum = self.vid;
        for (target, weight) in self.targets.iter().zip(&self.weights) {
            sum = sum.wrapping_add(*target).wrapping_add(u64::from(*weight));
        }
        sum
    }
}

fn vid_with(vid: u64, digit: u8) -> Option<u64> {
    vid.checked_mul(10)?.checked_add(u64::from(digit - b'0'))
}

fn weight_with(weight: u32, digit: u8) -> Option<u32> {
    weight.checked_mul(10)?.checked_add(u32::from(digit - b'0'))
}

// Where a byte that is no LF leads, or `None` where it is refused.
fn step(state: State, byte: u8, vertex: &mut Vertex) -> Option<State> {
    let blank = matches!(byte, b' ' | b'\t' | b'\r');
    let digit = byte.is_ascii_digit();
    match state {
        State::Start if blank => Some(State::Start),
        State::Start if byte == b'#' => Some(State::Comment),
        State::Start if digit => vid_with(0, byte).map(State::Vid),
        State::Comment => Some(State::Comment),
        State::Vid(vid) if blank => {
            vertex.reset(vid);
            Some(State::Gap)
        }
        State::Vid(vid) if digit => vid_with(vid, byte).map(State::Vid),
        State::Gap if blank => Some(State::Gap),
        State::Gap if digit => vid_with(0, byte).map(State::Target),
        State::Target(target) if blank => {
            vertex.push(target, 1);
            Some(State::Gap)
        }
        State::Target(target) if byte == b':' => Some(State::Colon(target)),
        State::Target(target) if digit => vid_with(target, byte).map(State::Target),
        State::Colon(target) if digit => Some(State::Weight(target, weight_with(0, byte)?)),
        State::Weight(target, weight) if blank => {
            vertex.push(target, weight);
            Some(State::Gap)
        }
        State::Weight(target, weight) if digit => {
            Some(State::Weight(target, weight_with(weight, byte)?))
        }
        _ => None,
    }
}

// Ends a line. It is true where the line gives a vertex, and `None` where it is refused.
fn end(state: State, vertex: &mut Vertex) -> Option<bool> {
    match state {
        State::Start | State::Comment => return Some(false),
        State::Vid(vid) => vertex.reset(vid),
        State::Gap => {}
        State::Target(target) => vertex.push(target, 1),
        State::Colon(_) => return None,
        State::Weight(target, weight) => vertex.push(target, weight),
    }
    Some(true)
}

fn end_line(state: State, vertex: &mut Vertex, tally: &mut Tally) -> Option<()> {
    if end(state, vertex)? {
        tally.count += 1;
        tally.sum = tally.sum.wrapping_add(vertex.sum());
    }
    Some(())
}

// Goes over a chunk of the text. `None` where a byte is refused.
fn follow(mut state: State, chunk: &[u8], vertex: &mut Vertex, tally: &mut Tally) -> Option<State> {
    for &byte in chunk {
        state = if byte == b'\n' {
            end_line(state, vertex, tally)?;
            State::Start
        } else {
            step(state, byte, vertex)?
        };
    }
    Some(state)
}

fn run(source: &mut impl Read) -> Result<Tally, Box<dyn Error>> {
    let mut chunk = vec![0; CHUNK];
    let mut vertex = Vertex::default();
    let mut tally = Tally::default();
    let mut state = State::Start;
    loop {
        let count = source.read(&mut chunk)?;
        if count == 0 {
            break;
        }
        state = follow(state, &chunk[..count], &mut vertex, &mut tally).ok_or("a bad text")?;
    }
    end_line(state, &mut vertex, &mut tally).ok_or("a bad text")?;
    Ok(tally)
}

fn main() -> Result<(), Box<dyn Error>> {
    let mut source = io::stdin().lock();
    let start = Instant::now();
    let tally = run(&mut source)?;
    eprintln!("{:.6}", start.elapsed().as_secs_f64());
    println!("parse: {} vertices, checksum {}", tally.count, tally.sum);
    Ok(())
}
