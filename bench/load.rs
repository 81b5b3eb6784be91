// The yardstick for a load and a dump, in plain Rust: `load` reads a graph text on standard input into a vector of vertices, sorts it by
// vid, and writes it as the output text of no superstep, all in memory. What is written is counted and summed a buffer at a time.
// The text is read as `parse` reads it, and decimals are written by hand, four digits at a time, as the crate itoa does it.
// It comes to the same numbers as `px_bench load FOLDER`. The seconds of reading and sorting go to standard error, and then those of writing.
use std::error::Error;
use std::io::{self, Read};
use std::time::Instant;

const CHUNK: usize = 262_144;

const PAIRS: [[u8; 2]; 100] = {
    let mut pairs = [[0; 2]; 100];
    let mut n = 0;
    while n < 100 {
        pairs[n] = [b'0' + (n / 10) as u8, b'0' + (n % 10) as u8];
        n += 1;
    }
    pairs
};

/// The vertex of a line.
struct Vertex {
    vid: u64,
    edges: Vec<(u64, u32)>,
}

#[derive(Clone, Copy)]
enum State {
    Start,
    Comment,
    Vid(u64),
    Gap,
    Target(u64),
    Colon(u64),
    Weight(u64, u32),
}

/// What was read, of which the last line may not be at its end.
#[derive(Default)]
struct Graph {
    vertices: Vec<Vertex>,
    vid: u64,
    edges: Vec<(u64, u32)>,
}

impl Graph {
    fn reset(&mut self, vid: u64) {
        self.vid = vid;
        self.edges.clear();
    }

    fn push(&mut self, target: u64, weight: u32) {
        self.edges.push((target, weight));
    }

    fn end_vertex(&mut self) {
        let edges = self.edges.as_slice().to_vec();
        self.vertices.push(Vertex { vid: self.vid, edges });
    }
}

fn vid_with(vid: u64, digit: u8) -> Option<u64> {
    vid.checked_mul(10)?.checked_add(u64::from(digit - b'0'))
}

fn weight_with(weight: u32, digit: u8) -> Option<u32> {
    weight.checked_mul(10)?.checked_add(u32::from(digit - b'0'))
}

// Where a byte that is no LF leads, or `None` where it is refused.
fn step(state: State, byte: u8, graph: &mut Graph) -> Option<State> {
    let blank = matches!(byte, b' ' | b'\t' | b'\r');
    let digit = byte.is_ascii_digit();
    match state {
        State::Start if blank => Some(State::Start),
        State::Start if byte == b'#' => Some(State::Comment),
        State::Start if digit => vid_with(0, byte).map(State::Vid),
        State::Comment => Some(State::Comment),
        State::Vid(vid) if blank => {
            graph.reset(vid);
            Some(State::Gap)
        }
        State::Vid(vid) if digit => vid_with(vid, byte).map(State::Vid),
        State::Gap if blank => Some(State::Gap),
        State::Gap if digit => vid_with(0, byte).map(State::Target),
        State::Target(target) if blank => {
            graph.push(target, 1);
            Some(State::Gap)
        }
        State::Target(target) if byte == b':' => Some(State::Colon(target)),
        State::Target(target) if digit => vid_with(target, byte).map(State::Target),
        State::Colon(target) if digit => Some(State::Weight(target, weight_with(0, byte)?)),
        State::Weight(target, weight) if blank => {
            graph.push(target, weight);
            Some(State::Gap)
        }
        State::Weight(target, weight) if digit => {
            Some(State::Weight(target, weight_with(weight, byte)?))
        }
        _ => None,
    }
}

// Ends a line. `None` where it is refused.
fn end_line(state: State, graph: &mut Graph) -> Option<()> {
    match state {
        State::Start | State::Comment => return Some(()),
        State::Vid(vid) => graph.reset(vid),
        State::Gap => {}
        State::Target(target) => graph.push(target, 1),
        State::Colon(_) => return None,
        State::Weight(target, weight) => graph.push(target, weight),
    }
    graph.end_vertex();
    Some(())
}

// Goes over a chunk of the text. `None` where a byte is refused.
fn follow(mut state: State, chunk: &[u8], graph: &mut Graph) -> Option<State> {
    for &byte in chunk {
        state = if byte == b'\n' {
            end_line(state, graph)?;
            State::Start
        } else {
            step(state, byte, graph)?
        };
    }
    Some(state)
}

fn read(source: &mut impl Read) -> Result<Vec<Vertex>, Box<dyn Error>> {
    let mut chunk = vec![0; CHUNK];
    let mut graph = Graph::default();
    let mut state = State::Start;
    loop {
        let count = source.read(&mut chunk)?;
        if count == 0 {
            break;
        }
        state = follow(state, &chunk[..count], &mut graph).ok_or("a bad text")?;
    }
    end_line(state, &mut graph).ok_or("a bad text")?;
    Ok(graph.vertices)
}

fn load(source: &mut impl Read) -> Result<Vec<Vertex>, Box<dyn Error>> {
    let mut vertices = read(source)?;
    vertices.sort_unstable_by_key(|vertex| vertex.vid);
    if vertices.windows(2).any(|pair| pair[0].vid == pair[1].vid) {
        return Err("a vertex stands on two lines".into());
    }
    Ok(vertices)
}

/// Counts the bytes that are written to it, and sums them and these sums.
#[derive(Default)]
struct Sums {
    count: u64,
    sum: u64,
    sums: u64,
    buffer: Vec<u8>,
}

impl Sums {
    fn write(&mut self, bytes: &[u8]) {
        if self.buffer.len() + bytes.len() > CHUNK {
            self.flush();
        }
        self.buffer.extend_from_slice(bytes);
    }

    fn flush(&mut self) {
        for byte in &self.buffer {
            self.sum = self.sum.wrapping_add(u64::from(*byte));
            self.sums = self.sums.wrapping_add(self.sum);
        }
        self.count += self.buffer.len() as u64;
        self.buffer.clear();
    }
}

fn put_pair(buffer: &mut [u8; 20], at: usize, pair: u64) {
    buffer[at..at + 2].copy_from_slice(&PAIRS[pair as usize]);
}

fn decimal(n: u64, buffer: &mut [u8; 20]) -> &[u8] {
    let mut n = n;
    let mut at = buffer.len();
    while n >= 10_000 {
        let low = n % 10_000;
        n /= 10_000;
        at -= 4;
        put_pair(buffer, at, low / 100);
        put_pair(buffer, at + 2, low % 100);
    }
    if n >= 100 {
        at -= 2;
        put_pair(buffer, at, n % 100);
        n /= 100;
    }
    if n >= 10 {
        at -= 2;
        put_pair(buffer, at, n);
    } else {
        at -= 1;
        buffer[at] = b'0' + n as u8;
    }
    &buffer[at..]
}

fn print_decimal(n: u64, sink: &mut Sums) {
    sink.write(decimal(n, &mut [0; 20]));
}

fn dump(vertices: &[Vertex]) -> Sums {
    let mut sink = Sums::default();
    sink.buffer.reserve(CHUNK);
    for vertex in vertices {
        print_decimal(vertex.vid, &mut sink);
        sink.write(b" -");
        for (target, weight) in &vertex.edges {
            sink.write(b" ");
            print_decimal(*target, &mut sink);
            sink.write(b":");
            print_decimal(u64::from(*weight), &mut sink);
        }
        sink.write(b"\n");
    }
    sink.write(b"#superstep 0 aggregate 0 vertices ");
    print_decimal(vertices.len() as u64, &mut sink);
    sink.write(b"\n");
    sink.flush();
    sink
}

fn main() -> Result<(), Box<dyn Error>> {
    let mut source = io::stdin().lock();
    let start = Instant::now();
    let vertices = load(&mut source)?;
    eprintln!("{:.6}", start.elapsed().as_secs_f64());
    let start = Instant::now();
    let sink = dump(&vertices);
    eprintln!("{:.6}", start.elapsed().as_secs_f64());
    println!("load: {} vertices, {} bytes, checksum {}", vertices.len(), sink.count, sink.sums);
    Ok(())
}
