// The yardstick for printed values, in plain Rust: `print N` prints N values of eight bytes as a rank and as a distance.
// The decimal is written here by hand, four digits at a time, as the crate itoa does it.
// It comes to the same checksum as `px_bench print N`.
use std::env;
use std::process::ExitCode;
use std::time::Instant;

const UNREACHED: u64 = u64::MAX;

const PAIRS: [[u8; 2]; 100] = {
    let mut pairs = [[0; 2]; 100];
    let mut n = 0;
    while n < 100 {
        pairs[n] = [b'0' + (n / 10) as u8, b'0' + (n % 10) as u8];
        n += 1;
    }
    pairs
};

/// Counts and sums the bytes that are written to it.
#[derive(Default)]
struct Sums {
    count: u64,
    sum: u64,
}

impl Sums {
    fn write(&mut self, bytes: &[u8]) {
        let sum = bytes.iter().map(|byte| u64::from(*byte)).sum();
        self.count = self.count.wrapping_add(bytes.len() as u64);
        self.sum = self.sum.wrapping_add(sum);
    }
}

fn put_pair(buffer: &mut [u8; 20], at: usize, pair: u64) {
    buffer[at..at + 2].copy_from_slice(&PAIRS[pair as usize]);
}

fn decimal(n: u64, buffer: &mut [u8; 20]) -> &[u8] {
    let mut n = n;
    let mut at = buffer.len();
    while n >= 10_000 {
        let low = n % 10_000;
        n /= 10_000;
        at -= 4;
        put_pair(buffer, at, low / 100);
        put_pair(buffer, at + 2, low % 100);
    }
    if n >= 100 {
        at -= 2;
        put_pair(buffer, at, n % 100);
        n /= 100;
    }
    if n >= 10 {
        at -= 2;
        put_pair(buffer, at, n);
    } else {
        at -= 1;
        buffer[at] = b'0' + n as u8;
    }
    &buffer[at..]
}

fn print_decimal(n: u64, sink: &mut Sums) {
    sink.write(decimal(n, &mut [0; 20]));
}

fn number_of(value: &[u8]) -> Option<u64> {
    value.try_into().ok().map(u64::from_be_bytes)
}

fn print_rank(value: &[u8], sink: &mut Sums) {
    match number_of(value) {
        Some(rank) => print_decimal(rank, sink),
        None => sink.write(b"-"),
    }
}

fn print_distance(value: &[u8], sink: &mut Sums) {
    match number_of(value) {
        Some(UNREACHED) => sink.write(b"inf"),
        Some(d) => print_decimal(d, sink),
        None => sink.write(b"-"),
    }
}

// Numbers of all lengths, and every sixteenth the one that stands for no path.
fn number(n: u64) -> u64 {
    if n % 16 == 0 {
        UNREACHED
    } else {
        n.wrapping_mul(11_400_714_819_323_198_485) >> (n % 64)
    }
}

fn run(count: u64) -> Sums {
    let mut sink = Sums::default();
    let mut value = Vec::new();
    for n in 0..count {
        value.clear();
        value.extend_from_slice(&number(n).to_be_bytes());
        print_rank(&value, &mut sink);
        print_distance(&value, &mut sink);
    }
    sink
}

fn main() -> ExitCode {
    let Some(count) = env::args().nth(1).and_then(|word| word.parse().ok()) else {
        eprintln!("usage: print N");
        return ExitCode::FAILURE;
    };
    let start = Instant::now();
    let sink = run(count);
    eprintln!("{:.6}", start.elapsed().as_secs_f64());
    println!("print: {} bytes, checksum {}", sink.count, sink.sum);
    ExitCode::SUCCESS
}
