// The yardstick for pages of tuples, in plain Rust: `pages N` fills N pages and walks them.
// It writes the same bytes as px_pages, and comes to the same checksum as `px_bench pages N`.
use std::env;
use std::process::ExitCode;
use std::time::Instant;

const PAGE: usize = 262_144;
const HEADER: usize = 32;
const FRONT: usize = 13;
const STREAM: u8 = 1;
const VERTEX: u8 = 1;

#[derive(Default)]
struct Tally {
    count: u64,
    sum: u64,
}

struct Writer {
    count: u32,
    used: usize,
}

impl Writer {
    fn start(page: &mut [u8]) -> Writer {
        page.fill(0);
        page[0] = STREAM;
        let writer = Writer {
            count: 0,
            used: HEADER,
        };
        writer.put_counts(page);
        writer
    }

    fn put_counts(&self, page: &mut [u8]) {
        page[4..8].copy_from_slice(&self.count.to_be_bytes());
        page[8..12].copy_from_slice(&(self.used as u32).to_be_bytes());
    }

    fn fits(&self, page: &[u8], body: usize) -> bool {
        self.used + FRONT + body <= page.len()
    }

    fn append(&mut self, page: &mut [u8], key: u64, tag: u8, body: &[u8]) {
        let end = self.used + FRONT + body.len();
        let out = &mut page[self.used..end];
        out[..8].copy_from_slice(&key.to_be_bytes());
        out[8] = tag;
        out[9..FRONT].copy_from_slice(&(body.len() as u32).to_be_bytes());
        out[FRONT..].copy_from_slice(body);
        self.count += 1;
        self.used = end;
        self.put_counts(page);
    }
}

struct Tuple {
    key: u64,
    len: u32,
}

struct Reader {
    left: u32,
    at: usize,
}

impl Reader {
    fn open(page: &[u8]) -> Reader {
        Reader {
            left: number(&page[4..8]),
            at: HEADER,
        }
    }

    fn next(&mut self, page: &[u8]) -> Option<Tuple> {
        if self.left == 0 || page.len() < self.at + FRONT {
            return None;
        }
        let front = &page[self.at..self.at + FRONT];
        let key = u64::from_be_bytes(front[..8].try_into().unwrap());
        let room = page.len() - self.at - FRONT;
        let len = (number(&front[9..]) as usize).min(room);
        self.left -= 1;
        self.at += FRONT + len;
        Some(Tuple {
            key,
            len: len as u32,
        })
    }
}

fn number(bytes: &[u8]) -> u32 {
    u32::from_be_bytes(bytes.try_into().unwrap())
}

fn body_with_edge(dst: u64) -> [u8; 21] {
    let mut body = [0; 21];
    body[8] = 1;
    body[9..17].copy_from_slice(&dst.to_be_bytes());
    body[20] = 1;
    body
}

fn fill(page: &mut [u8], first_key: u64, body: &[u8]) {
    let mut writer = Writer::start(page);
    let mut key = first_key;
    while writer.fits(page, body.len()) {
        writer.append(page, key, VERTEX, body);
        key = key.wrapping_add(1);
    }
}

fn walk(page: &[u8]) -> Tally {
    let mut reader = Reader::open(page);
    let mut count = 0;
    let mut sum: u64 = 0;
    while let Some(tuple) = reader.next(page) {
        count += 1;
        sum = sum.wrapping_add(tuple.key).wrapping_add(tuple.len.into());
    }
    Tally { count, sum }
}

fn run(pages: u64) -> Tally {
    let mut page = vec![0; PAGE];
    let mut tally = Tally::default();
    for number in 0..pages {
        fill(&mut page, tally.count, &body_with_edge(number));
        let walked = walk(&page);
        tally.count += walked.count;
        tally.sum = tally.sum.wrapping_add(walked.sum);
    }
    tally
}

fn main() -> ExitCode {
    let Some(pages) = env::args().nth(1).and_then(|word| word.parse().ok()) else {
        eprintln!("usage: pages N");
        return ExitCode::FAILURE;
    };
    let start = Instant::now();
    let tally = run(pages);
    eprintln!("{:.6}", start.elapsed().as_secs_f64());
    println!("pages: {} tuples, checksum {}", tally.count, tally.sum);
    ExitCode::SUCCESS
}
