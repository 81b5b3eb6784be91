// The yardstick for files of tuples, in plain Rust: `streams N FOLDER` writes N tuples of 34 bytes to a file and reads
// them back. The file has the same bytes as that of px_stream over px_filedisk, and the answer is the same checksum as
// that of `px_bench streams N FOLDER`.
mod tuples;

use std::env;
use std::error::Error;
use std::io;
use std::time::Instant;
use tuples::{Pages, Reader, VERTEX, Writer};

const PAGE: usize = 262_144;
const NUMBER: u32 = 1;

#[derive(Default)]
struct Tally {
    count: u64,
    sum: u64,
}

fn body_with_edge(dst: u64) -> [u8; 21] {
    let mut body = [0; 21];
    body[8] = 1;
    body[9..17].copy_from_slice(&dst.to_be_bytes());
    body[20] = 1;
    body
}

fn target_of(body: &[u8]) -> u64 {
    body.get(9..17)
        .map_or(0, |dst| u64::from_be_bytes(dst.try_into().unwrap()))
}

fn write(file: &Pages, count: u64) -> io::Result<u64> {
    let bodies = [1, 2, 3, 5, 7, 11, 13, 17].map(body_with_edge);
    let mut writer = Writer::at(file, 0);
    for key in 0..count {
        writer.put(file, key, VERTEX, &bodies[(key % 8) as usize])?;
    }
    writer.finish(file)
}

fn read(file: &Pages, pages: u64) -> io::Result<Tally> {
    let mut reader = Reader::new(file, 0, pages);
    let mut tally = Tally::default();
    while let Some(tuple) = reader.next(file)? {
        tally.count += 1;
        tally.sum = tally
            .sum
            .wrapping_add(tuple.key)
            .wrapping_add(tuple.tag.into())
            .wrapping_add(target_of(tuple.body));
    }
    Ok(tally)
}

fn main() -> Result<(), Box<dyn Error>> {
    let words: Vec<String> = env::args().skip(1).collect();
    let [count, folder] = words.as_slice() else {
        return Err("usage: streams N FOLDER".into());
    };
    let count = count.parse()?;
    let start = Instant::now();
    let file = Pages::open(folder, NUMBER, PAGE)?;
    let pages = write(&file, count)?;
    let tally = read(&file, pages)?;
    eprintln!("{:.6}", start.elapsed().as_secs_f64());
    println!(
        "streams: {} tuples on {pages} pages, checksum {}",
        tally.count, tally.sum
    );
    Ok(())
}
