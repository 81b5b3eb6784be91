// Files of tuples in plain Rust, with the same bytes as those of px_stream over px_filedisk: blocks of a stamp (the file's
// number in 4 bytes, four zero bytes, the page's number in 8) and a page.
// A block is written and read by one call, and only what lies behind a page's last tuple is zeroed.
#![allow(dead_code)]

use std::fs::{self, File, OpenOptions};
use std::io;
use std::os::unix::fs::FileExt;
use std::path::Path;

pub const STAMP: usize = 16;
pub const HEADER: usize = 32;
pub const FRONT: usize = 13;
pub const STREAM: u8 = 1;
pub const RUN: u8 = 2;
pub const MESSAGE: u8 = 0;
pub const VERTEX: u8 = 1;
pub const CHILD: u8 = 5;

/// A file of blocks, with its number.
pub struct Pages {
    file: File,
    number: u32,
    page: usize,
}

impl Pages {
    pub fn open(folder: &str, number: u32, page: usize) -> io::Result<Pages> {
        fs::create_dir_all(folder)?;
        let file = OpenOptions::new()
            .read(true)
            .write(true)
            .create(true)
            .truncate(true)
            .open(Path::new(folder).join(format!("f{number}")))?;
        Ok(Pages { file, number, page })
    }

    pub fn page(&self) -> usize {
        self.page
    }

    pub fn clear(&self) -> io::Result<()> {
        self.file.set_len(0)
    }

    fn stamp(&self, page: u64) -> [u8; STAMP] {
        let mut stamp = [0; STAMP];
        stamp[..4].copy_from_slice(&self.number.to_be_bytes());
        stamp[8..].copy_from_slice(&page.to_be_bytes());
        stamp
    }

    /// An empty block.
    pub fn block(&self) -> Vec<u8> {
        vec![0; STAMP + self.page]
    }

    pub fn write(&self, page: u64, block: &mut [u8]) -> io::Result<()> {
        block[..STAMP].copy_from_slice(&self.stamp(page));
        self.file.write_all_at(block, page * block.len() as u64)
    }

    pub fn read(&self, page: u64, block: &mut [u8]) -> io::Result<()> {
        self.file
            .read_exact_at(block, page * block.len() as u64)?;
        if block[..STAMP] != self.stamp(page) {
            return Err(io::Error::from(io::ErrorKind::InvalidData));
        }
        Ok(())
    }
}

/// Puts tuples into a file, page by page.
pub struct Writer {
    block: Vec<u8>,
    pages: u64,
    count: u32,
    used: usize,
}

impl Writer {
    /// A writer whose first page is this one.
    pub fn at(file: &Pages, first: u64) -> Writer {
        Writer {
            block: file.block(),
            pages: first,
            count: 0,
            used: HEADER,
        }
    }

    pub fn put(&mut self, file: &Pages, key: u64, tag: u8, body: &[u8]) -> io::Result<()> {
        let size = FRONT + body.len();
        if self.used + size > file.page() {
            self.flush(file, STREAM)?;
        }
        let at = STAMP + self.used;
        let out = &mut self.block[at..at + size];
        out[..8].copy_from_slice(&key.to_be_bytes());
        out[8] = tag;
        out[9..FRONT].copy_from_slice(&(body.len() as u32).to_be_bytes());
        out[FRONT..].copy_from_slice(body);
        self.count += 1;
        self.used += size;
        Ok(())
    }

    fn flush(&mut self, file: &Pages, kind: u8) -> io::Result<()> {
        let page = &mut self.block[STAMP..];
        page[0] = kind;
        page[4..8].copy_from_slice(&self.count.to_be_bytes());
        page[8..12].copy_from_slice(&(self.used as u32).to_be_bytes());
        page[self.used..].fill(0);
        file.write(self.pages, &mut self.block)?;
        self.pages += 1;
        self.count = 0;
        self.used = HEADER;
        Ok(())
    }

    /// Writes the last page, where it has a tuple, and answers the page after it.
    pub fn finish(&mut self, file: &Pages) -> io::Result<u64> {
        if self.count > 0 {
            self.flush(file, STREAM)?;
        }
        Ok(self.pages)
    }
}

/// Writes the page before a run, with the number of its pages.
pub fn write_run_header(file: &Pages, page: u64, pages: u64) -> io::Result<()> {
    let mut header = Writer::at(file, page);
    header.put(file, 0, CHILD, &pages.to_be_bytes())?;
    header.flush(file, RUN)
}

pub struct Tuple<'a> {
    pub key: u64,
    pub tag: u8,
    pub body: &'a [u8],
}

/// Gives the tuples of some pages of a file, whose bodies lie in its block.
pub struct Reader {
    block: Vec<u8>,
    page: u64,
    end: u64,
    left: u32,
    at: usize,
}

impl Reader {
    pub fn new(file: &Pages, first: u64, end: u64) -> Reader {
        Reader {
            block: file.block(),
            page: first,
            end,
            left: 0,
            at: HEADER,
        }
    }

    fn turn(&mut self, file: &Pages) -> io::Result<()> {
        file.read(self.page, &mut self.block)?;
        self.page += 1;
        self.left = number(&self.block[STAMP + 4..STAMP + 8]);
        self.at = HEADER;
        Ok(())
    }

    /// The next tuple's key, where there is one.
    pub fn peek(&mut self, file: &Pages) -> io::Result<Option<u64>> {
        while self.left == 0 || file.page() < self.at + FRONT {
            if self.page >= self.end {
                return Ok(None);
            }
            self.turn(file)?;
        }
        let at = STAMP + self.at;
        let key = self.block[at..at + 8].try_into().unwrap();
        Ok(Some(u64::from_be_bytes(key)))
    }

    pub fn next(&mut self, file: &Pages) -> io::Result<Option<Tuple<'_>>> {
        let Some(key) = self.peek(file)? else {
            return Ok(None);
        };
        let rest = &self.block[STAMP + self.at..];
        let (front, rest) = rest.split_at(FRONT);
        let len = (number(&front[9..]) as usize).min(rest.len());
        self.left -= 1;
        self.at += FRONT + len;
        Ok(Some(Tuple {
            key,
            tag: front[8],
            body: &rest[..len],
        }))
    }
}

pub fn number(bytes: &[u8]) -> u32 {
    u32::from_be_bytes(bytes.try_into().unwrap())
}

pub fn number_of(body: &[u8]) -> u64 {
    body.try_into().map_or(0, u64::from_be_bytes)
}
