//! Files: the five records, read one by one, and written.

use super::{check_sizes, Refusal, K_MAX};

/// A trace's file, read.
#[derive(Clone, Debug, PartialEq, Eq)]
pub struct Trace {
    pub k: u32,
    pub a: u32,
    pub pages: Vec<u32>,
}

/// A record of a trace after its KA: a request of a page, or as many in a row as its times says.
#[derive(Clone, Copy, Debug, PartialEq, Eq)]
pub enum Asked {
    Rq { page: u32 },
    Rr { page: u32, times: u16 },
}

impl Asked {
    /// The number of single requests that it stands for.
    pub fn requests(self) -> usize {
        match self {
            Asked::Rq { .. } => 1,
            Asked::Rr { times, .. } => usize::from(times),
        }
    }
}

/// A record of a schedule after its KA.
#[derive(Clone, Debug, PartialEq, Eq)]
pub enum Entry {
    Ev { t: u32, pages: Vec<u32> },
    Pf { t: u32, page: u32 },
}

/// What a reader finds at an offset of a file, with the offset behind it. A request's times are 1 for an RQ.
/// An EV's n pages start at `from`.
#[derive(Clone, Copy, Debug, PartialEq, Eq)]
pub enum Found {
    End,
    Sizes { k: u32, a: u32, next: usize },
    Request { page: u32, times: u32, next: usize },
    Bundle { t: u32, n: u32, from: usize, next: usize },
    Fetch { t: u32, page: u32, next: usize },
}

/// A place in a file.
pub struct Cursor<'a> {
    rest: &'a [u8],
}

impl<'a> Cursor<'a> {
    pub fn new(bytes: &'a [u8]) -> Self {
        Cursor { rest: bytes }
    }

    /// At an offset; 9 if it is past the end.
    fn at(file: &'a [u8], offset: usize) -> Result<Self, Refusal> {
        file.get(offset..).map(Cursor::new).ok_or(9)
    }

    /// The offset in the file that the cursor was made of.
    fn offset(&self, file: &[u8]) -> usize {
        file.len() - self.rest.len()
    }

    pub fn at_end(&self) -> bool {
        self.rest.is_empty()
    }

    /// The next n bytes; 5 if the file ends before.
    fn take(&mut self, n: usize) -> Result<&'a [u8], Refusal> {
        if self.rest.len() < n {
            return Err(5);
        }
        let (head, tail) = self.rest.split_at(n);
        self.rest = tail;
        Ok(head)
    }

    fn number(&mut self, width: usize) -> Result<u32, Refusal> {
        let bytes = self.take(width)?;
        Ok(bytes.iter().rev().fold(0, |n, &b| n << 8 | u32::from(b)))
    }

    /// The next mark; 4 if it is none of those expected here.
    fn mark(&mut self, expected: &[&[u8; 2]]) -> Result<&'a [u8], Refusal> {
        let mark = self.take(2)?;
        if expected.iter().any(|&e| e == mark) {
            Ok(mark)
        } else {
            Err(4)
        }
    }

    /// A KA record: 4 and 5, then 1 and 2.
    pub fn sizes(&mut self) -> Result<(u32, u32), Refusal> {
        self.mark(&[b"KA"])?;
        let mut fields = Cursor::new(self.take(4)?);
        let (k, a) = (fields.number(2)?, fields.number(2)?);
        check_sizes(k, a)?;
        Ok((k, a))
    }

    /// The page of an RQ or RR record and its times, 1 for an RQ: 4 and 5, then 13.
    fn request(&mut self) -> Result<(u32, u32), Refusal> {
        if self.mark(&[b"RQ", b"RR"])? == b"RQ" {
            return Ok((self.number(4)?, 1));
        }
        let mut fields = Cursor::new(self.take(6)?);
        let (page, times) = (fields.number(4)?, fields.number(2)?);
        if times == 0 {
            return Err(13);
        }
        Ok((page, times))
    }

    /// An EV or PF record, in the order mark, fixed fields, n, pages; n is at most `most`.
    pub fn entry(&mut self, most: u32) -> Result<Entry, Refusal> {
        if self.mark(&[b"EV", b"PF"])? == b"PF" {
            let mut fields = Cursor::new(self.take(8)?);
            let (t, page) = (fields.number(4)?, fields.number(4)?);
            return Ok(Entry::Pf { t, page });
        }
        let mut fields = Cursor::new(self.take(6)?);
        let (t, n) = (fields.number(4)?, fields.number(2)?);
        if n == 0 || n > most {
            return Err(6);
        }
        let mut list = Cursor::new(self.take(4 * n as usize)?);
        let pages = (0..n).map(|_| list.number(4)).collect::<Result<_, _>>()?;
        Ok(Entry::Ev { t, pages })
    }
}

/// Reads a trace of at most `most` requests, a run as its single ones. A record with one too many is judged
/// for 4, 5 and 13 before 3, and is 3 as a whole.
pub fn read_trace(bytes: &[u8], most: usize) -> Result<Trace, Refusal> {
    let mut file = Cursor::new(bytes);
    let (k, a) = file.sizes()?;
    let mut pages = Vec::new();
    while !file.at_end() {
        let (page, times) = file.request()?;
        if times as usize > most - pages.len() {
            return Err(3);
        }
        pages.extend((0..times).map(|_| page));
    }
    Ok(Trace { k, a, pages })
}

/// Reads a trace of at most as many requests as the list has places, their pages into its first ones.
pub fn fill_trace(bytes: &[u8], list: &mut [u32]) -> Result<Trace, Refusal> {
    let trace = read_trace(bytes, list.len())?;
    list[..trace.pages.len()].copy_from_slice(&trace.pages);
    Ok(trace)
}

/// The KA at the start of a file.
pub fn start(file: &[u8]) -> Result<Found, Refusal> {
    let mut cursor = Cursor::new(file);
    let (k, a) = cursor.sizes()?;
    Ok(Found::Sizes { k, a, next: cursor.offset(file) })
}

/// The trace reader: at offset 0 it expects KA, elsewhere RQ, RR or the end.
pub fn trace_record(file: &[u8], at: usize) -> Result<Found, Refusal> {
    let mut cursor = Cursor::at(file, at)?;
    if at == 0 {
        return start(file);
    }
    if cursor.at_end() {
        return Ok(Found::End);
    }
    let (page, times) = cursor.request()?;
    Ok(Found::Request { page, times, next: cursor.offset(file) })
}

/// The schedule reader does likewise with EV and PF. An EV's n is at most `bound`, and at most 256.
pub fn schedule_record(file: &[u8], at: usize, bound: u32) -> Result<Found, Refusal> {
    let mut cursor = Cursor::at(file, at)?;
    if at == 0 {
        return start(file);
    }
    if cursor.at_end() {
        return Ok(Found::End);
    }
    let entry = cursor.entry(bound.min(K_MAX))?;
    let next = cursor.offset(file);
    Ok(match entry {
        Entry::Ev { t, pages } => {
            Found::Bundle { t, n: pages.len() as u32, from: next - 4 * pages.len(), next }
        }
        Entry::Pf { t, page } => Found::Fetch { t, page, next },
    })
}

/// The bytes of n pages from an offset on, as a part of the file; those that are there.
pub fn pages_part(file: &[u8], from: usize, n: usize) -> &[u8] {
    let rest = file.get(from..).unwrap_or(&[]);
    &rest[..rest.len().min(n.saturating_mul(4))]
}

/// Writes a record's bytes into lent ones from an offset on and gives the offset behind it; 9, then 8.
fn write(record: &[u8], bytes: &mut [u8], at: usize) -> Result<usize, Refusal> {
    let rest = bytes.get_mut(at..).ok_or(9u32)?;
    rest.get_mut(..record.len()).ok_or(8u32)?.copy_from_slice(record);
    Ok(at + record.len())
}

/// The writers: what is wrong with the record itself comes before 9 and 8.
pub fn write_sizes(bytes: &mut [u8], at: usize, k: u32, a: u32) -> Result<usize, Refusal> {
    check_sizes(k, a)?;
    let mut record = Vec::new();
    put_sizes(&mut record, k, a);
    write(&record, bytes, at)
}

pub fn write_request(bytes: &mut [u8], at: usize, page: u32) -> Result<usize, Refusal> {
    let mut record = Vec::new();
    put_request(&mut record, page);
    write(&record, bytes, at)
}

pub fn write_run(bytes: &mut [u8], at: usize, page: u32, times: u16) -> Result<usize, Refusal> {
    if times == 0 {
        return Err(13);
    }
    let mut record = Vec::new();
    put_run(&mut record, page, times);
    write(&record, bytes, at)
}

pub fn write_entry(bytes: &mut [u8], at: usize, entry: &Entry) -> Result<usize, Refusal> {
    match entry {
        Entry::Ev { pages, .. } if pages.is_empty() || pages.len() > K_MAX as usize => return Err(6),
        _ => {}
    }
    let mut record = Vec::new();
    put_entry(&mut record, entry);
    write(&record, bytes, at)
}

pub fn put_sizes(out: &mut Vec<u8>, k: u32, a: u32) {
    out.extend_from_slice(b"KA");
    out.extend_from_slice(&k.to_le_bytes()[..2]);
    out.extend_from_slice(&a.to_le_bytes()[..2]);
}

pub fn put_request(out: &mut Vec<u8>, page: u32) {
    out.extend_from_slice(b"RQ");
    out.extend_from_slice(&page.to_le_bytes());
}

pub fn put_run(out: &mut Vec<u8>, page: u32, times: u16) {
    out.extend_from_slice(b"RR");
    out.extend_from_slice(&page.to_le_bytes());
    out.extend_from_slice(&times.to_le_bytes());
}

pub fn put_entry(out: &mut Vec<u8>, entry: &Entry) {
    match entry {
        Entry::Ev { t, pages } => {
            out.extend_from_slice(b"EV");
            out.extend_from_slice(&t.to_le_bytes());
            out.extend_from_slice(&(pages.len() as u32).to_le_bytes()[..2]);
            for page in pages {
                out.extend_from_slice(&page.to_le_bytes());
            }
        }
        Entry::Pf { t, page } => {
            out.extend_from_slice(b"PF");
            out.extend_from_slice(&t.to_le_bytes());
            out.extend_from_slice(&page.to_le_bytes());
        }
    }
}

/// The bytes of a trace's file with these records.
pub fn trace_of(k: u32, a: u32, records: &[Asked]) -> Vec<u8> {
    let mut out = Vec::new();
    put_sizes(&mut out, k, a);
    for &record in records {
        match record {
            Asked::Rq { page } => put_request(&mut out, page),
            Asked::Rr { page, times } => put_run(&mut out, page, times),
        }
    }
    out
}

/// The bytes of a trace's file in single records.
pub fn trace_file(k: u32, a: u32, pages: &[u32]) -> Vec<u8> {
    let single: Vec<Asked> = pages.iter().map(|&page| Asked::Rq { page }).collect();
    trace_of(k, a, &single)
}

/// The bytes of a schedule's file.
pub fn schedule_file(k: u32, a: u32, entries: &[Entry]) -> Vec<u8> {
    let mut out = Vec::new();
    put_sizes(&mut out, k, a);
    for entry in entries {
        put_entry(&mut out, entry);
    }
    out
}
