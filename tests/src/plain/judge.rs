//! The judge for sound files: the buffer is a hash set, and a wrong schedule has no number.

use std::collections::HashSet;

fn half(bytes: &[u8], at: usize) -> Option<usize> {
    Some(usize::from(u16::from_le_bytes(bytes.get(at..at + 2)?.try_into().ok()?)))
}

fn word(bytes: &[u8], at: usize) -> Option<u32> {
    Some(u32::from_le_bytes(bytes.get(at..at + 4)?.try_into().ok()?))
}

/// The pages of a trace's file, each as often as it is asked for.
pub fn trace_pages(trace: &[u8]) -> Option<Vec<u32>> {
    let mut rest = trace.get(6..)?;
    let mut pages = Vec::with_capacity(rest.len() / 6);
    while !rest.is_empty() {
        let page = word(rest, 2)?;
        match &rest[..2] {
            b"RQ" => {
                pages.push(page);
                rest = &rest[6..];
            }
            b"RR" => {
                pages.resize(pages.len() + half(rest, 6)?, page);
                rest = &rest[8..];
            }
            _ => return None,
        }
    }
    Some(pages)
}

/// Adds the pages requested from `from` to before `to`.
fn close(buffer: &mut HashSet<u32>, pages: &[u32], from: usize, to: usize, k: usize) -> Option<usize> {
    for &page in pages.get(from..to)? {
        buffer.insert(page);
        if buffer.len() > k {
            return None;
        }
    }
    Some(to)
}

/// The cost of a legal schedule.
pub fn judge(trace: &[u8], schedule: &[u8]) -> Option<u32> {
    let pages = trace_pages(trace)?;
    let k = half(trace, 2)?;
    let mut buffer = HashSet::with_capacity(2 * k);
    let (mut at, mut now, mut cost) = (6, 0, 0);
    while at < schedule.len() {
        let t = word(schedule, at + 2)? as usize;
        if t > now {
            now = close(&mut buffer, &pages, now, t, k)?;
        }
        if schedule[at..].starts_with(b"EV") {
            let n = half(schedule, at + 6)?;
            for i in 0..n {
                if !buffer.remove(&word(schedule, at + 8 + 4 * i)?) {
                    return None;
                }
            }
            cost += 1;
            at += 8 + 4 * n;
        } else {
            if !buffer.insert(word(schedule, at + 6)?) {
                return None;
            }
            at += 10;
        }
    }
    close(&mut buffer, &pages, now, pages.len(), k)?;
    Some(cost)
}
