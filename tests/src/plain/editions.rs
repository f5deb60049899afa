//! A trace file turned into the old or the new edition: a pass over the records that judges and measures, and
//! one that writes.

use crate::model::check_sizes;

/// The most requests that an RR can say.
const LONGEST: usize = 65_535;

/// Judges the KA.
fn judge_head(file: &[u8]) -> Result<(), u32> {
    match *file {
        [b'K', b'A', k, high_k, a, high_a, ..] => {
            let [k, a] = [[k, high_k], [a, high_a]].map(u16::from_le_bytes);
            check_sizes(u32::from(k), u32::from(a))
        }
        [b'K', b'A', ..] | [] | [_] => Err(5),
        _ => Err(4),
    }
}

/// Judges the records behind the KA one by one, and hands on the page and the times of each.
#[inline(always)]
fn each_record(file: &[u8], most: usize, mut give: impl FnMut(u32, usize)) -> Result<(), u32> {
    let (mut rest, mut left) = (&file[6..], most);
    while !rest.is_empty() {
        let (page, times, tail) = match rest {
            [b'R', b'Q', p0, p1, p2, p3, tail @ ..] => ([*p0, *p1, *p2, *p3], 1, tail),
            [b'R', b'R', p0, p1, p2, p3, low, high, tail @ ..] => {
                ([*p0, *p1, *p2, *p3], usize::from(u16::from_le_bytes([*low, *high])), tail)
            }
            [b'R', b'Q' | b'R', ..] | [_] => return Err(5),
            _ => return Err(4),
        };
        if times == 0 {
            return Err(13);
        }
        if times > left {
            return Err(3);
        }
        give(u32::from_le_bytes(page), times);
        left -= times;
        rest = tail;
    }
    Ok(())
}

/// The same for each longest run of a page.
#[inline(always)]
fn each_run(file: &[u8], most: usize, mut give: impl FnMut(u32, usize)) -> Result<(), u32> {
    let (mut page, mut run) = (0, 0);
    each_record(file, most, |next, times| {
        if next != page && run > 0 {
            give(page, run);
            run = 0;
        }
        page = next;
        run += times;
    })?;
    if run > 0 {
        give(page, run);
    }
    Ok(())
}

/// An RQ, and at the same time the first six bytes of an RR but for its mark.
fn record(mark: &[u8; 2], page: u32) -> [u8; 6] {
    let [p0, p1, p2, p3] = page.to_le_bytes();
    [mark[0], mark[1], p0, p1, p2, p3]
}

/// The old edition in lent bytes: its length, or a refusal with nothing written.
pub fn to_old(file: &[u8], most: usize, bytes: &mut [u8]) -> Result<usize, u32> {
    judge_head(file)?;
    let mut length = 6;
    each_record(file, most, |_, times| length += 6 * times)?;
    let output = bytes.get_mut(..length).ok_or(8u32)?;
    let (head, mut rest) = output.split_at_mut(6);
    head.copy_from_slice(&file[..6]);
    each_record(file, most, |page, times| {
        let (now, later) = std::mem::take(&mut rest).split_at_mut(6 * times);
        let single = record(b"RQ", page);
        now.chunks_exact_mut(6).for_each(|place| place.copy_from_slice(&single));
        rest = later;
    })?;
    Ok(length)
}

/// The length of a run's records in the new edition.
fn run_length(run: usize) -> usize {
    match run {
        1 => 6,
        2..=LONGEST => 8,
        _ => 8 * (run / LONGEST) + [0, 6, 8][(run % LONGEST).min(2)],
    }
}

/// Writes a run's records to the front of the bytes and gives those behind them.
fn put_run(bytes: &mut [u8], page: u32, run: usize) -> &mut [u8] {
    if run == 1 {
        let (now, later) = bytes.split_at_mut(6);
        now.copy_from_slice(&record(b"RQ", page));
        return later;
    }
    let times = run.min(LONGEST);
    let (now, later) = bytes.split_at_mut(8);
    now[..6].copy_from_slice(&record(b"RR", page));
    now[6..].copy_from_slice(&(times as u16).to_le_bytes());
    if run > times {
        put_run(later, page, run - times)
    } else {
        later
    }
}

/// The new edition likewise.
pub fn to_new(file: &[u8], most: usize, bytes: &mut [u8]) -> Result<usize, u32> {
    judge_head(file)?;
    let mut length = 6;
    each_run(file, most, |_, run| length += run_length(run))?;
    let output = bytes.get_mut(..length).ok_or(8u32)?;
    let (head, mut rest) = output.split_at_mut(6);
    head.copy_from_slice(&file[..6]);
    each_run(file, most, |page, run| rest = put_run(std::mem::take(&mut rest), page, run))?;
    Ok(length)
}
