//! Damage to the bytes of a file, drawn, and what may stand at the end of one.

use crate::judge_cases::{rq, rr};
use crate::model::files::put_run;
use crate::rng::Rng;

const KNOWN: [&[u8; 2]; 5] = [b"KA", b"RQ", b"RR", b"EV", b"PF"];
const UNKNOWN: [&[u8; 2]; 6] = [b"AK", b"QR", b"rq", b"VE", b"FP", b"\0\0"];

/// One piece of damage. The file may come out as it was.
pub fn damage(bytes: &[u8], rng: &mut Rng) -> Vec<u8> {
    let mut out = bytes.to_vec();
    let at = rng.below(out.len() + 1);
    match rng.below(10) {
        0 => out.truncate(at),
        1 => cut_near_end(&mut out, rng),
        2 => change_byte(&mut out, rng),
        3 => change_mark(&mut out, rng),
        4 => out.insert(at, rng.byte()),
        5 if at < out.len() => drop(out.remove(at)),
        6 => repeat_part(&mut out, rng),
        7 => out.extend((0..rng.between(1, 12)).map(|_| rng.byte())),
        8 => change_times(&mut out, rng),
        _ => change_head(&mut out, rng),
    }
    out
}

/// Several pieces of damage, one after the other.
pub fn damaged(bytes: &[u8], pieces: usize, rng: &mut Rng) -> Vec<u8> {
    (0..pieces).fold(bytes.to_vec(), |file, _| damage(&file, rng))
}

fn cut_near_end(out: &mut Vec<u8>, rng: &mut Rng) {
    let cut = rng.between(1, 14).min(out.len());
    out.truncate(out.len() - cut);
}

fn change_byte(out: &mut [u8], rng: &mut Rng) {
    if !out.is_empty() {
        let at = rng.below(out.len());
        out[at] = if rng.once_in(2) { rng.byte() } else { out[at] ^ (1 << rng.below(8)) };
    }
}

/// Where one of these marks stands with at least so many bytes from it on.
fn places(bytes: &[u8], marks: &[&[u8; 2]], length: usize) -> Vec<usize> {
    let stands = |at: usize| marks.iter().any(|&mark| bytes[at..].starts_with(mark));
    (0..(bytes.len() + 1).saturating_sub(length)).filter(|&at| stands(at)).collect()
}

/// Puts another mark over one that is there.
fn change_mark(out: &mut [u8], rng: &mut Rng) {
    let places = places(out, &KNOWN, 2);
    if !places.is_empty() {
        let at = rng.pick(&places);
        let mark = if rng.once_in(2) { rng.pick(&KNOWN) } else { rng.pick(&UNKNOWN) };
        out[at..at + 2].copy_from_slice(mark);
    }
}

/// Other times for an RR: none, few or very many. A file without an RR gets one at its end.
fn change_times(out: &mut Vec<u8>, rng: &mut Rng) {
    let times = rng.pick(&[0, 0, 0, 1, 2, 256, 4_095, 4_096, 4_097, 65_535]);
    let places = places(out, &[b"RR"], 8);
    if places.is_empty() {
        put_run(out, rng.word(), times);
    } else {
        let at = rng.pick(&places) + 6;
        out[at..at + 2].copy_from_slice(&times.to_le_bytes());
    }
}

fn repeat_part(out: &mut Vec<u8>, rng: &mut Rng) {
    let from = rng.below(out.len() + 1);
    let to = rng.between(from, out.len().min(from + 40));
    let part = out[from..to].to_vec();
    let at = rng.pick(&[to, from, out.len()]);
    out.splice(at..at, part);
}

/// Another k or a.
fn change_head(out: &mut [u8], rng: &mut Rng) {
    if out.len() >= 6 {
        let value = rng.pick(&[0u16, 1, 2, 3, 255, 256, 257, 65_535]).to_le_bytes();
        let at = rng.pick(&[2, 4]);
        out[at..at + 2].copy_from_slice(&value);
    }
}

/// What may stand behind requests that are as many as the limit, with what is due then.
pub fn behind_the_limit() -> Vec<(Vec<u8>, u32)> {
    let mut out = vec![
        (vec![], 0),
        (rr(5, 0), 13),
        ([rr(5, 0), rq(5)].concat(), 13),
        (rq(5), 3),
        (rr(5, 1), 3),
        (rr(5, 65_535), 3),
        (b"XX".to_vec(), 4),
        (b"KA".to_vec(), 4),
        (b"EV".to_vec(), 4),
        (b"R".to_vec(), 5),
        (rq(5)[..5].to_vec(), 5),
    ];
    out.extend((2..8).map(|cut| (rr(5, 0)[..cut].to_vec(), 5)));
    out
}
