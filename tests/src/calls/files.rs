//! The readers and the writers of records, and the calls on a whole trace file.

use super::{Answer, Call, Lent};
use crate::exported::exports;
use crate::model::files::{self, Entry, Found, Trace};
use crate::model::{Refusal, K_MAX};

/// What every reader answers. The static library numbers the cases from 1 on, and 0 is a refusal.
fn told(found: Result<Found, Refusal>) -> Answer {
    match found {
        Err(refusal) => Answer::refused_case(refusal, 5),
        Ok(Found::End) => Answer::told("end", &[1, 0, 0, 0, 0]),
        Ok(Found::Sizes { k, a, next }) => {
            Answer::told("KA", &[2, u64::from(k), u64::from(a), next as u64, 0])
        }
        Ok(Found::Request { page, times, next }) => {
            let kind = if times == 1 { "one request" } else { "run" };
            Answer::told(kind, &[3, u64::from(page), u64::from(times), next as u64, 0])
        }
        Ok(Found::Bundle { t, n, from, next }) => {
            Answer::told("EV", &[4, u64::from(t), u64::from(n), from as u64, next as u64])
        }
        Ok(Found::Fetch { t, page, next }) => {
            Answer::told("PF", &[5, u64::from(t), u64::from(page), next as u64, 0])
        }
    }
}

/// The start of a file.
#[derive(Clone, Debug, PartialEq, Eq)]
pub struct ReadKa {
    pub file: Lent<u8>,
}

impl Call for ReadKa {
    const NAME: &'static str = "read_ka";
    const REFUSALS: &'static [Refusal] = &[4, 5, 1, 2];
    const KINDS: &'static [&'static str] = &["KA"];

    fn expected(&mut self) -> Answer {
        told(files::start(self.file.list()))
    }

    fn exported(&mut self, out: &mut [u64]) {
        exports::read_ka(self.file.list(), out);
    }
}

/// A reader at an offset of a file: a struct for each of them, which the second implementation reads in
/// one way.
macro_rules! reader {
    ($reader:ident, $name:ident, $refusals:expr, $kinds:expr, $model:expr) => {
        #[derive(Clone, Debug, PartialEq, Eq)]
        pub struct $reader {
            pub file: Lent<u8>,
            pub at: usize,
        }

        impl Call for $reader {
            const NAME: &'static str = stringify!($name);
            const REFUSALS: &'static [Refusal] = &$refusals;
            const KINDS: &'static [&'static str] = &$kinds;

            fn expected(&mut self) -> Answer {
                told($model(self.file.list(), self.at))
            }

            fn exported(&mut self, out: &mut [u64]) {
                exports::$name(self.file.list(), self.at, out);
            }
        }
    };
}

fn schedule_record(file: &[u8], at: usize) -> Result<Found, Refusal> {
    files::schedule_record(file, at, K_MAX)
}

const IN_TRACES: [&str; 4] = ["end", "KA", "one request", "run"];

reader!(ReadTrace, read_trace, [9, 4, 5, 1, 2, 13], IN_TRACES, files::trace_record);
reader!(TraceReader, trace_reader, [9, 4, 5, 1, 2, 13], IN_TRACES, files::trace_record);
reader!(ReadSchedule, read_schedule, [9, 4, 5, 1, 2, 6], ["end", "KA", "EV", "PF"], schedule_record);
reader!(ScheduleReader, schedule_reader, [9, 4, 5, 1, 2, 6], ["end", "KA", "EV", "PF"], schedule_record);

/// The schedule reader with a bound for an EV's n.
#[derive(Clone, Debug, PartialEq, Eq)]
pub struct ReadScheduleWithin {
    pub file: Lent<u8>,
    pub at: usize,
    pub bound: u32,
}

impl Call for ReadScheduleWithin {
    const NAME: &'static str = "read_schedule_within";
    const REFUSALS: &'static [Refusal] = &[9, 4, 5, 1, 2, 6];
    const KINDS: &'static [&'static str] = &["end", "KA", "EV", "PF"];

    fn expected(&mut self) -> Answer {
        told(files::schedule_record(self.file.list(), self.at, self.bound))
    }

    fn exported(&mut self, out: &mut [u64]) {
        exports::read_schedule_within(self.file.list(), self.at, self.bound, out);
    }
}

/// What both calls on a whole trace file answer: k, a, and the number of single requests.
fn whole(trace: Result<Trace, Refusal>, most: usize) -> Answer {
    match trace {
        Err(refusal) => Answer::refused(refusal, 4),
        Ok(Trace { k, a, pages }) => {
            let kind = if pages.len() == most { "at the limit" } else { "below it" };
            Answer::told(kind, &[0, u64::from(k), u64::from(a), pages.len() as u64])
        }
    }
}

/// A trace file judged whole, with a limit of requests.
#[derive(Clone, Debug, PartialEq, Eq)]
pub struct TraceCount {
    pub file: Lent<u8>,
    pub most: usize,
}

impl Call for TraceCount {
    const NAME: &'static str = "trace_count";
    const REFUSALS: &'static [Refusal] = &[4, 5, 1, 2, 13, 3];
    const KINDS: &'static [&'static str] = &["at the limit", "below it"];

    fn expected(&mut self) -> Answer {
        whole(files::read_trace(self.file.list(), self.most), self.most)
    }

    fn exported(&mut self, out: &mut [u64]) {
        exports::trace_count(self.file.list(), self.most, out);
    }
}

/// The same with the length of a lent list as the limit; the list gets the pages of all requests.
#[derive(Clone, Debug, PartialEq, Eq)]
pub struct TraceFill {
    pub file: Lent<u8>,
    pub pages: Lent<u32>,
}

impl Call for TraceFill {
    const NAME: &'static str = "trace_fill";
    const REFUSALS: &'static [Refusal] = TraceCount::REFUSALS;
    const KINDS: &'static [&'static str] = TraceCount::KINDS;

    fn expected(&mut self) -> Answer {
        let trace = files::fill_trace(self.file.list(), self.pages.list_mut());
        whole(trace, self.pages.list().len())
    }

    fn exported(&mut self, out: &mut [u64]) {
        exports::trace_fill(self.file.list(), self.pages.list_mut(), out);
    }
}

/// The part of a file that has an EV's pages, copied into lent bytes.
#[derive(Clone, Debug, PartialEq, Eq)]
pub struct ReadPages {
    pub file: Lent<u8>,
    pub from: usize,
    pub n: usize,
    pub bytes: Lent<u8>,
}

impl Call for ReadPages {
    const NAME: &'static str = "read_pages";
    const REFUSALS: &'static [Refusal] = &[];
    const KINDS: &'static [&'static str] = &["whole", "cut", "none"];

    fn expected(&mut self) -> Answer {
        let part = files::pages_part(self.file.list(), self.from, self.n);
        for (to, from) in self.bytes.list_mut().iter_mut().zip(part) {
            *to = *from;
        }
        let kind = match part.len() {
            0 => "none",
            length if length / 4 == self.n => "whole",
            _ => "cut",
        };
        Answer::told(kind, &[part.len() as u64])
    }

    fn exported(&mut self, out: &mut [u64]) {
        exports::read_pages(self.file.list(), self.from, self.n, self.bytes.list_mut(), out);
    }
}

/// What every writer answers.
fn written(next: Result<usize, Refusal>) -> Answer {
    match next {
        Err(refusal) => Answer::refused(refusal, 2),
        Ok(next) => Answer::told("written", &[0, next as u64]),
    }
}

#[derive(Clone, Debug, PartialEq, Eq)]
pub struct WriteKa {
    pub bytes: Lent<u8>,
    pub at: usize,
    pub k: u32,
    pub a: u32,
}

impl Call for WriteKa {
    const NAME: &'static str = "write_ka";
    const REFUSALS: &'static [Refusal] = &[1, 2, 9, 8];
    const KINDS: &'static [&'static str] = &["written"];

    fn expected(&mut self) -> Answer {
        written(files::write_sizes(self.bytes.list_mut(), self.at, self.k, self.a))
    }

    fn exported(&mut self, out: &mut [u64]) {
        exports::write_ka(self.bytes.list_mut(), self.at, self.k, self.a, out);
    }
}

#[derive(Clone, Debug, PartialEq, Eq)]
pub struct WriteRq {
    pub bytes: Lent<u8>,
    pub at: usize,
    pub page: u32,
}

impl Call for WriteRq {
    const NAME: &'static str = "write_rq";
    const REFUSALS: &'static [Refusal] = &[9, 8];
    const KINDS: &'static [&'static str] = &["written"];

    fn expected(&mut self) -> Answer {
        written(files::write_request(self.bytes.list_mut(), self.at, self.page))
    }

    fn exported(&mut self, out: &mut [u64]) {
        exports::write_rq(self.bytes.list_mut(), self.at, self.page, out);
    }
}

#[derive(Clone, Debug, PartialEq, Eq)]
pub struct WriteRr {
    pub bytes: Lent<u8>,
    pub at: usize,
    pub page: u32,
    pub times: u16,
}

impl Call for WriteRr {
    const NAME: &'static str = "write_rr";
    const REFUSALS: &'static [Refusal] = &[13, 9, 8];
    const KINDS: &'static [&'static str] = &["written"];

    fn expected(&mut self) -> Answer {
        written(files::write_run(self.bytes.list_mut(), self.at, self.page, self.times))
    }

    fn exported(&mut self, out: &mut [u64]) {
        exports::write_rr(self.bytes.list_mut(), self.at, self.page, self.times, out);
    }
}

#[derive(Clone, Debug, PartialEq, Eq)]
pub struct WriteEv {
    pub bytes: Lent<u8>,
    pub at: usize,
    pub t: u32,
    pub pages: Vec<u32>,
}

impl Call for WriteEv {
    const NAME: &'static str = "write_ev";
    const REFUSALS: &'static [Refusal] = &[6, 9, 8];
    const KINDS: &'static [&'static str] = &["written"];

    fn expected(&mut self) -> Answer {
        let entry = Entry::Ev { t: self.t, pages: self.pages.clone() };
        written(files::write_entry(self.bytes.list_mut(), self.at, &entry))
    }

    fn exported(&mut self, out: &mut [u64]) {
        exports::write_ev(self.bytes.list_mut(), self.at, self.t, &self.pages, out);
    }
}

#[derive(Clone, Debug, PartialEq, Eq)]
pub struct WritePf {
    pub bytes: Lent<u8>,
    pub at: usize,
    pub t: u32,
    pub page: u32,
}

impl Call for WritePf {
    const NAME: &'static str = "write_pf";
    const REFUSALS: &'static [Refusal] = &[9, 8];
    const KINDS: &'static [&'static str] = &["written"];

    fn expected(&mut self) -> Answer {
        let entry = Entry::Pf { t: self.t, page: self.page };
        written(files::write_entry(self.bytes.list_mut(), self.at, &entry))
    }

    fn exported(&mut self, out: &mut [u64]) {
        exports::write_pf(self.bytes.list_mut(), self.at, self.t, self.page, out);
    }
}
