//! Marking with revealed pages.

use super::{Answer, Call, Lent};
use crate::exported::marking;
use crate::model::mark::{self, Lists, Record, Served};
use crate::model::{layers, Refusal};

/// A request with its record and its seven lists.
#[derive(Clone, Debug, PartialEq, Eq)]
pub struct Request {
    pub record: Record,
    pub count: u32,
    pub cache: Lent<u32>,
    pub marks: Lent<u32>,
    pub priorities: Lent<u64>,
    pub evicted: Lent<u32>,
    pub pages: Lent<u32>,
    pub numbers: Lent<u32>,
    pub times: Lent<u32>,
    pub page: u32,
}

/// The number of fields of a request's answer.
const FIELDS: usize = 17;

/// The kinds of a bundle: of unmarked pages, of unmarked ones and then marked ones, of marked ones, and
/// before these one that equal priorities leave to the page numbers.
const BUNDLES: [&str; 4] = ["unmarked", "unmarked, then marked", "marked", "by page"];

fn fields(served: &Served) -> [u64; FIELDS] {
    let Record { k, a, requests, loads, evictions, t, layers } = &served.record;
    let own = [0, *k, *a, *requests, *loads, *evictions, *t];
    let layers::Record { k, a, requests, evictions, s, appends, joins, lifts } = *layers;
    let inner = [k, a, requests, evictions, s, appends, joins, lifts];
    let all = own.into_iter().chain(inner).chain([served.count, served.answer]).map(u64::from);
    all.collect::<Vec<u64>>().try_into().expect("there are as many fields")
}

impl Request {
    /// The call's lists, its record and its count, apart.
    fn parts(&mut self) -> (&Record, u32, Lists<'_>) {
        let lists = Lists {
            cache: self.cache.list_mut(),
            marks: self.marks.list_mut(),
            priorities: self.priorities.list_mut(),
            evicted: self.evicted.list_mut(),
            pages: self.pages.list_mut(),
            numbers: self.numbers.list_mut(),
            times: self.times.list_mut(),
        };
        (&self.record, self.count, lists)
    }

    /// The kind of an accepted request's answer. `self` is the call before it was served, but a request that
    /// joins has cleared the marks.
    fn kind(&self, served: &Served, evicted: &[u32]) -> &'static str {
        if served.answer < 2 {
            return ["hit", "load"][served.answer as usize];
        }
        let joined = served.record.layers.joins > self.record.layers.joins;
        let bundle = &evicted[..self.record.a as usize];
        let (mut gone, mut left) = (Vec::new(), Vec::new());
        for place in 0..self.count as usize {
            let marked = !joined && self.marks.list()[place] == 1;
            let row = (marked, self.priorities.list()[place]);
            let rows = if bundle.contains(&self.cache.list()[place]) { &mut gone } else { &mut left };
            rows.push(row);
        }
        let equal = |row| gone.iter().chain(&left).filter(|&other| other == row).count() > 1;
        match (gone.iter().any(|row| !row.0), gone.iter().any(|row| row.0)) {
            _ if gone.iter().any(equal) => BUNDLES[3],
            (true, false) => BUNDLES[0],
            (true, true) => BUNDLES[1],
            (false, _) => BUNDLES[2],
        }
    }

    /// Takes the record and count of an accepted request over, for the next one.
    pub fn go_on(&mut self, answer: &Answer) {
        if answer.refusal > 0 {
            return;
        }
        let field = |place: usize| answer.fields[place] as u32;
        let [k, a, requests, loads, evictions, t] = [1, 2, 3, 4, 5, 6].map(field);
        self.count = field(15);
        self.record = Record { k, a, requests, loads, evictions, t, layers: self.record.layers.clone() };
        let [k, a, requests, evictions] = [7, 8, 9, 10].map(field);
        let [s, appends, joins, lifts] = [11, 12, 13, 14].map(field);
        self.record.layers = layers::Record { k, a, requests, evictions, s, appends, joins, lifts };
    }
}

impl Call for Request {
    const NAME: &'static str = "mark_request";
    const REFUSALS: &'static [Refusal] = &[1, 2, 8, 9, 12, 10];
    const KINDS: &'static [&'static str] = &["hit", "load", BUNDLES[0], BUNDLES[1], BUNDLES[2], BUNDLES[3]];

    fn expected(&mut self) -> Answer {
        let (before, page) = (self.clone(), self.page);
        let (record, count, mut lists) = self.parts();
        match mark::request(record, count, &mut lists, page) {
            Err(refusal) => Answer::refused(refusal, FIELDS),
            Ok(served) => Answer::told(before.kind(&served, lists.evicted), &fields(&served)),
        }
    }

    fn exported(&mut self, out: &mut [u64]) {
        let page = self.page;
        let (record, count, mut lists) = self.parts();
        marking::mark_request(record, count, &mut lists, page, out);
    }
}

/// A whole trace on a table.
#[derive(Clone, Debug, PartialEq, Eq)]
pub struct OverTrace {
    pub k: u32,
    pub a: u32,
    pub trace: Vec<u32>,
    pub pages: Lent<u32>,
    pub numbers: Lent<u32>,
    pub times: Lent<u32>,
}

impl Call for OverTrace {
    const NAME: &'static str = "mark_over_trace";
    const REFUSALS: &'static [Refusal] = &[1, 2, 3, 8, 9, 10];
    const KINDS: &'static [&'static str] = &["totals"];

    fn expected(&mut self) -> Answer {
        let (pages, numbers) = (self.pages.list_mut(), self.numbers.list_mut());
        match mark::over_trace(self.k, self.a, &self.trace, pages, numbers, self.times.list_mut()) {
            Err(refusal) => Answer::refused(refusal, 3),
            Ok(run) => {
                let (bundles, loads) = (run.bundles.len() as u64, u64::from(run.state.record.loads));
                Answer::told("totals", &[0, bundles, loads])
            }
        }
    }

    fn exported(&mut self, out: &mut [u64]) {
        let (pages, numbers) = (self.pages.list_mut(), self.numbers.list_mut());
        marking::mark_over_trace(self.k, self.a, &self.trace, pages, numbers, self.times.list_mut(), out);
    }
}
