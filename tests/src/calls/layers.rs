//! The layers and their questions.

use super::{Answer, Call, Lent};
use crate::exported::exports;
use crate::model::layers::{self, Possible, Record, Rule};
use crate::model::Refusal;

/// A record and its table.
#[derive(Clone, Debug, PartialEq, Eq)]
pub struct State {
    pub record: Record,
    pub pages: Lent<u32>,
    pub numbers: Lent<u32>,
}

#[derive(Clone, Debug, PartialEq, Eq)]
pub struct Request {
    pub state: State,
    pub page: u32,
}

impl Call for Request {
    const NAME: &'static str = "layers_request";
    const REFUSALS: &'static [Refusal] = &[1, 2, 8, 9, 12, 10];
    const KINDS: &'static [&'static str] = &["1a", "1b", "1c"];

    fn expected(&mut self) -> Answer {
        let State { record, pages, numbers } = &mut self.state;
        match layers::request(record, pages.list_mut(), numbers.list_mut(), self.page) {
            Err(refusal) => Answer::refused(refusal, 10),
            Ok((next, rule)) => {
                let kind = match rule {
                    Rule::Append => "1a",
                    Rule::Join => "1b",
                    Rule::Lift => "1c",
                };
                let Record { k, a, requests, evictions, s, appends, joins, lifts } = next;
                let fields = [0, k, a, requests, evictions, s, appends, joins, lifts, rule as u32];
                Answer::told(kind, &fields.map(u64::from))
            }
        }
    }

    fn exported(&mut self, out: &mut [u64]) {
        let State { record, pages, numbers } = &mut self.state;
        exports::layers_request(record, pages.list_mut(), numbers.list_mut(), self.page, out);
    }
}

impl Request {
    /// Takes the record of an accepted request over, for the next one.
    pub fn go_on(&mut self, answer: &Answer) {
        if let [0, k, a, requests, evictions, s, appends, joins, lifts, _] = answer.fields[..] {
            let [k, a, requests, evictions] = [k, a, requests, evictions].map(|n| n as u32);
            let [s, appends, joins, lifts] = [s, appends, joins, lifts].map(|n| n as u32);
            self.state.record = Record { k, a, requests, evictions, s, appends, joins, lifts };
        }
    }
}

#[derive(Clone, Debug, PartialEq, Eq)]
pub struct Revealed(pub State);

impl Call for Revealed {
    const NAME: &'static str = "layers_revealed";
    const REFUSALS: &'static [Refusal] = &[1, 2, 8, 9];
    const KINDS: &'static [&'static str] = &["none", "some"];

    fn expected(&mut self) -> Answer {
        match layers::revealed(&self.0.record, self.0.pages.list(), self.0.numbers.list()) {
            Err(refusal) => Answer::refused(refusal, 2),
            Ok(count) => Answer::told(if count > 0 { "some" } else { "none" }, &[0, u64::from(count)]),
        }
    }

    fn exported(&mut self, out: &mut [u64]) {
        exports::layers_revealed(&self.0.record, self.0.pages.list(), self.0.numbers.list(), out);
    }
}

/// The question on a set.
#[derive(Clone, Debug, PartialEq, Eq)]
pub struct PossibleSet {
    pub state: State,
    pub set: Vec<u32>,
}

/// The cases of the answer as the static library numbers them; 0 is a refusal.
const YES: u64 = 1;
const COUNT_DIFFERS: u64 = 2;
const BREAKS_AT: u64 = 3;

const AT_ONE: &str = "breaks at one layer";
const AT_SEVERAL: &str = "breaks at several";

impl PossibleSet {
    /// The answer that names layer i, on a set that breaks at so many layers.
    pub fn breaks_at(i: u32, layers: usize) -> Answer {
        Answer::told(if layers == 1 { AT_ONE } else { AT_SEVERAL }, &[BREAKS_AT, u64::from(i)])
    }
}

impl Call for PossibleSet {
    const NAME: &'static str = "layers_possible";
    const REFUSALS: &'static [Refusal] = &[1, 2, 8, 9, 11];
    const KINDS: &'static [&'static str] = &["yes", "count differs", AT_ONE, AT_SEVERAL];

    fn expected(&mut self) -> Answer {
        let State { record, pages, numbers } = &self.state;
        match layers::possible(record, pages.list(), numbers.list(), &self.set) {
            Err(refusal) => Answer::refused_case(refusal, 2),
            Ok(Possible::Yes) => Answer::told("yes", &[YES, 0]),
            Ok(Possible::CountDiffers) => Answer::told("count differs", &[COUNT_DIFFERS, 0]),
            Ok(Possible::BreaksAt(i)) => {
                let layers = layers::times_broken(record, pages.list(), numbers.list(), &self.set);
                PossibleSet::breaks_at(i, layers.expect("the set is not refused"))
            }
        }
    }

    fn exported(&mut self, out: &mut [u64]) {
        let State { record, pages, numbers } = &self.state;
        exports::layers_possible(record, pages.list(), numbers.list(), &self.set, out);
    }
}

/// A whole trace on a table.
#[derive(Clone, Debug, PartialEq, Eq)]
pub struct OverTrace {
    pub k: u32,
    pub a: u32,
    pub trace: Vec<u32>,
    pub pages: Lent<u32>,
    pub numbers: Lent<u32>,
}

impl Call for OverTrace {
    const NAME: &'static str = "layers_over_trace";
    const REFUSALS: &'static [Refusal] = &[1, 2, 3, 8, 9, 10];
    const KINDS: &'static [&'static str] = &["totals"];

    fn expected(&mut self) -> Answer {
        let (pages, numbers) = (self.pages.list_mut(), self.numbers.list_mut());
        match layers::over_trace(self.k, self.a, &self.trace, pages, numbers) {
            Err(refusal) => Answer::refused(refusal, 4),
            Ok(run) => {
                let Record { evictions, s, .. } = run.record;
                let revealed = layers::revealed_of(&run.layers);
                Answer::told("totals", &[0, evictions, s, revealed].map(u64::from))
            }
        }
    }

    fn exported(&mut self, out: &mut [u64]) {
        let (pages, numbers) = (self.pages.list_mut(), self.numbers.list_mut());
        exports::layers_over_trace(self.k, self.a, &self.trace, pages, numbers, out);
    }
}
