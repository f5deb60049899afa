//! The sizes, and farthest next use.

use super::{Answer, Call, Lent};
use crate::exported::exports;
use crate::model::{check_sizes, min, Refusal};
use crate::orders::{against, Against};

#[derive(Clone, Debug, PartialEq, Eq)]
pub struct Sizes {
    pub k: u32,
    pub a: u32,
}

impl Call for Sizes {
    const NAME: &'static str = "sizes_refusal";
    const REFUSALS: &'static [Refusal] = &[1, 2];
    const KINDS: &'static [&'static str] = &["none"];

    fn expected(&mut self) -> Answer {
        check_sizes(self.k, self.a)
            .map_or_else(|refusal| Answer::refused(refusal, 1), |_| Answer::told("none", &[0]))
    }

    /// The only call that answers with a number: it is put where others store it.
    fn exported(&mut self, out: &mut [u64]) {
        let refusal = exports::sizes_refusal(self.k, self.a);
        if let Some(place) = out.first_mut() {
            *place = u64::from(refusal);
        }
    }
}

#[derive(Clone, Debug, PartialEq, Eq)]
pub struct Count {
    pub k: u32,
    pub a: u32,
    pub trace: Vec<u32>,
}

impl Call for Count {
    const NAME: &'static str = "min_count";
    const REFUSALS: &'static [Refusal] = &[1, 2, 3];
    const KINDS: &'static [&'static str] = &["counts"];

    fn expected(&mut self) -> Answer {
        match min::run(self.k, self.a, &self.trace) {
            Err(refusal) => Answer::refused(refusal, 3),
            Ok(run) => Answer::told("counts", &[0, run.bundles.len() as u64, u64::from(run.loads)]),
        }
    }

    fn exported(&mut self, out: &mut [u64]) {
        exports::min_count(self.k, self.a, &self.trace, out);
    }
}

#[derive(Clone, Debug, PartialEq, Eq)]
pub struct Schedule {
    pub k: u32,
    pub a: u32,
    pub trace: Vec<u32>,
    pub bytes: Lent<u8>,
}

impl Schedule {
    /// Whether an order by load, or else one by number, would have given another schedule.
    fn kind(&self) -> &'static str {
        let run = min::run(self.k, self.a, &self.trace).expect("a schedule is written");
        match against(&self.trace, &run.bundles) {
            Against { loads: 1.., .. } => Self::KINDS[2],
            Against { numbers: 1.., .. } => Self::KINDS[1],
            _ => Self::KINDS[0],
        }
    }
}

impl Call for Schedule {
    const NAME: &'static str = "min_schedule";
    const REFUSALS: &'static [Refusal] = &[1, 2, 3, 8];
    const KINDS: &'static [&'static str] = &["schedule", "one against numbers", "one against loads"];

    fn expected(&mut self) -> Answer {
        match min::write(self.k, self.a, &self.trace, self.bytes.list_mut()) {
            Err(refusal) => Answer::refused(refusal, 4),
            Ok(written) => {
                let kind = self.kind();
                Answer::told(kind, &[0, written.bundles, written.loads, written.length].map(u64::from))
            }
        }
    }

    fn exported(&mut self, out: &mut [u64]) {
        exports::min_schedule(self.k, self.a, &self.trace, self.bytes.list_mut(), out);
    }
}
