//! Least recent use and oldest load first.

use super::{Answer, Call, Lent};
use crate::exported::exports;
use crate::model::fifo::Fifo;
use crate::model::lru::Lru;
use crate::model::queue::{self, Policy, Record, Served};
use crate::model::Refusal;
use std::fmt::Debug;
use std::marker::PhantomData;

/// A policy with its calls in the static library, each under its name.
pub trait Exported: Policy + Clone + Debug + PartialEq {
    const REQUEST: (&'static str, exports::QueueRequest);
    const PREVIEW: (&'static str, exports::QueuePreview);
    const OVER_TRACE: (&'static str, exports::OverTrace);
}

impl Exported for Lru {
    const REQUEST: (&'static str, exports::QueueRequest) = ("lru_request", exports::lru_request);
    const PREVIEW: (&'static str, exports::QueuePreview) = ("lru_preview", exports::lru_preview);
    const OVER_TRACE: (&'static str, exports::OverTrace) = ("lru_over_trace", exports::lru_over_trace);
}

impl Exported for Fifo {
    const REQUEST: (&'static str, exports::QueueRequest) = ("fifo_request", exports::fifo_request);
    const PREVIEW: (&'static str, exports::QueuePreview) = ("fifo_preview", exports::fifo_preview);
    const OVER_TRACE: (&'static str, exports::OverTrace) = ("fifo_over_trace", exports::fifo_over_trace);
}

const REFUSALS: &[Refusal] = &[1, 2, 8, 9, 12];
const KINDS: &[&str] = &["hit", "load", "load after a bundle"];

/// The fields of a request's or a preview's answer.
fn told(answer: Result<Served, Refusal>) -> Answer {
    match answer {
        Err(refusal) => Answer::refused(refusal, 8),
        Ok(served) => {
            let Record { k, a, requests, loads, evictions } = served.record;
            let fields = [0, k, a, requests, loads, evictions, served.count, served.answer];
            Answer::told(KINDS[served.answer as usize], &fields.map(u64::from))
        }
    }
}

#[derive(Clone, Debug, PartialEq, Eq)]
pub struct Request<P> {
    pub policy: PhantomData<P>,
    pub record: Record,
    pub count: u32,
    pub cache: Lent<u32>,
    pub evicted: Lent<u32>,
    pub page: u32,
}

impl<P: Exported> Call for Request<P> {
    const NAME: &'static str = P::REQUEST.0;
    const REFUSALS: &'static [Refusal] = REFUSALS;
    const KINDS: &'static [&'static str] = KINDS;

    fn expected(&mut self) -> Answer {
        let (cache, evicted) = (self.cache.list_mut(), self.evicted.list_mut());
        told(queue::request::<P>(&self.record, self.count, cache, evicted, self.page))
    }

    fn exported(&mut self, out: &mut [u64]) {
        let (cache, evicted) = (self.cache.list_mut(), self.evicted.list_mut());
        P::REQUEST.1(&self.record, self.count, cache, evicted, self.page, out);
    }
}

impl<P> Request<P> {
    /// Takes the record and count of an accepted request over, for the next one.
    pub fn go_on(&mut self, answer: &Answer) {
        if let [0, k, a, requests, loads, evictions, count, _] = answer.fields[..] {
            let [k, a, requests, loads, evictions] = [k, a, requests, loads, evictions].map(|n| n as u32);
            self.record = Record { k, a, requests, loads, evictions };
            self.count = count as u32;
        }
    }
}

/// A preview of a request.
#[derive(Clone, Debug, PartialEq, Eq)]
pub struct Preview<P>(pub Request<P>);

impl<P: Exported> Call for Preview<P> {
    const NAME: &'static str = P::PREVIEW.0;
    const REFUSALS: &'static [Refusal] = REFUSALS;
    const KINDS: &'static [&'static str] = KINDS;

    fn expected(&mut self) -> Answer {
        let Request { record, count, cache, evicted, page, .. } = &mut self.0;
        told(queue::preview::<P>(record, *count, cache.list(), evicted.list_mut(), *page))
    }

    fn exported(&mut self, out: &mut [u64]) {
        let Request { record, count, cache, evicted, page, .. } = &mut self.0;
        P::PREVIEW.1(record, *count, cache.list(), evicted.list_mut(), *page, out);
    }
}

#[derive(Clone, Debug, PartialEq, Eq)]
pub struct OverTrace<P> {
    pub policy: PhantomData<P>,
    pub k: u32,
    pub a: u32,
    pub trace: Vec<u32>,
}

impl<P: Exported> Call for OverTrace<P> {
    const NAME: &'static str = P::OVER_TRACE.0;
    const REFUSALS: &'static [Refusal] = &[1, 2, 3];
    const KINDS: &'static [&'static str] = &["totals"];

    fn expected(&mut self) -> Answer {
        match queue::run::<P>(self.k, self.a, &self.trace) {
            Err(refusal) => Answer::refused(refusal, 3),
            Ok(run) => Answer::told("totals", &[0, run.bundles.len() as u64, u64::from(run.loads)]),
        }
    }

    fn exported(&mut self, out: &mut [u64]) {
        P::OVER_TRACE.1(self.k, self.a, &self.trace, out);
    }
}
