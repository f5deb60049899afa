//! The calls that turn a trace file into an edition, the library's and those of the two programs.

use super::{Answer, Call, Lent};
use crate::exported::exports;
use crate::model::editions::{convert, new_edition, old_edition, Edition};
use crate::model::{Refusal, BENCH_MAX, TRACE_MAX};
use std::cmp::Ordering;
use std::fmt::Debug;
use std::marker::PhantomData;

/// A conversion: its call in the static library under its name, the edition, the most requests, and the kinds
/// of output beside the file that it is made of.
pub trait Conversion: Clone + Debug + PartialEq {
    const CALL: (&'static str, exports::Conversion);
    const EDITION: Edition;
    const MOST: usize;
    const KINDS: &'static [&'static str];
}

/// The kinds of old editions. An RR of one request gets shorter, a longer one longer.
const OF_OLD: &[&str] = &["unchanged", "same length", "shorter", "longer"];

/// The kinds of new editions: none is longer than another edition of its trace.
const OF_NEW: &[&str] = &["unchanged", "same length", "shorter"];

/// Without a run above 65,535 no other edition is as short as the new one.
const OF_SHORT_NEW: &[&str] = &["unchanged", "shorter"];

/// A conversion as a type.
macro_rules! conversion {
    ($conversion:ident, $name:ident, $edition:expr, $most:expr, $kinds:expr) => {
        #[derive(Clone, Debug, PartialEq, Eq)]
        pub struct $conversion;

        impl Conversion for $conversion {
            const CALL: (&'static str, exports::Conversion) = (stringify!($name), exports::$name);
            const EDITION: Edition = $edition;
            const MOST: usize = $most;
            const KINDS: &'static [&'static str] = $kinds;
        }
    };
}

conversion!(ToOld, to_old, old_edition, TRACE_MAX, OF_OLD);
conversion!(ToNew, to_new, new_edition, TRACE_MAX, OF_NEW);
conversion!(ProgramToOld, program_to_old, old_edition, BENCH_MAX, OF_OLD);
conversion!(ProgramToNew, program_to_new, new_edition, BENCH_MAX, OF_SHORT_NEW);

/// A file to convert, and the bytes lent for its edition.
#[derive(Clone, Debug, PartialEq, Eq)]
pub struct Convert<C> {
    pub conversion: PhantomData<C>,
    pub file: Lent<u8>,
    pub bytes: Lent<u8>,
}

impl<C> Convert<C> {
    /// With so many lent bytes.
    pub fn new(file: &Lent<u8>, room: usize) -> Self {
        Convert { conversion: PhantomData, file: file.clone(), bytes: Lent::marks(room) }
    }
}

/// How an output stands beside its file.
fn kind(file: &[u8], output: &[u8]) -> &'static str {
    match output.len().cmp(&file.len()) {
        Ordering::Less => "shorter",
        Ordering::Greater => "longer",
        Ordering::Equal if output == file => "unchanged",
        Ordering::Equal => "same length",
    }
}

impl<C: Conversion> Call for Convert<C> {
    const NAME: &'static str = C::CALL.0;
    const REFUSALS: &'static [Refusal] = &[4, 5, 1, 2, 13, 3, 8];
    const KINDS: &'static [&'static str] = C::KINDS;

    fn expected(&mut self) -> Answer {
        match convert(C::EDITION, self.file.list(), C::MOST, self.bytes.list_mut()) {
            Err(refusal) => Answer::refused(refusal, 2),
            Ok(length) => {
                let output = &self.bytes.list()[..length];
                Answer::told(kind(self.file.list(), output), &[0, length as u64])
            }
        }
    }

    fn exported(&mut self, out: &mut [u64]) {
        C::CALL.1(self.file.list(), self.bytes.list_mut(), out);
    }
}
