//! The calls of the static library `exports`, each beside the second implementation, and what was
//! reached of them.

pub mod editions;
pub mod files;
pub mod layers;
pub mod mark;
pub mod min;
pub mod queue;

use crate::model::Refusal;
use crate::report::differs;
use std::fmt::Debug;

/// A value that stands where nothing may be written.
pub trait Mark: Copy {
    const MARK: Self;
}

impl Mark for u8 {
    const MARK: u8 = 0xa5;
}

impl Mark for u32 {
    const MARK: u32 = 0xa5a5_a5a5;
}

impl Mark for u64 {
    const MARK: u64 = 0xa5a5_a5a5_a5a5_a5a5;
}

/// The marks before a lent list, and as many behind it.
const MARGIN: usize = 3;

/// A list that is lent to a call. It stands between marks, which are compared too.
#[derive(Clone, Debug, PartialEq, Eq)]
pub struct Lent<T>(Vec<T>);

impl<T: Mark> Lent<T> {
    pub fn new(list: &[T]) -> Self {
        let margin = [T::MARK; MARGIN];
        Lent([&margin[..], list, &margin[..]].concat())
    }

    /// A list of marks.
    pub fn marks(places: usize) -> Self {
        Lent(vec![T::MARK; places + 2 * MARGIN])
    }

    pub fn list(&self) -> &[T] {
        &self.0[MARGIN..self.0.len() - MARGIN]
    }

    pub fn list_mut(&mut self) -> &mut [T] {
        let end = self.0.len() - MARGIN;
        &mut self.0[MARGIN..end]
    }
}

/// What a call answers: the fields it stores, and which refusal (0 for none) or kind of answer they are.
#[derive(Clone, Debug, PartialEq, Eq)]
pub struct Answer {
    pub refusal: Refusal,
    pub kind: &'static str,
    pub fields: Vec<u64>,
}

impl Answer {
    pub fn told(kind: &'static str, fields: &[u64]) -> Self {
        Answer { refusal: 0, kind, fields: fields.to_vec() }
    }

    /// A refusal of an answer that is a record: its number, and zero in every other field.
    pub fn refused(refusal: Refusal, fields: usize) -> Self {
        let mut all = vec![0; fields];
        all[0] = u64::from(refusal);
        Answer { refusal, kind: "", fields: all }
    }

    /// A refusal of an answer that is an enum: case 0, its number, and zeros.
    pub fn refused_case(refusal: Refusal, fields: usize) -> Self {
        let mut all = vec![0; fields];
        all[1] = u64::from(refusal);
        Answer { refusal, kind: "", fields: all }
    }
}

/// A call with its whole input.
pub trait Call: Clone + Debug + PartialEq {
    const NAME: &'static str;
    /// The refusals that it can give, in the order in which they are judged.
    const REFUSALS: &'static [Refusal];
    /// The kinds of its other answers.
    const KINDS: &'static [&'static str];

    /// The second implementation's answer; lent lists are as it leaves them.
    fn expected(&mut self) -> Answer;

    /// The static library's call.
    fn exported(&mut self, out: &mut [u64]);
}

/// How often each refusal and each other kind of answer of a call was met.
struct Row {
    name: &'static str,
    calls: usize,
    refusals: Vec<(Refusal, usize)>,
    kinds: Vec<(&'static str, usize)>,
}

/// What was reached.
#[derive(Default)]
pub struct Reached {
    rows: Vec<Row>,
}

impl Reached {
    fn row<C: Call>(&mut self) -> &mut Row {
        let place = self.rows.iter().position(|row| row.name == C::NAME).unwrap_or_else(|| {
            let refusals = C::REFUSALS.iter().map(|&number| (number, 0)).collect();
            let kinds = C::KINDS.iter().map(|&kind| (kind, 0)).collect();
            self.rows.push(Row { name: C::NAME, calls: 0, refusals, kinds });
            self.rows.len() - 1
        });
        &mut self.rows[place]
    }

    fn count<C: Call>(&mut self, call: &C, answer: &Answer) {
        let row = self.row::<C>();
        row.calls += 1;
        let met = if answer.refusal == 0 {
            row.kinds.iter_mut().find(|kind| kind.0 == answer.kind).map(|kind| &mut kind.1)
        } else {
            row.refusals.iter_mut().find(|refusal| refusal.0 == answer.refusal).map(|refusal| &mut refusal.1)
        };
        match met {
            Some(times) => *times += 1,
            None => differs(C::NAME, &[("call", format!("{:?}", call))], &"an answer of the table", answer),
        }
    }

    /// Makes a call in both ways and compares every field and every place. Gives the answer, and the call
    /// with its lists as it left them. Mostly `out` has places to spare, at times it is too short.
    pub fn compare<C: Call>(&mut self, call: &C) -> (C, Answer) {
        let (mut ours, mut theirs) = (call.clone(), call.clone());
        let answer = theirs.expected();
        let (calls, fields) = (self.row::<C>().calls, answer.fields.len());
        let room = if calls % 8 == 7 { calls / 8 % (fields + 1) } else { fields + 2 };
        let (mut out, mut expected) = (Lent::<u64>::marks(room), Lent::<u64>::marks(room));
        ours.exported(out.list_mut());
        for (place, field) in expected.list_mut().iter_mut().zip(&answer.fields) {
            *place = *field;
        }
        if out != expected || ours != theirs {
            let input = [("call", format!("{:?}", call))];
            differs(C::NAME, &input, &(&expected, &theirs), &(&out, &ours));
        }
        self.count(call, &answer);
        (theirs, answer)
    }

    /// Prints the table: each call, how often it was made, its kinds of answer and its refusals. Ends the
    /// program if one of these was never met.
    pub fn table(&self) {
        println!("| call | calls | answers | refusals |\n|---|---:|---|---|");
        for row in &self.rows {
            let kinds: Vec<String> =
                row.kinds.iter().map(|(kind, times)| format!("{} {}", kind, times)).collect();
            let refusals: Vec<String> =
                row.refusals.iter().map(|(no, times)| format!("{}: {}", no, times)).collect();
            println!("| {} | {} | {} | {} |", row.name, row.calls, kinds.join(", "), refusals.join(", "));
        }
        println!("exports: {} calls agree", self.rows.iter().map(|row| row.calls).sum::<usize>());
        for row in &self.rows {
            let never =
                row.refusals.iter().filter(|refusal| refusal.1 == 0).map(|refusal| refusal.0.to_string());
            let unseen = row.kinds.iter().filter(|kind| kind.1 == 0).map(|kind| kind.0.to_string());
            let missing: Vec<String> = never.chain(unseen).collect();
            if !missing.is_empty() {
                println!("{}: never reached: {}", row.name, missing.join(", "));
                std::process::exit(1);
            }
        }
    }
}
