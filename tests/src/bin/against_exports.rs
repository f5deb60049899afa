//! Makes the calls of the static library `exports` and compares every field of every answer and every place
//! of every lent list, marks around them included, with the second implementation's. Ends with status 1
//! at the first difference, and if a refusal or another kind of answer of some call was never reached.

use bench_tests::calls::Reached;
use bench_tests::comparisons::{editions, files, layers, mark, mark_traces, queue, runs, traces};
use bench_tests::model::fifo::Fifo;
use bench_tests::model::lru::Lru;
use bench_tests::rng::Rng;

fn main() {
    let mut reached = Reached::default();
    traces::all(&mut reached, &mut Rng::new(3));
    queue::all::<Lru>(&mut reached, &mut Rng::new(4));
    queue::all::<Fifo>(&mut reached, &mut Rng::new(7));
    layers::all(&mut reached, &mut Rng::new(5));
    mark::all(&mut reached, &mut Rng::new(10));
    mark_traces::all(&mut reached, &mut Rng::new(11));
    files::all(&mut reached, &mut Rng::new(6));
    runs::all(&mut reached, &mut Rng::new(8));
    editions::all(&mut reached, &mut Rng::new(9));
    reached.table();
}
