//! Times two versions of a job beside each other and prints a table.

use std::fmt::Debug;
use std::time::{Duration, Instant};

/// Both versions are repeated in turn until the slower one has taken `ENOUGH`, at least twice and at
/// most this often.
pub const REPEATS: usize = 40;
const ENOUGH: Duration = Duration::from_millis(400);

/// Hands a value back in a way that the compiler cannot look through.
pub fn opaque<T: Copy>(value: T) -> T {
    unsafe { std::ptr::read_volatile(&value) }
}

/// The repeats of one version.
struct Times {
    total: Duration,
    least: Duration,
}

impl Times {
    fn new() -> Self {
        Times { total: Duration::ZERO, least: Duration::MAX }
    }

    fn add<T>(&mut self, job: &mut dyn FnMut() -> T) -> T {
        let start = Instant::now();
        let answer = job();
        let taken = start.elapsed();
        self.total += taken;
        self.least = self.least.min(taken);
        answer
    }

    /// The least time of one of the calls that the job consists of, in seconds.
    fn of_one(&self, calls: usize) -> f64 {
        self.least.as_secs_f64() / calls as f64
    }
}

fn text(time: f64) -> String {
    match time {
        t if t < 1e-6 => format!("{:.0} ns", t * 1e9),
        t if t < 1e-3 => format!("{:.1} µs", t * 1e6),
        t if t < 1.0 => format!("{:.2} ms", t * 1e3),
        t => format!("{:.2} s", t),
    }
}

/// The rows timed so far.
#[derive(Default)]
pub struct Table {
    rows: Vec<Row>,
}

struct Row {
    job: &'static str,
    name: String,
    ours: f64,
    plain: f64,
}

impl Row {
    fn ratio(&self) -> f64 {
        self.ours / self.plain
    }

    fn print(&self) {
        let (ours, plain) = (text(self.ours), text(self.plain));
        println!("| {}, {} | {} | {} | {:.2} |", self.job, self.name, ours, plain, self.ratio());
    }
}

fn head() {
    println!("| job | ours | plain | ratio |");
    println!("|---|---:|---:|---:|");
}

impl Table {
    /// Times both versions of a job that consists of `calls` calls, and ends the program if their
    /// answers differ. The row shows the time of one call.
    pub fn row<T: PartialEq + Debug>(
        &mut self,
        job: &'static str,
        name: String,
        calls: usize,
        ours: &mut dyn FnMut() -> T,
        plain: &mut dyn FnMut() -> T,
    ) {
        let (mut our_times, mut plain_times) = (Times::new(), Times::new());
        for repeat in 0..REPEATS {
            let (our_answer, plain_answer) = (our_times.add(ours), plain_times.add(plain));
            if our_answer != plain_answer {
                println!("{}, {}: DIFFERENCE: ours {:?}, plain {:?}", job, name, our_answer, plain_answer);
                std::process::exit(1);
            }
            if repeat > 0 && our_times.total.max(plain_times.total) > ENOUGH {
                break;
            }
        }
        let row = Row { job, name, ours: our_times.of_one(calls), plain: plain_times.of_one(calls) };
        if self.rows.is_empty() {
            head();
        }
        row.print();
        self.rows.push(row);
    }

    /// Prints the row with the highest ratio of each job.
    pub fn worst(&self) {
        println!("\nThe highest ratio of each job:\n");
        head();
        let mut jobs: Vec<&str> = self.rows.iter().map(|row| row.job).collect();
        jobs.dedup();
        for job in jobs {
            let rows = self.rows.iter().filter(|row| row.job == job);
            if let Some(row) = rows.max_by(|x, y| x.ratio().total_cmp(&y.ratio())) {
                row.print();
            }
        }
    }
}
