//! `bench` without proofs, for sound traces: what its time is compared with.

use std::io::Read;

fn main() {
    let mut input = Vec::new();
    if let Err(error) = std::io::stdin().read_to_end(&mut input) {
        eprintln!("plain_bench: {}", error);
        std::process::exit(2);
    }
    match bench_tests::plain::bench::lines(&input) {
        Some(lines) => print!("{}", lines),
        None => println!("refused"),
    }
}
