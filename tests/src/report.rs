//! How a difference is shown: the whole input, then the program ends with status 1.

use std::fmt::{Debug, Display, Write};

pub fn hex(bytes: &[u8]) -> String {
    bytes.iter().fold(String::new(), |mut text, byte| {
        write!(text, "{:02x}", byte).expect("a string takes every write");
        text
    })
}

/// Ends the program over a difference; `input` names each part of the input and shows it.
pub fn differs(test: &str, input: &[(&str, String)], expected: &dyn Debug, got: &dyn Debug) -> ! {
    println!("{}: DIFFERENCE", test);
    for (name, value) in input {
        println!("  {}: {}", name, value);
    }
    println!("  expected: {:?}", expected);
    println!("  got:      {:?}", got);
    std::process::exit(1);
}

/// The number of times each answer below `tally.len()` was seen, for the closing line.
pub fn tally_text(name: &dyn Display, tally: &[usize]) -> String {
    let seen = tally.iter().enumerate().filter(|(_, &times)| times > 0);
    let parts: Vec<String> = seen.map(|(number, times)| format!("{}:{}", number, times)).collect();
    format!("{} {}", name, parts.join(" "))
}

/// Ends the program if some refusal that the test is meant to reach was never seen.
pub fn all_reached(test: &str, numbers: &[usize], tally: &[usize]) {
    for &number in numbers {
        if tally[number] == 0 {
            println!("{}: refusal {} was never reached, so nothing was tested about it", test, number);
            std::process::exit(1);
        }
    }
}
