//! How the counts of a run are told, and how a difference is seen again.

use shared::options::command_line;
use std::fmt::Display;
use std::path::Path;

/// Prints the command that runs this program again with these arguments, as it
/// can be typed in any folder.
pub fn print_repeat(arguments: &[String]) {
    let program = std::env::current_exe();
    let program = program.as_deref().unwrap_or_else(|_| Path::new("differ"));
    println!("  repeat it with: {}", command_line(program, arguments));
}

/// Prints each item with its count, and again those that were never reached.
/// Whether all were reached.
pub fn print_counts<N: Display>(counts: Vec<(N, u64)>) -> bool {
    for (name, count) in &counts {
        println!("{:>14}  {}", grouped(*count), name);
    }
    let missing = never_reached(counts);
    for name in &missing {
        println!("NEVER REACHED: {}", name);
    }
    missing.is_empty()
}

/// The names of the items that were never reached.
pub fn never_reached<N>(counts: Vec<(N, u64)>) -> Vec<N> {
    let missing = counts.into_iter().filter(|count| count.1 == 0);
    missing.map(|count| count.0).collect()
}

/// The number with a comma before each group of three digits.
pub fn grouped(number: u64) -> String {
    let digits = number.to_string();
    let mut grouped = String::new();
    for (index, digit) in digits.chars().enumerate() {
        if index > 0 && (digits.len() - index) % 3 == 0 {
            grouped.push(',');
        }
        grouped.push(digit);
    }
    grouped
}
