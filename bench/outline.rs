//! What the machine takes in plain Rust to copy the names of a draft of outline.sh into a hash map, each with its number.
use std::collections::HashMap;
use std::time::Instant;

fn main() {
    let mut names = vec![];
    for (name, count) in [("y", 13), ("m", 1_000_000)] {
        names.push(name.to_string());
        names.extend((1..count).map(|number| format!("{name}{number}")));
    }
    let start = Instant::now();
    let mut numbers = HashMap::new();
    for (number, name) in names.iter().enumerate() {
        numbers.insert(name.clone(), number as u32);
    }
    let taken = start.elapsed().as_millis();
    println!("names {} - {taken}", numbers.len());
}
