//! Compares the library with the published code and a second frame writer. See README.md.

mod case;
mod compare;
mod day_edges;
mod days;
mod edges;
mod exhaust;
mod expect;
mod faulty;
mod first_fault;
mod frames;
mod generate;
mod giants;
mod library;
mod pair_cases;
mod pairs;
mod paths;
mod random;
mod record;
mod room;
mod rust;
mod shrink;
mod spoil;
mod spots;
mod survey;
mod types;
mod values;

use expect::{Entry, ENTRIES};

/// A shape may be 65,536 deep, and trees are dropped level by level.
const STACK: usize = 1 << 29;

fn number(text: &str) -> u64 {
    text.parse().unwrap_or_else(|_| panic!("not a number: {text}"))
}

fn entry(name: &str) -> Entry {
    ENTRIES.into_iter().find(|entry| entry.name() == name).unwrap_or_else(|| panic!("not an entry: {name}"))
}

fn run(args: &[&str]) -> bool {
    match args {
        ["compare", seed, count] => compare::compare(&ENTRIES, number(seed), number(count), None),
        ["compare", seed, count, name] => compare::compare(&[entry(name)], number(seed), number(count), None),
        ["trace", seed, count, file] => compare::compare(&ENTRIES, number(seed), number(count), Some(file)),
        ["exhaust", records, nodes] => exhaust::exhaust(number(records) as usize, number(nodes) as usize),
        ["giants", seed] => giants::giants(number(seed)),
        ["splits", seed] => giants::splits(number(seed)),
        ["pairs", seed, count] => pairs::pairs(number(seed), number(count)),
        ["faults", seed, count] => compare::try_faults(number(seed), number(count), 0),
        ["faults", seed, count, first] => compare::try_faults(number(seed), number(count), number(first) as usize),
        ["survey", seed, count] => survey::survey(number(seed), number(count)),
        ["edges"] => record::check_edges() & pairs::check_edges(),
        ["record", file, seed, count] => record::record(file, number(seed), number(count) as usize),
        ["show", file] => record::show(file),
        ["replay", file] => record::replay(file),
        _ => {
            eprintln!("usage: oracle compare SEED COUNT [ENTRY] | trace SEED COUNT FILE | exhaust RECORDS NODES | giants SEED | splits SEED | pairs SEED COUNT | faults SEED COUNT [FIRST] | survey SEED COUNT | edges | record FILE SEED COUNT | show FILE | replay FILE");
            false
        }
    }
}

fn main() {
    let args: Vec<String> = std::env::args().skip(1).collect();
    let work = move || run(&args.iter().map(String::as_str).collect::<Vec<_>>());
    let worker = std::thread::Builder::new().stack_size(STACK).spawn(work).expect("a thread starts");
    let good = worker.join().unwrap_or(false);
    std::process::exit(if good { 0 } else { 1 });
}
