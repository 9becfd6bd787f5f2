//! Times the library: queries beside the same ones written by hand, passes over growing trees, source
//! text, and chunks that statistics prune.
mod arrays;
mod batch;
mod by_hand;
mod chunks;
mod clock;
mod comparison;
mod depths;
mod growth;
mod library;
mod memory;
mod passes;
mod queries;
mod readings;
mod scans;
mod texts;
mod typed;

fn main() {
    let mut words = std::env::args().skip(1);
    let word = words.next();
    if word.as_deref() == Some("one") {
        return depths::one(words);
    }
    println!("{}", machine());
    println!();
    match word.as_deref() {
        None => {
            queries_and_scan(1_000_000);
            println!();
            passes::tables();
        }
        Some("passes") => passes::tables(),
        Some("growth") => growth::table(),
        Some("depths") => depths::table(),
        Some("texts") => texts::table(),
        Some("chunks") => chunks::tables(),
        Some("arrays") => {
            let rows = words.next().unwrap_or("1000000".into());
            arrays::table(rows.parse().expect("a number of rows"));
        }
        Some(rows) => queries_and_scan(
            rows.parse()
                .expect("a number of rows, arrays, passes, growth, depths, texts or chunks"),
        ),
    }
}

/// Prints the tables of the queries, over columns and arrays, and of the scan over so many rows.
fn queries_and_scan(rows: usize) {
    comparison::table(rows);
    println!();
    arrays::table(rows);
    println!();
    scans::table(rows);
}

/// The processor and its cores.
fn machine() -> String {
    let processors = std::fs::read_to_string("/proc/cpuinfo").unwrap_or_default();
    let model = processors
        .lines()
        .find_map(|line| line.strip_prefix("model name")?.split_once(": "));
    let cores = processors
        .lines()
        .filter(|line| line.starts_with("processor"))
        .count();
    format!(
        "{}, {cores} cores",
        model.map_or("an unknown processor", |(_, name)| name)
    )
}
