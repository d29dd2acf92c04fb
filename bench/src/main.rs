//! The measuring program behind `bench/run`, which says what each of its modes is for.

mod direct;
mod measure;
mod report;
mod sheets;
mod tapes;
mod work;

use reference::compare::Compare;

/// The fast comparison must answer as the document says before it is worth measuring.
fn compare(batches: u64) {
    let mut compare = Compare::new(&direct::Direct);
    (1..=batches).for_each(|seed| compare.batch(seed));
    compare.told.iter().for_each(|line| println!("{line}"));
    println!("{} passed, {} failed", compare.passed, compare.failed);
    std::process::exit((compare.failed > 0) as i32);
}

fn main() {
    let arguments: Vec<String> = std::env::args().skip(1).collect();
    let arguments: Vec<&str> = arguments.iter().map(String::as_str).collect();
    match arguments.as_slice() {
        ["compare"] => compare(300),
        ["count", engine] => measure::count(engine),
        ["time"] => measure::time(),
        ["sheets"] => sheets::names().iter().for_each(|(name, lines)| println!("{name} {lines}")),
        ["sheet", name] => print!("{}", sheets::made(name, None)),
        ["sheet", name, lines] => print!("{}", sheets::made(name, Some(lines.parse().expect("a number")))),
        ["play", path] => measure::play(path),
        ["tapes", name] => tapes::compare(name),
        ["report", folder] => report::print(folder),
        _ => {
            eprintln!("see bench/run");
            std::process::exit(2);
        }
    }
}
