//! The proved calls beside plain Rust that does the same work. `bench/run` calls it.
mod agreement;
mod counting;
mod dispatcher;
mod importer;
mod inputs;
mod plain;
mod planner;
mod rows;
mod sheet;
mod timing;

use counting::Counts;
use rows::Row;
use std::path::Path;
use timing::Times;

const USAGE: &str = "usage: dibwunek-bench check | count | table FOLDER | functions FOLDER INPUT CALL";

/// Three figures that count.
fn figure(x: f64) -> String {
    match x {
        x if x < 9.995 => format!("{x:.2}"),
        x if x < 99.95 => format!("{x:.1}"),
        x => format!("{x:.0}"),
    }
}

fn line(row: &Row, times: &Times, count: &Counts) -> String {
    let [median, low, high] = times.ratio.map(figure);
    format!(
        "| {} | {} | {:.0} | {:.0} | {median} ({low} to {high}) | {:.0} | {:.0} | {} |",
        row.input,
        row.call,
        times.plain,
        times.proved,
        count.plain,
        count.proved,
        figure(count.proved / count.plain),
    )
}

/// The inputs that do not show growth, and those that do, each in a table.
fn table(rows: &mut [Row], folder: &Path) {
    let counts = counting::counts(rows, folder);
    for growth in [false, true] {
        println!(
            "| input | call | Rust, ns | proved, ns | ratio (10th to 90th) | Rust, instr. | proved, instr. | ratio |"
        );
        println!("|---|---|--:|--:|--:|--:|--:|--:|");
        for (row, count) in rows.iter_mut().zip(&counts).filter(|(row, _)| row.growth == growth) {
            let times = timing::measured(row);
            println!("{}", line(row, &times, count));
        }
        println!();
    }
}

fn fail(message: &str) -> ! {
    eprintln!("{message}");
    std::process::exit(2)
}

fn main() {
    let words: Vec<String> = std::env::args().skip(1).collect();
    let words: Vec<&str> = words.iter().map(String::as_str).collect();
    let (inputs, texts) = (inputs::all(), inputs::texts());
    let mut rows = rows::of(&inputs, &texts);
    match words[..] {
        ["check"] => {
            agreement::check(&inputs);
            agreement::check_imports(&texts);
            println!("both sides agree");
        }
        ["count"] => counting::run(&mut rows),
        ["table", folder] => table(&mut rows, Path::new(folder)),
        ["functions", folder, input, call] => {
            let printed = counting::print_functions(&mut rows, Path::new(folder), input, call);
            printed.unwrap_or_else(|| fail(&format!("no row '{input}', '{call}'")));
        }
        _ => fail(USAGE),
    }
}
