//! The tables, as they stand in docs/PERFORMANCE.md.

use crate::growth::Grown;
use crate::measure::{Counts, Measured, WAYS};
use crate::yardstick::Held;

/// A way's time over that of plain Rust.
fn ratio(row: &Measured, way: usize) -> Option<f64> {
    Some(row.times[way]? / row.times[0]?)
}

pub fn print_rows(rows: &[Measured]) {
    let columns: Vec<String> =
        WAYS.iter().flat_map(|way| [format!("{way} ns"), "instr.".into(), "ratio".into()]).collect();
    // Plain Rust has no ratio.
    let columns = [&columns[..2], &columns[3..]].concat();
    print_heading("", &columns);
    for row in rows {
        let way = |way| [number(row.times[way], 1), number(row.counts[way], 0), number(ratio(row, way), 2)];
        let cells = (0..WAYS.len()).map(way).collect::<Vec<_>>().concat();
        print_line(&row.name, &[&cells[..2], &cells[3..]].concat());
    }
}

/// Instructions alone: the yardstick's, those of plain Rust and of the library over a pointer, and the library's by the yardstick's.
pub fn print_held(rows: &[Held], counts: &mut Counts) {
    let columns = ["yardstick", "Rust", "C", "ratio", "goal"].map(String::from);
    print_heading("beside the yardstick", &columns);
    for Held { row, yardstick, goal } in rows {
        let [best, pointer, _] = counts.next(row);
        let ratio = pointer.map(|pointer| pointer / yardstick);
        let cells = [number(Some(*yardstick), 0), number(best, 0), number(pointer, 0), number(ratio, 2)];
        print_line(&row.name, &[&cells[..], &[number(Some(*goal), 1)]].concat());
    }
}

/// Instructions alone, by how many there are of something.
pub fn print_grown(calls: &[Grown], counts: &mut Counts) {
    println!("| {:<28} | {:>23} | {:>23} | {:>23} |", "what grows: the call", "how many", "Rust", "C");
    println!("|{:-<30}|{}", "", format!("{:->24}:|", "").repeat(3));
    for Grown { name, values, rows } in calls {
        let counted: Vec<_> = rows.iter().map(|row| counts.next(row)).collect();
        let cell = |way: usize| counted.iter().map(|row| number(row[way], 0)).collect::<Vec<_>>().join(" / ");
        let values = values.iter().map(usize::to_string).collect::<Vec<_>>().join(" / ");
        println!("| {name:<28} | {values:>23} | {:>23} | {:>23} |", cell(0), cell(1));
    }
}

#[cfg(moves)]
pub fn print_moves(rows: &[(String, [Option<f64>; WAYS.len()])]) {
    print_heading("bytes moved", &WAYS.map(String::from));
    for (name, ways) in rows.iter().filter(|(_, ways)| ways.iter().flatten().any(|&bytes| bytes > 0.0)) {
        print_line(name, &ways.map(|way| number(way, 0)));
    }
}

fn print_heading(first: &str, columns: &[String]) {
    print_line(first, columns);
    println!("|{:-<30}|{}", "", "----------:|".repeat(columns.len()));
}

fn print_line(first: &str, cells: &[String]) {
    let cells: String = cells.iter().map(|cell| format!(" {cell:>9} |")).collect();
    println!("| {first:<28} |{cells}");
}

/// The number with so many decimals, or a dash.
fn number(number: Option<f64>, decimals: usize) -> String {
    number.map_or_else(|| "-".into(), |number| format!("{number:.decimals$}"))
}
