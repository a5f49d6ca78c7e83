//! The program `fit` once more, in plain Rust and unverified: the same texts, the same steps, the same output.
//! It is what `fit` is measured against, and shares no code with it.

mod search;
mod sheet;
mod text;

use search::{Search, Verdict};
use sheet::Sheet;
use std::fs;
use std::io::{self, Write};
use text::{Book, Fault};

/// Reads both files, searches, and tells what is printed.
fn fit() -> Result<String, Fault> {
    let text = fs::read("book.cnf").unwrap_or_default();
    let lines = fs::read("bench.txt").unwrap_or_default();
    let book = Book::read(&text)?;
    let sheet = Sheet::read(&lines, book.n)?;
    let mut search = Search::new(&book, &sheet.holds);
    let verdict = search.run(1_000_000);
    Ok(printed(&search, &verdict, &sheet))
}

fn printed(search: &Search, verdict: &Verdict, sheet: &Sheet) -> String {
    use std::fmt::Write;
    let mut out = String::new();
    let (word, kind, row): (_, _, &[u8]) = match verdict {
        Verdict::Fits => ("fits", "part", search.row()),
        Verdict::NoneFits(named) => ("none", "held", named),
        Verdict::Spent => ("spent", "", &[]),
    };
    let _ = writeln!(out, "verdict\t{word}\nsteps\t{}\nturns\t{}", search.steps, search.turns);
    for (i, (code, name)) in row.iter().zip(&sheet.names).enumerate() {
        let side = match code {
            0 => continue,
            1 => "in",
            _ => "out",
        };
        let _ = writeln!(out, "{kind}\t{}\t{side}\t{name}", i + 1);
    }
    out
}

fn main() -> io::Result<()> {
    let out = fit().unwrap_or_else(|fault| format!("refused\t{}\t{}\t{}\n", fault.refusal, fault.byte, fault.rule));
    io::stdout().write_all(out.as_bytes())
}
