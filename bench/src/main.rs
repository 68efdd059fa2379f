//! Times the proved operations beside the plain ones, and beside tools of others, on the same
//! inputs in one run. Words after the command pick subjects; without any, all are printed.
//! `plot FILE` draws the growth instead.

mod belongs;
mod below;
mod counted;
mod derivations;
mod external;
mod group;
mod markdown;
mod matcher;
mod memory;
mod owl;
mod plot;
mod renumber;
mod show;
mod table;
mod timing;
mod update;
mod within;

use table::Tools;

type Print = fn(&Tools);

/// Subjects that share one table.
const LINES: [(&str, Print); 9] = [
    ("below", below::print),
    ("matcher", matcher::print),
    ("puzzles", matcher::print_puzzles),
    ("within", within::print),
    ("derivations", derivations::print),
    ("show", show::print),
    ("belongs", belongs::print),
    ("renumber", renumber::print),
    ("owl", owl::print),
];

/// What docs/PERFORMANCE.md shows, by the word `results`.
const RESULTS: [&str; 4] = ["below", "matcher", "puzzles", "derivations"];

const TABLES: [(&str, fn()); 4] = [
    ("update", update::print),
    ("counted", counted::print),
    ("group", group::print),
    ("stack", memory::print),
];

fn main() {
    let words: Vec<String> = std::env::args().skip(1).collect();
    if let [plot, file] = &words[..] {
        if plot == "plot" {
            return plot::write(file);
        }
    }
    let named = |word: &str| words.iter().any(|other| other == word);
    let wanted = |subject: &str| {
        words.is_empty() || named(subject) || named("results") && RESULTS.contains(&subject)
    };
    if LINES.iter().any(|line| wanted(line.0)) {
        let tools = Tools::find();
        table::print_head(&tools);
        LINES.iter().filter(|line| wanted(line.0)).for_each(|line| line.1(&tools));
        tools.print_missed();
    }
    for (_, print) in TABLES.iter().filter(|table| wanted(table.0)) {
        println!();
        print();
    }
}
