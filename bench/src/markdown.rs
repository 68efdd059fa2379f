//! Tables in Markdown, padded so that they can be read as they are.

/// The head of a column and its width.
pub type Column = (&'static str, usize);

/// The first column is words, the others are numbers.
pub fn print_head(columns: &[Column]) {
    let heads: Vec<String> = columns.iter().map(|column| column.0.to_string()).collect();
    print_row(columns, &heads);
    let rules: Vec<String> = columns[1..].iter().map(|c| "-".repeat(c.1 + 1) + ":|").collect();
    println!("|{}|{}", "-".repeat(columns[0].1 + 2), rules.concat());
}

pub fn print_row(columns: &[Column], cells: &[String]) {
    print!("| {:<1$} |", cells[0], columns[0].1);
    for (cell, column) in cells[1..].iter().zip(&columns[1..]) {
        print!(" {:>1$} |", cell, column.1);
    }
    println!();
}
