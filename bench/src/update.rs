//! Updating a held table: its time beside that of a table made afresh, by family at full size.

use hermitcasket_bench::{lend, update_table};
use hermitcasket_tests::capi;
use hermitcasket_tests::families::FAMILIES;
use hermitcasket_tests::generate::{add_role_pairs, full};
use hermitcasket_tests::layout;
use hermitcasket_tests::limits::{MAX_CONCEPTS, MAX_ROLE_PAIRS, ROW_BYTES};
use hermitcasket_tests::nested::tower;
use hermitcasket_tests::random::Random;
use hermitcasket_tests::reference::{self, atoms};
use hermitcasket_tests::shift::Shift;
use hermitcasket_tests::tables::Tables;

use crate::markdown::{print_head, print_row, Column};
use crate::timing::{in_words, measure_all, three_digits};

const BYTES: usize = MAX_CONCEPTS * ROW_BYTES;

fn fresh(tables: &Tables, assignment: &[u64], out: &mut [u8]) {
    let answer = capi::subsumption_table(tables.lend(), assignment, out);
    assert_eq!(answer.number, 0, "refused: {:?}", answer);
}

fn made(tables: &Tables, assignment: &[u64]) -> Vec<u8> {
    let mut table = vec![0; BYTES];
    fresh(tables, assignment, &mut table);
    table
}

fn ones(table: &[u8]) -> u32 {
    table.iter().map(|byte| byte.count_ones()).sum()
}

const COLUMNS: [Column; 8] = [
    ("family, and what is held", 53),
    ("held", 6),
    ("after", 6),
    ("afresh", 7),
    ("update", 7),
    ("share", 6),
    ("Rust", 7),
    ("ratio", 6),
];

/// Times of the newer tables made afresh and of the held one updated. The held table is put back
/// before each update, and that is part of its time.
fn print_line(label: &str, shift: &Shift, held: &[u8]) {
    let (tables, told) = (&shift.newer, &shift.told[..]);
    let (mut out, mut first, mut second) = (vec![0; BYTES], held.to_vec(), held.to_vec());
    let [afresh, proved, plain] = measure_all([
        &mut || fresh(tables, &shift.after, &mut out),
        &mut || {
            first.copy_from_slice(held);
            let answer = capi::update_table(tables.lend(), told, &mut first);
            assert_eq!(answer.number, 0, "refused: {:?}", answer);
        },
        &mut || {
            second.copy_from_slice(held);
            update_table(lend(tables), told, &mut second).expect("all is accepted");
        },
    ]);
    assert!(first == second, "the two tables differ for\n{}", tables);
    assert!(first == out, "another table than afresh for\n{}", tables);
    let cells = [
        label.to_string(),
        ones(held).to_string(),
        ones(&first).to_string(),
        in_words(afresh),
        in_words(proved),
        three_digits(proved / afresh),
        in_words(plain),
        three_digits(proved / plain),
    ];
    print_row(&COLUMNS, &cells);
}

/// The table before the last inclusion came.
fn print_last(label: &str, newer: &Tables) {
    let shift = Shift::of_last(&mut Random::new(1), newer.clone());
    let held = made(&shift.older, &shift.before);
    print_line(label, &shift, &held);
}

/// The same tables with this inclusion, which may be one of them, as the last.
fn with_last(tables: &Tables, pair: [u16; 2]) -> Tables {
    let mut pairs: Vec<&[u16]> = tables.inclusions.chunks_exact(2).collect();
    let place = pairs.iter().position(|&other| other == pair).unwrap_or(pairs.len() - 1);
    pairs.remove(place);
    pairs.push(&pair);
    Tables { inclusions: pairs.concat(), ..tables.clone() }
}

/// How many marks the last inclusion brings.
fn brought(tables: &Tables) -> u32 {
    let shift = Shift::of_last(&mut Random::new(1), tables.clone());
    ones(&made(tables, &shift.after)) - ones(&made(&shift.older, &shift.before))
}

/// Before the one of the inclusions that brings the most marks.
fn print_most(label: &str, tables: &Tables) {
    let pairs = tables.inclusions.chunks_exact(2).map(|pair| [pair[0], pair[1]]);
    let each = pairs.map(|pair| with_last(tables, pair));
    let most = each.max_by_key(brought).expect("an inclusion");
    print_last(&format!("{}: without the one that brings most", label), &most);
}

/// Before a random inclusion in the place of the last: the first drawn that is accepted and brings
/// marks, if one does.
fn print_other(label: &str, tables: &Tables) {
    let mut random = Random::new(1);
    let mut id = || random.below(MAX_CONCEPTS) as u16;
    let mut drawn = (0..100).map(|_| with_last(tables, [id(), id()]));
    let fits = |tables: &Tables| reference::check(tables).is_ok() && brought(tables) > 0;
    if let Some(other) = drawn.find(fits) {
        print_last(&format!("{}: before a random one", label), &other);
    }
}

/// Tables that have lost marks: half of them, all but the diagonal, all.
fn print_damaged(label: &str, tables: &Tables) {
    let shift = Shift::of_last(&mut Random::new(1), tables.clone());
    let whole = layout::read(&made(tables, &shift.after), MAX_CONCEPTS);
    let mut random = Random::new(2);
    let print = |told: &str, keep: &mut dyn FnMut(usize, usize) -> bool| {
        let mut marks = whole.clone();
        for (i, row) in marks.iter_mut().enumerate() {
            row.iter_mut().enumerate().for_each(|(j, mark)| *mark &= keep(i, j));
        }
        let mut held = vec![0; BYTES];
        layout::write(&mut held, &marks);
        print_line(&format!("{}: {}", label, told), &shift, &held);
    };
    print("half of the marks lost", &mut |_, _| random.percent(50));
    print("only the diagonal", &mut |i, j| i == j);
    print("no marks", &mut |_, _| false);
}

fn print_family(label: &str, tables: &Tables) {
    print_last(&format!("{}: without its last inclusion", label), tables);
    print_most(label, tables);
    print_other(label, tables);
    print_damaged(label, tables);
}

/// Every limit at once, with role pairs and what a random assignment tells.
fn at_the_limits() -> Tables {
    let mut random = Random::new(1);
    let mut tables = full(&mut random);
    add_role_pairs(&mut random, MAX_ROLE_PAIRS, &mut tables);
    assert_eq!(atoms::list(&tables).len(), 64);
    tables
}

fn time_of_copy() -> f64 {
    let (held, mut copy) = (vec![7u8; BYTES], vec![0; BYTES]);
    let [micros] = measure_all([&mut || copy.copy_from_slice(&held)]);
    assert!(copy == held, "no copy");
    micros
}

pub fn print() {
    println!("Time for one update of a held table beside one made afresh, at 192 entries.");
    println!("Putting the held table back takes {} of it.\n", in_words(time_of_copy()));
    print_head(&COLUMNS);
    for family in FAMILIES {
        print_family(family.label(), &family.tables(MAX_CONCEPTS));
        let label = format!("{}, 32 role pairs: without its last inclusion", family.label());
        print_last(&label, &family.tables_with_role_pairs(MAX_CONCEPTS));
    }
    let nested = Tables { inclusions: vec![1, 2], ..tower(190) };
    print_family("190 nested", &nested);
    print_family("at the limits", &at_the_limits());
}
