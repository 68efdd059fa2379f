//! The program itself, run as a process: its answer to every text, right or damaged.

use std::io::{Read, Write};
use std::process::{Child, ChildStdout};
use std::time::Duration;

use hermitcasket_tests::damage;
use hermitcasket_tests::generate;
use hermitcasket_tests::hard;
use hermitcasket_tests::house_text::{
    self, layout, layout_showing, layout_with, output, refused, stock_lines, Problem,
};
use hermitcasket_tests::limits::{MAX_ROLE_PAIRS, MAX_TEXT};
use hermitcasket_tests::nested::Large;
use hermitcasket_tests::planted;
use hermitcasket_tests::process;
use hermitcasket_tests::random::{cases, full_run, seed, Random, Size};
use hermitcasket_tests::reference::Refusal;
use hermitcasket_tests::tables::{Stock, Tables};
use hermitcasket_tests::tally::Tally;

const SAMPLE: &str = "\
blanks=1
entries=6
name=5
name=7
some=1,0
name=9
blank=0
and=1,4
inclusions=1
below=2,3
questions=2
below=5,3
below=2,4
";

/// Every kind of line, twice the pairs, and an answer with two lists.
const WIDE: &str = "\
blanks=2
entries=8
top=0
name=999
some=99,1
and=2,1
blank=1
blank=0
and=4,5
name=12
inclusions=2
below=1,7
below=2,0
questions=3
below=6,3
below=3,4
below=3,5
";

/// With role pairs: 2 counts as 1 by way of 7. Without them there is no filling.
const ROLES: &str = "\
blanks=1
roles=2
wider=7,1
wider=2,7
entries=9
name=14
name=20
name=11
name=12
some=1,3
some=2,3
and=2,4
blank=0
and=2,7
inclusions=3
below=6,1
below=0,2
below=0,5
questions=2
below=8,1
below=0,7
";

/// With one more last line: what is dough (2) need not be rich (1). 1 counts as 7, a role of no
/// entry. The blank is read as top, and not as 0, which would fill it.
const SHOW: &str = "\
blanks=1
roles=2
wider=1,7
wider=2,1
entries=6
name=14
name=20
name=11
some=2,2
some=1,2
blank=0
inclusions=2
below=0,2
below=4,1
questions=1
below=5,0
show=2,1
";

const PROGRAM: &str = "hermitcasket";

fn start() -> Child {
    process::start(PROGRAM)
}

fn print_in_pieces(pieces: &[&[u8]], pause: Duration) -> String {
    process::print_in_pieces(PROGRAM, pieces, pause)
}

fn print(text: &[u8]) -> String {
    process::print(PROGRAM, text)
}

/// The program prints what the reference does; what that is comes back.
fn agree(text: &[u8]) -> String {
    let wanted = output(text);
    let printed = print(text);
    assert!(printed == wanted, "prints\n{}not\n{}for {}", printed, wanted, shown(text));
    wanted
}

/// The text as Rust text, long ones cut.
fn shown(text: &[u8]) -> String {
    let head: String =
        text.iter().take(3000).flat_map(|b| b.escape_ascii()).map(char::from).collect();
    format!("b\"{}\" ({} bytes)", head, text.len())
}

fn off_layout(place: usize) -> String {
    refused(Refusal { number: 13, place: place as u64 })
}

#[test]
fn samples() {
    assert_eq!(agree(SAMPLE.as_bytes()), "answer=filled\nblanks=1\nfill=3\n");
    // card I
    let none = SAMPLE.replace("below=2,4", "below=0,4");
    assert_eq!(agree(none.as_bytes()), "answer=none\n");
    // card J
    let unasked = SAMPLE.replace("questions=2\nbelow=5,3\nbelow=2,4\n", "questions=0\n");
    assert_eq!(agree(unasked.as_bytes()), "answer=filled\nblanks=1\nfill=\n");
    let wide = agree(WIDE.as_bytes());
    assert_eq!(wide, "answer=filled\nblanks=2\nfill=\nfill=1,2\n");
    let empty = "blanks=0\nentries=0\ninclusions=0\nquestions=0\n";
    assert_eq!(agree(empty.as_bytes()), "answer=filled\nblanks=0\n");
    assert_eq!(agree(b""), "answer=refused\nnumber=13\nplace=0\n");
}

/// 01's sample with name 9 and "some" pasted in again: where the inclusion and the questions name
/// the copies, the sheet names the lowest twins, though these stand there no more.
#[test]
fn the_sheet_names_the_lowest_twin() {
    let copied = SAMPLE
        .replace("entries=6", "entries=8")
        .replace("and=1,4\n", "and=1,4\nname=9\nsome=1,0\n");
    assert_eq!(agree(copied.as_bytes()), "answer=filled\nblanks=1\nfill=3\n");
    let pairs = "inclusions=1\nbelow=2,3\nquestions=2\nbelow=5,3\nbelow=2,4\n";
    for named in [
        "inclusions=1\nbelow=7,6\nquestions=2\nbelow=5,6\nbelow=7,4\n",
        "inclusions=1\nbelow=2,6\nquestions=2\nbelow=5,3\nbelow=7,4\n",
        "inclusions=2\nbelow=2,3\nbelow=7,6\nquestions=2\nbelow=5,6\nbelow=2,4\n",
    ] {
        let text = copied.replace(pairs, named);
        assert_eq!(agree(text.as_bytes()), "answer=filled\nblanks=1\nfill=3\n", "{}", named);
    }
    // card I over the copies
    let none = "inclusions=1\nbelow=7,6\nquestions=2\nbelow=5,6\nbelow=0,4\n";
    assert_eq!(agree(copied.replace(pairs, none).as_bytes()), "answer=none\n");
    // WIDE with its answer's ids 1 and 2 pasted in again, and these asked for
    let twins = WIDE
        .replace("entries=8", "entries=11")
        .replace("name=12\n", "name=12\nname=999\nsome=99,8\nand=9,8\n")
        .replace("below=1,7\nbelow=2,0\n", "below=8,7\nbelow=9,0\n")
        .replace("below=6,3\nbelow=3,4\nbelow=3,5\n", "below=6,10\nbelow=10,4\nbelow=3,5\n");
    assert_eq!(agree(twins.as_bytes()), "answer=filled\nblanks=2\nfill=\nfill=1,2\n");
}

/// Copies count once: 64 names and 65 or 192 entries are accepted, 65 names are not.
#[test]
fn copies_at_the_limit_of_parts() {
    let parts = |names: u16, count: u16| {
        let rows: Vec<[u16; 3]> = (0..count).map(|id| [1, id % names, 0]).collect();
        let inclusions: Vec<[u16; 2]> = (0..count / 2).map(|k| [k, count - 1 - k]).collect();
        let questions = [[count / 2, count / 2]];
        layout(&Tables::new(&rows, &inclusions, &questions, 0)).expect("a layout")
    };
    for (names, count) in [(64, 64), (64, 65), (64, 128), (64, 192), (1, 192)] {
        assert_eq!(agree(&parts(names, count)), "answer=filled\nblanks=0\n", "{}", count);
    }
    for count in [65, 66, 192] {
        assert_eq!(agree(&parts(65, count)), refused(Refusal { number: 7, place: 64 }));
    }
}

/// Copies pasted into a problem, and named in the place of the originals, change no byte printed.
#[test]
fn copies_change_no_sheet() {
    let seed = seed("program, copies");
    let mut tally = Tally::new("program, copies");
    for (size, share) in [(Size::Small, 30), (Size::Medium, 20), (Size::Large, 20)] {
        for k in 0..(cases(size) / share).max(1) {
            let mut random = Random::for_case(seed, k);
            let mut tables = generate::valid(&mut random, size);
            let before = output(&layout(&tables).expect("a layout"));
            let most = random.between(1, 40);
            generate::paste_copies(&mut random, &mut tables, most);
            assert_eq!(agree(&layout(&tables).expect("a layout")), before, "for\n{}", tables);
            tally.case();
            tally.note("filled", before.starts_with("answer=filled"));
            tally.note("none", before == "answer=none\n");
        }
    }
    tally.finish(&[("filled", 20..=80), ("none", 20..=80)]);
}

/// The examples of 01's refusal table that a text can bring, and the limit cards.
#[test]
fn refusals_of_the_tables() {
    let ask = |text: &str| agree(text.as_bytes());
    let said = |number: u16, place: u64| refused(Refusal { number, place });
    assert_eq!(ask("blanks=9\n"), said(1, 3));
    assert_eq!(ask("blanks=0\nentries=1\nname=1000\ninclusions=0\nquestions=0\n"), said(2, 0));
    assert_eq!(ask("blanks=0\nentries=1\nsome=1,0\ninclusions=0\nquestions=0\n"), said(3, 0));
    assert_eq!(ask("blanks=0\nentries=0\ninclusions=1\nbelow=0,0\nquestions=0\n"), said(4, 0));
    let blank = "blanks=1\nentries=1\nblank=0\n";
    assert_eq!(ask(&(blank.to_string() + "inclusions=1\nbelow=0,0\nquestions=0\n")), said(5, 0));
    assert_eq!(ask(&(blank.to_string() + "inclusions=0\nquestions=1\nbelow=0,0\n")), said(6, 0));
    let parts = |count: u16| {
        let rows: Vec<[u16; 3]> = (0..count).map(|name| [1, name, 0]).collect();
        let inclusions: Vec<[u16; 2]> = (0..count).map(|id| [id, id]).collect();
        layout(&Tables::new(&rows, &inclusions, &[], 0)).expect("a layout")
    };
    assert_eq!(agree(&parts(65)), said(7, 64));
    assert_eq!(agree(&parts(64)), "answer=filled\nblanks=0\n");
}

/// Every limit and one more; later lines are not looked at.
#[test]
fn counts_at_their_limits() {
    let text = |blanks: usize, entries: usize, inclusions: usize, questions: usize| {
        let mut text = format!("blanks={}\nentries={}\n", blanks, entries);
        text += &"top=0\n".repeat(entries);
        text += &format!("inclusions={}\n{}", inclusions, "below=0,0\n".repeat(inclusions));
        text + &format!("questions={}\n{}", questions, "below=0,0\n".repeat(questions))
    };
    let filled = agree(text(8, 192, 96, 32).as_bytes());
    assert_eq!(filled, format!("answer=filled\nblanks=8\n{}", "fill=\n".repeat(8)));
    let cases =
        [(9, 192, 96, 32, 3), (8, 193, 96, 32, 0), (8, 192, 97, 32, 1), (8, 192, 96, 33, 2)];
    for (blanks, entries, inclusions, questions, place) in cases {
        let whole = text(blanks, entries, inclusions, questions);
        let wanted = refused(Refusal { number: 1, place });
        assert_eq!(agree(whole.as_bytes()), wanted);
        // the count's line decides, whatever follows it
        let key = ["entries=193\n", "inclusions=97\n", "questions=33\n", "blanks=9\n"];
        let key = key[place as usize];
        let end = whole.find(key).expect("the count") + key.len();
        assert_eq!(agree(&whole.as_bytes()[..end]), wanted);
        assert_eq!(agree([&whole.as_bytes()[..end], b"\0 garbage"].concat().as_slice()), wanted);
        // without its byte 10 it is no line
        let cut = &whole[..end - 1];
        let start = end - key.len();
        assert_eq!(agree(cut.as_bytes()), off_layout(start));
    }
    for count in [10, 255, 256, 264, 65535] {
        let wanted = refused(Refusal { number: 1, place: 3 });
        assert_eq!(agree(format!("blanks={}\n", count).as_bytes()), wanted);
    }
}

/// Wrong keys for a right line "key=rest".
fn wrong_keys(key: &str, rest: &str) -> Vec<String> {
    vec![
        String::new(),
        format!("x{}={}", key, rest),
        format!("={}", rest),
        rest.to_string(),
        key.to_string(),
        format!("{}:{}", key, rest),
        format!("{}s={}", key, rest),
        format!("{}={}", &key[1..], rest),
        format!("{}={}", &key[..key.len() - 1], rest),
        format!("{}={}", key.to_uppercase(), rest),
        format!("{}=={}", key, rest),
        format!("other={}", rest),
    ]
}

/// Wrong first numbers, where `second` is empty or a comma and the second number.
fn wrong_numbers(key: &str, first: &str, second: &str) -> Vec<String> {
    let numbers = [
        String::new(),
        format!(",{}", first),
        format!("0{}", first),
        "00".to_string(),
        format!("+{}", first),
        format!("-{}", first),
        "65536".to_string(),
        "131072".to_string(),
        "18446744073709551616".to_string(),
        "99999999999999999999999".to_string(),
        "x".to_string(),
        format!("0x{}", first),
        format!("{}.0", first),
    ];
    let mut lines: Vec<String> =
        numbers.iter().map(|number| format!("{}={}{}", key, number, second)).collect();
    lines.push(format!("{}={}{},", key, first, second));
    lines.push(format!("{}={}{},0", key, first, second));
    lines
}

/// Wrong second numbers and commas.
fn wrong_pairs(key: &str, a: &str, b: &str) -> Vec<String> {
    vec![
        format!("{}={}", key, a),
        format!("{}={},", key, a),
        format!("{}={}, {}", key, a, b),
        format!("{}={} ,{}", key, a, b),
        format!("{}={},0{}", key, a, b),
        format!("{}={},65536", key, a),
        format!("{}={};{}", key, a, b),
        format!("{}={},,{}", key, a, b),
        format!("{}={}\0,{}", key, a, b),
    ]
}

/// Bytes that belong in no line.
fn odd_bytes(line: &str, key: &str, rest: &str) -> Vec<Vec<u8>> {
    let texts = [
        format!(" {}", line),
        format!("{} ", line),
        format!("{} ={}", key, rest),
        format!("{}= {}", key, rest),
        format!("{}\r", line),
        format!("\t{}", line),
        format!("{}\0", line),
        format!("\0{}", line),
        format!("{}=\0{}", key, rest),
    ];
    let mut lines: Vec<Vec<u8>> = texts.into_iter().map(String::into_bytes).collect();
    for at in [0, key.len(), line.len() - 1] {
        let mut bytes = line.as_bytes().to_vec();
        bytes[at] |= 0x80;
        lines.push(bytes);
    }
    lines.push([line.as_bytes(), b"\xff"].concat());
    lines
}

/// Lines that break the layout wherever they stand, made from a right line.
fn broken(line: &str) -> Vec<Vec<u8>> {
    let (key, rest) = line.split_once('=').expect("a right line");
    let mut texts = wrong_keys(key, rest);
    match rest.split_once(',') {
        None => texts.extend(wrong_numbers(key, rest, "")),
        Some((a, b)) => {
            texts.extend(wrong_numbers(key, a, &format!(",{}", b)));
            texts.extend(wrong_pairs(key, a, b));
        }
    }
    let mut lines: Vec<Vec<u8>> = texts.into_iter().map(String::into_bytes).collect();
    lines.extend(odd_bytes(line, key, rest));
    lines
}

/// The text's lines, each with the byte where it starts.
fn lines(text: &str) -> Vec<(usize, &str)> {
    let mut at = 0;
    let mut list = Vec::new();
    for line in text.lines() {
        list.push((at, line));
        at += line.len() + 1;
    }
    list
}

/// Every fault at every line is 13 at the byte where that line starts.
#[test]
fn every_fault_at_every_line() {
    for (text, share) in [(SAMPLE, 1), (WIDE, 5), (ROLES, 3), (SHOW, 2)] {
        for (k, (start, line)) in lines(text).into_iter().enumerate() {
            let rest = &text[start + line.len()..];
            for fault in broken(line).iter().skip(k % share).step_by(share) {
                let damaged = [&text.as_bytes()[..start], fault, rest.as_bytes()].concat();
                assert_eq!(agree(&damaged), off_layout(start), "{}", shown(&damaged));
            }
        }
    }
}

/// Well-formed numbers out of range are for the tables' checks; "top" takes 0 only.
#[test]
fn telling_numbers_at_every_line() {
    let all = [WIDE, ROLES, SHOW]
        .into_iter()
        .flat_map(|text| lines(text).into_iter().map(move |line| (text, line)));
    for (whole, (start, line)) in all {
        let (key, rest) = line.split_once('=').expect("a right line");
        for number in
            ["0", "1", "8", "9", "32", "33", "99", "100", "192", "193", "999", "1000", "65535"]
        {
            let changed: Vec<String> = match rest.split_once(',') {
                None => vec![format!("{}={}", key, number)],
                Some((a, b)) => {
                    vec![format!("{}={},{}", key, number, b), format!("{}={},{}", key, a, number)]
                }
            };
            for line_now in changed {
                let text = [&whole[..start], &line_now, &whole[start + line.len()..]].concat();
                let said = agree(text.as_bytes());
                if key == "top" && number != "0" {
                    assert_eq!(said, off_layout(start), "{}", text);
                }
            }
        }
    }
}

/// The text cut at every byte, and every line left out, said twice, or out of its place.
#[test]
fn cuts_and_moved_lines() {
    for text in [SAMPLE, ROLES, SHOW] {
        let bytes = text.as_bytes();
        // without a last line show= it is a text too
        let whole = text.find("show=");
        for end in (0..bytes.len()).filter(|&end| Some(end) != whole) {
            let started = bytes[..end].iter().rposition(|&byte| byte == b'\n');
            let started = started.map_or(0, |at| at + 1);
            assert_eq!(agree(&bytes[..end]), off_layout(started), "cut at {}", end);
        }
        let all = lines(text);
        let join = |list: &[(usize, &str)]| -> Vec<u8> {
            list.iter().flat_map(|(_, line)| [line.as_bytes(), b"\n"].concat()).collect()
        };
        for k in 0..all.len() {
            let mut fewer = all.clone();
            fewer.remove(k);
            agree(&join(&fewer));
            let mut twice = all.clone();
            twice.insert(k, all[k]);
            agree(&join(&twice));
            let mut moved = all.clone();
            moved.swap(k, (k + 1) % all.len());
            agree(&join(&moved));
        }
    }
}

/// A card that role pairs give a filling: without them, with none, or turned round it has none.
#[test]
fn role_pairs_change_the_answer() {
    let ask = |section: &str| {
        let text = ROLES.replace("roles=2\nwider=7,1\nwider=2,7\n", section);
        agree(text.as_bytes())
    };
    let filled = "answer=filled\nblanks=1\nfill=5\n";
    assert_eq!(agree(ROLES.as_bytes()), filled);
    for section in [
        "roles=1\nwider=2,1\n",
        "roles=2\nwider=2,7\nwider=7,1\n",
        "roles=3\nwider=2,1\nwider=1,2\nwider=2,1\n",
        "roles=4\nwider=1,1\nwider=99,0\nwider=99,1\nwider=2,99\n",
    ] {
        assert_eq!(ask(section), filled, "{}", section);
    }
    for section in [
        "",
        "roles=0\n",
        "roles=1\nwider=1,2\n",
        "roles=1\nwider=2,2\n",
        "roles=2\nwider=1,7\nwider=7,2\n",
        "roles=2\nwider=2,7\nwider=8,1\n",
    ] {
        assert_eq!(ask(section), "answer=none\n", "{}", section);
    }
}

/// `roles=0` says what no section says.
#[test]
fn an_empty_section_is_none() {
    let empty = "blanks=0\nroles=0\nentries=0\ninclusions=0\nquestions=0\n";
    assert_eq!(agree(empty.as_bytes()), "answer=filled\nblanks=0\n");
    let seed = seed("program, empty sections");
    for (size, share) in [(Size::Small, 60), (Size::Medium, 40), (Size::Large, 40)] {
        for k in 0..(cases(size) / share).max(1) {
            let mut tables = generate::valid(&mut Random::for_case(seed, k), size);
            tables.roles.clear();
            let with = layout_with(&tables, true).expect("a layout");
            let without = layout_with(&tables, false).expect("a layout");
            assert_ne!(with, without);
            assert_eq!(agree(&with), agree(&without), "for\n{}", tables);
        }
    }
}

/// The section stands directly behind `blanks=` and nowhere else, and once.
#[test]
fn the_section_has_one_place() {
    let section = "roles=1\nwider=2,1\n";
    for (start, line) in lines(SAMPLE) {
        for section in [section, "roles=0\n"] {
            let text = [&SAMPLE[..start], section, &SAMPLE[start..]].concat();
            let said = agree(text.as_bytes());
            let right = line.starts_with("entries=");
            let filled = "answer=filled\nblanks=1\nfill=3\n".to_string();
            let wanted = if right { filled } else { off_layout(start) };
            assert_eq!(said, wanted, "before {}", line);
        }
    }
    let behind = SAMPLE.to_string() + section;
    assert_eq!(agree(behind.as_bytes()), off_layout(SAMPLE.len()));
    // a second section is judged as entries=
    for second in [section, "roles=0\n", "roles=33\n"] {
        let text = SAMPLE.replace("entries=6", &(section.to_string() + second + "entries=6"));
        let place = "blanks=1\n".len() + section.len();
        assert_eq!(agree(text.as_bytes()), off_layout(place), "{}", second);
    }
    // too few and too many lines of pairs; lines of pairs without a section
    let at = "blanks=1\nroles=1\n".len();
    for (section, place) in [
        ("roles=1\n", at),
        ("roles=2\nwider=2,1\n", at + 10),
        ("roles=1\nwider=2,1\nwider=2,1\n", at + 10),
        ("roles=0\nwider=2,1\n", at),
        ("wider=2,1\n", 9),
        ("roles=1\nbelow=2,1\n", at),
        ("roles=1\nwider=2\n", at),
        ("roles=1\nwider=2,1,0\n", at),
    ] {
        let text = SAMPLE.replace("entries=6", &(section.to_string() + "entries=6"));
        assert_eq!(agree(text.as_bytes()), off_layout(place), "{}", section);
    }
}

/// 32 pairs are read, 33 are refusal 1 at place 4 on that line; numbers are for the tables' checks.
#[test]
fn limits_of_the_section() {
    let ask = |section: &str| {
        let text = SAMPLE.replace("entries=6", &(section.to_string() + "entries=6"));
        agree(text.as_bytes())
    };
    let said = |number: u16, place: u64| refused(Refusal { number, place });
    let pairs = |count: usize, line: &str| format!("roles={}\n{}", count, line.repeat(count));
    for count in [1, 31, MAX_ROLE_PAIRS] {
        assert_eq!(ask(&pairs(count, "wider=99,0\n")), "answer=filled\nblanks=1\nfill=3\n");
        assert_eq!(ask(&pairs(count, "wider=0,100\n")), said(16, 0));
    }
    for count in [33, 34, 64, 256, 288, 65535] {
        // the count's line decides, whatever follows it
        for rest in ["", "\0 garbage", "entries=193\n", "wider=100,100\n"] {
            let text = format!("blanks=1\nroles={}\n{}", count, rest);
            assert_eq!(agree(text.as_bytes()), said(1, 4), "{}", text);
        }
        let text = format!("blanks=1\nroles={}", count);
        assert_eq!(agree(text.as_bytes()), off_layout(9), "no line without its byte 10");
        let text = format!("blanks=9\nroles={}\n", count);
        assert_eq!(agree(text.as_bytes()), said(1, 3));
    }
    assert_eq!(ask(&pairs(33, "wider=99,0\n")), said(1, 4));
    assert_eq!(ask("roles=65536\n"), off_layout(9));
    // an earlier line decides: the section comes before the entries
    assert_eq!(agree(b"blanks=0\nroles=1\nwider=0,0\nentries=193\n"), said(1, 0));
    for (role, place) in [("100,0", 1), ("0,100", 1), ("65535,65535", 1)] {
        let section = format!("roles=3\nwider=99,99\nwider={}\nwider=100,0\n", role);
        assert_eq!(ask(&section), said(16, place), "{}", role);
    }
}

/// 16 comes behind 6 and before 7.
#[test]
fn the_order_of_refusals_with_roles() {
    let said = |number: u16, place: u64| refused(Refusal { number, place });
    let high = "roles=1\nwider=0,100\n";
    let both =
        format!("blanks=1\n{}entries=1\nblank=0\ninclusions=0\nquestions=1\nbelow=0,0\n", high);
    assert_eq!(agree(both.as_bytes()), said(6, 0));
    let rows: Vec<[u16; 3]> = (0..65).map(|name| [1, name, 0]).collect();
    let inclusions: Vec<[u16; 2]> = (0..65).map(|id| [id, id]).collect();
    let tables = Tables::new(&rows, &inclusions, &[], 0);
    let fine = tables.clone().with_roles(&[[0, 99]]);
    assert_eq!(agree(&layout(&fine).expect("a layout")), said(7, 64));
    let high = tables.with_roles(&[[0, 99], [0, 100]]);
    assert_eq!(agree(&layout(&high).expect("a layout")), said(16, 1));
}

/// The interpretation and nothing else, under the empty filling, whatever the questions ask.
#[test]
fn a_shown_stock() {
    let wanted = "things=6\nis=0,5\nis=1,7\nis=2,9\nis=3,9\nis=5,7\nlink=2,1,0\n";
    for pair in ["3,2", "0,1", "5,3", "4,0"] {
        let text = format!("{}show={}\n", SAMPLE, pair);
        assert_eq!(agree(text.as_bytes()), wanted, "{}", pair);
        // card I, which has no filling, and card J, which asks for none
        let none = text.replace("below=2,4", "below=0,4");
        assert_eq!(agree(none.as_bytes()), wanted, "{}", pair);
        let unasked = text.replace("questions=2\nbelow=5,3\nbelow=2,4\n", "questions=0\n");
        assert_eq!(agree(unasked.as_bytes()), wanted, "{}", pair);
    }
    // the filling that the card has would make these hold
    for pair in ["2,4", "3,4"] {
        let text = format!("{}show={}\n", SAMPLE, pair);
        assert_eq!(agree(text.as_bytes()), refused(Refusal { number: 15, place: 0 }), "{}", pair);
    }
    let named = "things=6\nis=0,11\nis=0,14\nis=1,20\nis=2,11\n";
    let wide = "is=3,20\nis=4,20\nlink=3,1,2\nlink=3,2,2\nlink=3,7,2\nlink=4,1,2\nlink=4,7,2\n";
    assert_eq!(agree(SHOW.as_bytes()), [named, wide].concat());
    let without = SHOW.replace("roles=2\nwider=1,7\nwider=2,1\n", "");
    let narrow = "is=4,20\nlink=3,2,2\nlink=4,1,2\n";
    assert_eq!(agree(without.as_bytes()), [named, narrow].concat());
}

/// Each refusal of a shown stock prints as every refusal, in the order of the checks; the text
/// comes before all of them.
#[test]
fn refusals_of_a_shown_stock() {
    let said = |number: u16, place: u64| refused(Refusal { number, place });
    let show = |pair: &str| agree(SHOW.replace("show=2,1", &format!("show={}", pair)).as_bytes());
    for pair in ["0,0", "0,2", "3,1", "3,4", "1,5"] {
        assert_eq!(show(pair), said(15, 0), "{}", pair);
    }
    for pair in ["6,0", "0,6", "6,6", "65535,0", "0,65535", "192,192", "256,0"] {
        assert_eq!(show(pair), said(4, 0), "{}", pair);
    }
    assert_eq!(show("0,65536"), off_layout(SHOW.find("show=").expect("the line")));
    let bad = SHOW.replace("show=2,1", "show=6,0");
    for (from, to, before, after) in [
        ("name=14", "name=1000", (2, 0), (2, 0)),
        ("some=1,2", "some=1,4", (3, 4), (3, 4)),
        ("below=4,1", "below=4,6", (4, 0), (4, 1)),
        ("below=4,1", "below=5,1", (4, 0), (5, 1)),
        ("below=5,0", "below=5,5", (4, 0), (6, 0)),
        ("wider=2,1", "wider=100,1", (4, 0), (16, 1)),
    ] {
        let answer = agree(bad.replace(from, to).as_bytes());
        assert_eq!(answer, said(before.0, before.1), "{}", to);
        let holds = SHOW.replace("show=2,1", "show=0,0").replace(from, to);
        assert_eq!(agree(holds.as_bytes()), said(after.0, after.1), "{}", to);
    }
    // a count over its limit is on its line, and so is what is off the layout
    assert_eq!(agree(SHOW.replace("questions=1", "questions=33").as_bytes()), said(1, 2));
    let parts = Tables::new(
        &(0..65).map(|name| [1, name, 0]).collect::<Vec<_>>(),
        &(0..65).map(|id| [id, id]).collect::<Vec<_>>(),
        &[],
        0,
    );
    for (pair, wanted) in [((0, 1), said(7, 64)), ((0, 65), said(4, 0)), ((0, 0), said(7, 64))] {
        let text = layout_showing(&parts, Some(pair)).expect("a layout");
        assert_eq!(agree(&text), wanted, "{:?}", pair);
    }
}

/// The line stands behind all others and nowhere else, once, and nothing behind it.
#[test]
fn the_line_show_has_one_place() {
    let line = "show=3,2\n";
    for (start, before) in lines(SAMPLE) {
        let text = [&SAMPLE[..start], line, &SAMPLE[start..]].concat();
        assert_eq!(agree(text.as_bytes()), off_layout(start), "before {}", before);
    }
    let whole = SAMPLE.to_string() + line;
    for more in ["\n", " ", "x", "\0", line, "show=0,1\n", "show=", "below=0,0\n", "questions=0\n"]
    {
        let text = whole.clone() + more;
        assert_eq!(agree(text.as_bytes()), off_layout(whole.len()), "{:?}", more);
    }
    assert_eq!(agree((whole.clone() + SAMPLE).as_bytes()), off_layout(whole.len()));
    assert_eq!(agree((whole.clone() + &whole).as_bytes()), off_layout(whole.len()));
    // alone, or in the place of the questions, it is the line that was due
    assert_eq!(agree(line.as_bytes()), off_layout(0));
    let at = SAMPLE.find("questions=").expect("the line");
    assert_eq!(agree([&SAMPLE[..at], line].concat().as_bytes()), off_layout(at));
    let cut = &whole[..whole.len() - line.len() - "below=2,4\n".len()];
    assert_eq!(agree([cut, line].concat().as_bytes()), off_layout(cut.len()));
}

/// Each byte of the line changed, left out, or another put before it: 13 at the line's start, or
/// another pair of numbers, as the reference reads it.
#[test]
fn every_byte_of_the_line_show() {
    let start = SHOW.find("show=").expect("the line");
    let bytes = SHOW.as_bytes();
    let (mut off, mut other) = (0, 0);
    let mut judge = |text: &[u8]| {
        let said = agree(text);
        let read = house_text::read(text).is_ok();
        assert_eq!(said == off_layout(start), !read, "{}", shown(text));
        off += usize::from(!read);
        other += usize::from(read);
    };
    for at in start..bytes.len() {
        for byte in *b"\0\r ,0139=sS\x80\xff" {
            let (before, rest) = bytes.split_at(at);
            judge(&[before, &[byte], rest].concat());
            if byte != bytes[at] {
                judge(&[before, &[byte], &rest[1..]].concat());
            }
        }
        judge(&[&bytes[..at], &bytes[at + 1..]].concat());
    }
    assert!(off > 200 && other > 10, "{} off the layout, {} read", off, other);
    // byte 10 ends the line, and what stands behind is a line that is not due
    for at in start..bytes.len() {
        let (before, rest) = bytes.split_at(at);
        let place = if rest == b"\n" { bytes.len() } else { start };
        assert_eq!(agree(&[before, b"\n", rest].concat()), off_layout(place), "{}", at);
    }
}

/// The text with the largest output, and that output: 192 things, each linked to 191 others by 33 roles.
fn largest() -> (Vec<u8>, String) {
    let large = Large::over_name();
    let text = layout_showing(&large.tables, Some(large.pair)).expect("a layout");
    (text, stock_lines(&Stock { size: 192, rows: large.rows() }))
}

#[test]
fn the_largest_output() {
    let (text, wanted) = largest();
    assert_eq!(wanted.len(), 17_972_546);
    let printed = print(&text);
    let first = printed.lines().zip(wanted.lines()).find(|(line, due)| line != due);
    assert!(printed == wanted, "{} bytes, {:?}", printed.len(), first);
    assert!(output(&text) == wanted, "the reference has another output");
}

/// The program on a text, with its output still to be read.
fn started_on(text: &[u8]) -> (Child, ChildStdout) {
    let mut child = start();
    child.stdin.take().expect("a pipe").write_all(text).expect("a pipe takes the text");
    let output = child.stdout.take().expect("a pipe");
    (child, output)
}

/// Who reads in small pieces gets the same bytes.
#[test]
fn the_largest_output_in_small_pieces() {
    let (text, wanted) = largest();
    let (mut child, mut output) = started_on(&text);
    let mut printed: Vec<u8> = Vec::new();
    let mut piece = [0; 777];
    loop {
        match output.read(&mut piece).expect("a pipe gives the output") {
            0 => break,
            n => printed.extend(&piece[..n]),
        }
    }
    assert!(child.wait().expect("the program ends").success());
    assert!(printed == wanted.as_bytes(), "{} bytes", printed.len());
}

/// A reader that goes away does no harm: what it took is right, and the program ends and says nothing else.
#[test]
fn a_reader_that_goes_away() {
    let (text, wanted) = largest();
    for taken in [0, 1, 4096, 1_000_000] {
        let (child, mut output) = started_on(&text);
        let mut head = vec![0; taken];
        output.read_exact(&mut head).expect("a pipe gives the output");
        drop(output);
        let ended = child.wait_with_output().expect("the program ends");
        assert!(ended.stderr.is_empty(), "{}", String::from_utf8_lossy(&ended.stderr));
        assert!(wanted.as_bytes().starts_with(&head), "{} bytes", taken);
    }
}

/// Bytes after the last line are a line that is not due.
#[test]
fn bytes_after_the_end() {
    for more in ["\n", " ", "x", "\0", "below=0,0\n", "questions=0\n", "blanks=1\n", "\r\n"] {
        let text = SAMPLE.to_string() + more;
        assert_eq!(agree(text.as_bytes()), off_layout(SAMPLE.len()), "{:?}", more);
    }
    assert_eq!(agree((SAMPLE.to_string() + SAMPLE).as_bytes()), off_layout(SAMPLE.len()));
    assert_eq!(agree(b"\xef\xbb\xbfblanks=0\n"), off_layout(0));
}

/// Up to 8192 bytes the lines decide; over it the length does, before any line.
#[test]
fn lengths_around_the_limit() {
    let starts =
        [(SAMPLE, off_layout(SAMPLE.len())), ("", off_layout(0)), ("blanks=9\n", said_9())];
    for (start, at_limit) in starts {
        for filler in [b'\n', b'0', 0] {
            for length in [MAX_TEXT - 1, MAX_TEXT, MAX_TEXT + 1, MAX_TEXT + 2, 10_000, 100_000] {
                let mut text = start.as_bytes().to_vec();
                text.resize(length, filler);
                let wanted =
                    if length > MAX_TEXT { off_layout(MAX_TEXT) } else { at_limit.clone() };
                assert_eq!(agree(&text), wanted, "{} bytes", length);
            }
        }
    }
}

fn said_9() -> String {
    refused(Refusal { number: 1, place: 3 })
}

/// The same answer however the bytes arrive.
#[test]
fn input_in_small_pieces() {
    let pause = Duration::from_micros(300);
    for size in [1, 2, 7, 64] {
        for text in [SAMPLE, WIDE, ROLES, SHOW] {
            let pieces: Vec<&[u8]> = text.as_bytes().chunks(size).collect();
            assert_eq!(print_in_pieces(&pieces, pause), output(text.as_bytes()), "{}", size);
        }
    }
    // 8192 and 8193 bytes, the last one alone
    for length in [MAX_TEXT, MAX_TEXT + 1] {
        let mut text = SAMPLE.as_bytes().to_vec();
        text.resize(length, b'\n');
        let (most, last) = text.split_at(length - 1);
        assert_eq!(print_in_pieces(&[most, last], 20 * pause), output(&text), "{}", length);
    }
    let cut = &SAMPLE.as_bytes()[..SAMPLE.len() - 1];
    assert_eq!(print_in_pieces(&[cut, b"\n"], 20 * pause), output(SAMPLE.as_bytes()));
    assert_eq!(print_in_pieces(&[cut], 20 * pause), output(cut));
}

/// A layout reads back as the problem it lays out, and only that.
#[test]
fn layouts_read_back() {
    let seed = seed("program, layouts");
    for size in [Size::Small, Size::Medium, Size::Large] {
        for k in 0..cases(size) / 8 {
            let mut random = Random::for_case(seed, k);
            let tables = generate::valid(&mut random, size);
            let pair = generate::pair(&mut random, &tables);
            for (text, show) in [
                (layout(&tables), None),
                (layout_with(&tables, true), None),
                (layout_showing(&tables, Some(pair)), Some(pair)),
            ] {
                let read = house_text::read(&text.expect("accepted tables have a layout"));
                assert_eq!(read, Ok(Problem { tables: tables.clone(), show }), "{}", tables);
            }
        }
    }
}

/// Random problems, many with faults that a text can hold.
#[test]
fn random_problems_agree() {
    let seed = seed("program, problems");
    let mut seen = std::collections::BTreeSet::new();
    let mut tally = Tally::new("program, problems");
    for (size, share) in [(Size::Small, 12), (Size::Medium, 10), (Size::Large, 10)] {
        for k in 0..cases(size) / share {
            let mut random = Random::for_case(seed, k);
            let tables = generate::valid(&mut random, size);
            let show = pair_to_show(&mut random, &tables);
            let mut text = layout_showing(&tables, show);
            if random.percent(50) {
                let mut damaged = tables;
                damage::tables(&mut random, &mut damaged);
                // some damage has no lines: then the text stays as it was
                tally.note("damage left out", layout(&damaged).is_none());
                text = layout_showing(&damaged, show).or(text);
            }
            let said = agree(&text.expect("accepted tables have a layout"));
            tally.case();
            for kind in ["filled", "none", "refused"] {
                tally.note(kind, said.starts_with(&format!("answer={}", kind)));
            }
            tally.note("shown", said.starts_with("things="));
            seen.insert(said.lines().take(2).collect::<Vec<_>>().join(" "));
        }
    }
    let refusal = |number: u16| format!("answer=refused number={}", number);
    let mut kinds = vec!["answer=none".to_string(), "answer=filled blanks=2".to_string()];
    kinds.extend((1..8).chain([15, 16]).map(refusal));
    let all_seen = kinds.iter().all(|kind| seen.contains(kind));
    assert!(all_seen || !full_run(), "{:?}", seen);
    tally.finish(&[
        ("damage left out", 0..=20),
        ("filled", 15..=80),
        ("none", 8..=80),
        ("refused", 15..=80),
        ("shown", 4..=30),
    ]);
}

/// A pair for a last line show=, in a third of the texts: any, or one that fails.
fn pair_to_show(random: &mut Random, tables: &Tables) -> Option<(u16, u16)> {
    let nothing = vec![0; usize::from(tables.variables)];
    match random.below(6) {
        0 => Some(generate::pair(random, tables)),
        1 => generate::failing_pair(random, tables, &nothing),
        _ => None,
    }
}

fn change_digit(random: &mut Random, text: &mut [u8]) {
    let digits: Vec<usize> = (0..text.len()).filter(|&at| text[at].is_ascii_digit()).collect();
    if !digits.is_empty() {
        text[*random.pick(&digits)] = b'0' + random.below(10) as u8;
    }
}

/// One to three bytes changed, put in or left out, or pieces of the text moved.
fn damage_text(random: &mut Random, text: &mut Vec<u8>) {
    const TELLING: &[u8] = b"\n\n\r ,=0019-\0\x80\xffabt";
    for _ in 0..random.between(1, 3) {
        let at = random.below(text.len().max(1));
        match random.below(9) {
            0 => text.insert(at, *random.pick(TELLING)),
            1 if !text.is_empty() => drop(text.remove(at)),
            2 if !text.is_empty() => text[at] = *random.pick(TELLING),
            3 if !text.is_empty() => text[at] = text[at].wrapping_add(random.between(1, 255) as u8),
            4 => text.truncate(at),
            // a number changed mostly leaves a text that can be read
            5..=7 => change_digit(random, text),
            _ => {
                let until = at + random.below(text.len() - at + 1);
                let piece = text[at..until].to_vec();
                let to = random.below(text.len() + 1);
                text.splice(to..to, piece);
            }
        }
    }
}

#[test]
fn random_damaged_texts_agree() {
    let seed = seed("program, texts");
    let mut tally = Tally::new("program, texts");
    for k in 0..cases(Size::Small) / 12 {
        let mut random = Random::for_case(seed, k);
        let size = if random.percent(90) { Size::Small } else { Size::Medium };
        let tables = generate::valid(&mut random, size);
        let show = pair_to_show(&mut random, &tables);
        let mut text = layout_showing(&tables, show).expect("accepted tables have a layout");
        damage_text(&mut random, &mut text);
        let off = agree(&text).contains("number=13");
        tally.case();
        tally.note("off the layout", off);
        tally.note("read", !off);
    }
    tally.finish(&[("off the layout", 50..=95), ("read", 5..=50)]);
}

/// The hard families, as texts.
#[test]
fn hard_families() {
    for k in [5, 60] {
        for problem in hard::with_harmless(k) {
            agree(&layout(&problem.tables).expect("a layout"));
        }
    }
}

/// Problems at the limits that need a search, as texts.
#[test]
fn searches_at_the_limits() {
    let seed = seed("program, searches");
    let mut tally = Tally::new("program, searches");
    for shape in planted::FULL {
        for k in 0..(cases(Size::Large) / 30).max(1) {
            let mut random = Random::for_case(seed, k);
            let tables = planted::problem(&mut random, shape);
            let tables = planted::fill_up(&mut random, tables);
            let said = agree(&layout(&tables).expect("a layout"));
            tally.case();
            tally.note("filled", said.starts_with("answer=filled"));
            tally.note("none", said == "answer=none\n");
        }
    }
    tally.finish(&[("filled", 20..=80), ("none", 20..=80)]);
}
