//! include/hermitcasket.h, compiled as C and as C++ and linked with the archive; and what it says
//! of the archive.

use std::path::{Path, PathBuf};
use std::process::{Command, Output};

const EXPECTED: &str = "\
answer 24 8 16
catalogue 32 8 16 24
check 0 0 0
atoms 0 0 3
ids 0 2 3
blanks 0 0 1
no such entry 4 0 0
table 0 0 13
row 1
row 2
row 28
row 24
row 24
row 58
yes 0 0 1
no 0 0 0
short 8 144 0
count 9 1 0
pair 4 0 0
ragged 1 0 0
match 0 0 0
found 4
chosen 0 0 1
part 3
derive 0
checked 0 0 0
not below 11 0 0
no lines 12 0 0
narrow below wide 0 0 1
wide below narrow 0 0 0
no pairs 0 0 0
rule 5 0 0 0
turned 12 1 0
role 100 16 1 0
ragged pairs 1 4 0
32 pairs 0 0 0
33 pairs 1 4 0
all permitted 0 0 0
found 4 77
the last barred 0 0 0
found 2 77
both barred 10 0 0
at most none 10 0 0
past the parts 19 0 0
over 64 19 0 0
two sets 19 1 0
two counts 19 1 0
settings first 19 0 0
room then 8 1 0
found 2 77
none allowed 14 0 0
three allowed 14 0 3
found 77 77
four allowed 0 0 4
found 4 77
the most allowed 0 0 4
three, and none fills 10 0 3
two of the three 14 0 2
shut at once 10 0 0
settings before 19 0 0
two counts before 19 1 0
room before 8 1 0
found 4 77
group 0 0 0
found 8 0 77
group 0 0 0
found 0 2 77
group 0 0 0
found 8 0 77
group 10 0 0
found 8 0 77
group 4 0 0
found 8 0 77
settings outside it 19 1 0
room outside it 8 2 0
four cards 0 0 0
card 0: 0 0 4
card 1: 6 1 0
card 2: 0 0 4
card 3: 14 0 0
found 4
found 77
found 4
found 77
found 77
three of them 20 8 0
a large share 20 2 0
room for two 0 0 4
card 0: 0 0 4
card 1: 6 1 0
card 2: 8 1 0
card 3: 8 1 0
shown 0 0 9
row 0 0 5 0
row 0 1 7 0
row 0 2 9 0
row 0 3 9 0
row 0 4 9 0
row 0 5 7 0
row 0 5 9 0
row 1 2 1 0
row 1 2 2 0
of the left 0 0 1
not of the right 0 0 0
holds 15 0 0
one number short 8 36 0
no pair 4 0 0
bears the name 0 0 1
bears another 0 0 0
filled with nothing of it 0 0 0
of the blank 0 0 1
no such entry in it 4 0 0
no such thing in it 4 1 0
ragged rows 1 0 0
a row too far 2 1 0
193 things 1 0 0
filling first 9 1 0
before 0 0 11
one inclusion 0 0 0
two inclusions 0 0 0
ragged list 9 0 0
no part told 9 1 0
no blank told 9 1 0
one byte short 8 144 0
row 25 128
row 2 0
row 28 0
row 24 0
row 24 0
row 58 0
past 77
filed 0 0 0
stood before 21 3 0
too short a list 21 5 0
inner id later 22 2 0
entries too long 8 18 0
inclusions too 8 2 0
questions too 8 4 0
entry 1 5 0
entry 2 1 0
entry 1 9 0
entry 1 7 0
entry 4 0 0
entry 3 3 4
pairs 1 2, 5 2, 1 4
past 77 77 77
read 0 0 9 2
no text 0 0 0 0
byte 0 17 105 0 0
cut off 17 103 0 0
one name 17 14 0 0
leading zero 17 15 0 0
no room for entries 8 576 0 0
no room for pairs 8 192 0 0
entry 1 5 0
entry 1 7 0
entry 2 1 1
entry 1 5 0
entry 0 0 0
entry 1 9 0
entry 3 3 4
entry 3 6 5
entry 1 7 0
pairs 0 2, 7 8
past 77 77 77 77
checked 0 0 0
no tables 0 0 0
no tables, no room 8 64 0
no tables, no part 0 0 0
no entry to look at 4 0 0
no rows 0 0 0
no entry 4 0 0
nothing to fill 0 0 0
nothing to permit 0 0 0
nothing to decide 0 0 1
no question 4 0 0
no cards 0 0 0
no blank 2 0 0
nothing to derive 4 0 0
nothing to check 4 0 0
nothing to show 4 0 0
no things 1 0 0
no entry to belong to 4 0 0
no table to keep 0 0 0
nothing to renumber 0 0 0
no text, no room 8 576 0 0
no catalogue 8 1 0
no questions 0 0 0
no entries 4 0 0
no roles 0 0 0
no filling 9 1 0
filling of none 0 0 1
derived 0 0 1
no room for parts 8 64 0
no room for rows 8 144 0
no room to fill 8 1 0
no settings 19 1 0
no counts 19 1 0
no settings to count in 19 1 0
no settings of a group 19 1 0
no lengths 20 8 0
no room for ids 8 64 0
no room for lines 8 144 0
no list of lines 12 0 0
no room for a stock 8 36 0
no filling to show by 9 1 0
bare things 0 0 0
no table held 8 144 0
nothing told 0 0 0
no list of ids 21 0 0
no pairs to file 0 0 0
";

fn run(command: &mut Command) -> Output {
    let output = command.output();
    let output = output.unwrap_or_else(|error| panic!("{:?}: {}", command, error));
    let said = String::from_utf8_lossy(&output.stderr);
    assert!(output.status.success(), "{:?}: {}\n{}", command, output.status, said);
    output
}

/// Compiles a file of the repository with these words, links it and runs it.
fn compiled(source: &str, label: &str, words: &[&str]) -> String {
    let package = Path::new(env!("CARGO_MANIFEST_DIR"));
    let program = PathBuf::from(env!("CARGO_TARGET_TMPDIR")).join(label);
    run(Command::new("cc")
        .args(["-Wall", "-Wextra", "-Wpedantic", "-Werror", "-I"])
        .arg(package.join("../include"))
        .args(words)
        .arg(package.join("..").join(source))
        .args(["-x", "none"])
        .arg(env!("HC_ARCHIVE"))
        .arg("-o")
        .arg(&program));
    String::from_utf8(run(&mut Command::new(&program)).stdout).expect("plain text")
}

#[test]
fn a_c_program_gets_the_same_answers() {
    assert_eq!(compiled("tests/c/smoke.c", "smoke_c", &["-std=c99"]), EXPECTED);
}

#[test]
fn a_cpp_program_gets_the_same_answers() {
    assert_eq!(compiled("tests/c/smoke.c", "smoke_cpp", &["-x", "c++", "-std=c++11"]), EXPECTED);
}

/// examples/card.c as its first lines say.
#[test]
fn the_example_prints_its_lines() {
    let lines = include_str!("../../examples/card.lines");
    assert_eq!(compiled("examples/card.c", "card_c", &["-std=c99"]), lines);
    assert_eq!(compiled("examples/card.c", "card_cpp", &["-x", "c++", "-std=c++11"]), lines);
}

/// The header alone is enough, whatever is included before or after it, and once is as good as twice.
#[test]
fn the_header_stands_alone() {
    let header = Path::new(env!("CARGO_MANIFEST_DIR")).join("../include/hermitcasket.h");
    for words in [["-x", "c", "-std=c99"], ["-x", "c++", "-std=c++11"]] {
        run(Command::new("cc")
            .args(["-Wall", "-Wextra", "-Wpedantic", "-Werror", "-fsyntax-only", "-include"])
            .arg(&header)
            .args(words)
            .arg(&header));
    }
}

/// "Calls share no state": nothing in the archive can be written to but what a call is lent, and
/// nothing is called that could keep anything.
#[test]
fn the_archive_has_no_variables() {
    let output = run(Command::new("nm").arg(env!("HC_ARCHIVE")));
    let said = String::from_utf8(output.stdout).expect("plain text");
    let mut exported = Vec::new();
    // lines of "address kind name", or "kind name" where the name is not defined
    for line in said.lines() {
        let words: Vec<&str> = line.split_whitespace().rev().take(2).collect();
        match words[..] {
            [name, "T"] if name.starts_with("hc_") => exported.push(name),
            [name, "U"] => assert!(["memcpy", "memset"].contains(&name), "{}", line),
            [_, "T" | "t" | "R" | "r"] | [_] | [] => {}
            _ => panic!("{}", line),
        }
    }
    assert_eq!(exported.len(), 18, "{:?}", exported);
}
