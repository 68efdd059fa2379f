//! The program hermitcasket_owl, run as a process: the house text of every catalogue, and that the
//! program hermitcasket takes it.

use std::time::Duration;

use hermitcasket_tests::house_text::{self, layout, refused, Problem};
use hermitcasket_tests::limits::{CATALOGUE_ROOMS, MAX_CONCEPTS, MAX_DEPTH, MAX_TEXT};
use hermitcasket_tests::owl::{self, spaced, tokens, tower, Axiom, Class};
use hermitcasket_tests::process;
use hermitcasket_tests::random::{cases, seed, Random, Size};
use hermitcasket_tests::reference::{self, Refusal};
use hermitcasket_tests::tally::Tally;

const PROGRAM: &str = "hermitcasket_owl";

const SAMPLE: &str = "\
SubClassOf(:c10 ObjectIntersectionOf(:c11 ObjectSomeValuesFrom(:r1 :c12) owl:Thing))
SubClassOf(ObjectSomeValuesFrom(:r0 :c999) :c20)
";

const SAMPLE_TEXT: &str = "\
blanks=0
entries=10
name=10
name=11
name=12
some=1,2
top=0
and=1,3
and=5,4
name=999
some=0,7
name=20
inclusions=2
below=0,6
below=8,9
questions=0
";

/// All that the program is to print.
fn output(text: &[u8]) -> String {
    match reference::read_owl(text, CATALOGUE_ROOMS) {
        Ok(tables) => String::from_utf8(layout(&tables).expect("a layout")).expect("plain text"),
        Err(refusal) => refused(refusal),
    }
}

/// The program prints what the reference does; what that is comes back.
fn agree(text: &[u8]) -> String {
    let wanted = output(text);
    let printed = process::print(PROGRAM, text);
    let shown = || format!("b\"{}\" ({} bytes)", text.escape_ascii(), text.len());
    assert!(printed == wanted, "prints\n{}not\n{}for {}", printed, wanted, shown());
    wanted
}

/// What is printed is house text, and the other program finds nothing to fill, or too many parts.
fn taken(house_text: &str) {
    let read = house_text::read(house_text.as_bytes());
    let tables = match read {
        Ok(Problem { tables, show: None }) => tables,
        other => panic!("{:?} of {}", other, house_text),
    };
    assert!(tables.questions.is_empty() && tables.roles.is_empty() && tables.variables == 0);
    let wanted = match reference::check(&tables) {
        Ok(()) => "answer=filled\nblanks=0\n".to_string(),
        Err(refusal) => {
            assert_eq!(refusal, Refusal { number: 7, place: 64 }, "{}", house_text);
            refused(refusal)
        }
    };
    assert_eq!(process::print("hermitcasket", house_text.as_bytes()), wanted, "{}", house_text);
}

#[test]
fn samples() {
    assert_eq!(agree(SAMPLE.as_bytes()), SAMPLE_TEXT);
    taken(SAMPLE_TEXT);
    let empty = "blanks=0\nentries=0\ninclusions=0\nquestions=0\n";
    for text in ["", "\n", " \r\n "] {
        assert_eq!(agree(text.as_bytes()), empty);
    }
    taken(empty);
}

#[test]
fn refusals() {
    let said = |text: &str, number: u16, place: usize| {
        let wanted = format!("answer=refused\nnumber={}\nplace={}\n", number, place);
        assert_eq!(agree(text.as_bytes()), wanted);
    };
    said("x", 17, 0);
    said("SubClassOf(:c1 :c01)", 17, 15);
    said("SubClassOf(:c1 :c2", 17, 18);
    said("SubClassOf(:c1 :c2)\0", 17, 19);
    said("blanks=0\nentries=0\ninclusions=0\nquestions=0\n", 17, 0);
    let deep = Axiom { left: tower(MAX_DEPTH, 1, Class::Name(1)), right: Class::Thing };
    let deep = String::from_utf8(owl::lines(&[deep])).expect("plain text");
    said(&deep, 18, deep.find(":c1").expect("the name"));
    said(&"SubClassOf(:c1 :c2)".repeat(97), 1, 0);
    said(&" ".repeat(MAX_TEXT + 1), 17, MAX_TEXT);
}

#[test]
fn random_catalogues() {
    let seed = seed("program owl, catalogues");
    let mut tally = Tally::new("program owl, catalogues");
    for (size, share) in [(Size::Small, 40), (Size::Medium, 20), (Size::Large, 4)] {
        for k in 0..(cases(size) / share).max(1) {
            let mut random = Random::for_case(seed, k);
            let axioms = owl::catalogue(&mut random, size);
            let mut text = spaced(&mut random, &tokens(&axioms));
            if random.percent(30) && !text.is_empty() {
                let at = random.below(text.len());
                match random.below(3) {
                    0 => text.truncate(at),
                    1 => drop(text.remove(at)),
                    _ => text[at] = *random.pick(b" ()\t:c0,\xff"),
                }
            }
            let said = agree(&text);
            let read = said.starts_with("blanks=0\n");
            if read {
                taken(&said);
            }
            tally.case();
            tally.note("read", read);
            tally.note("refused", said.starts_with("answer=refused\n"));
        }
    }
    tally.finish(&[("read", 50..=95), ("refused", 5..=50)]);
}

#[test]
fn catalogues_at_the_limits() {
    for (label, text) in owl::at_the_limits() {
        let said = agree(&text);
        assert!(said.starts_with("blanks=0\n"), "{}", label);
        taken(&said);
    }
    let full = "SubClassOf(:c1 ObjectSomeValuesFrom(:r99 :c999))\n".repeat(MAX_CONCEPTS / 3);
    let said = agree(full.as_bytes());
    assert!(said.starts_with("blanks=0\nentries=192\n"), "{}", said);
    taken(&said);
}

#[test]
fn lengths_around_the_limit() {
    for length in [MAX_TEXT - 1, MAX_TEXT, MAX_TEXT + 1, MAX_TEXT + 2, 3 * MAX_TEXT, 100_000] {
        for byte in [b' ', b'\n', b'x', b'('] {
            agree(&vec![byte; length]);
        }
        for (before, behind) in [(0, length - SAMPLE.len()), (length - SAMPLE.len(), 0)] {
            let text = [" ".repeat(before), SAMPLE.to_string(), " ".repeat(behind)].concat();
            let wanted = match length <= MAX_TEXT {
                true => SAMPLE_TEXT.to_string(),
                false => refused(Refusal { number: 17, place: MAX_TEXT as u64 }),
            };
            assert_eq!(agree(text.as_bytes()), wanted, "{}", length);
        }
    }
}

/// However the text comes, it is read to its end.
#[test]
fn input_in_small_pieces() {
    let pause = Duration::from_millis(1);
    for size in [1, 7, 50] {
        let pieces: Vec<&[u8]> = SAMPLE.as_bytes().chunks(size).collect();
        assert_eq!(process::print_in_pieces(PROGRAM, &pieces, pause), SAMPLE_TEXT, "{}", size);
    }
    for length in [MAX_TEXT, MAX_TEXT + 1] {
        let mut text = SAMPLE.as_bytes().to_vec();
        text.resize(length, b'\n');
        let (most, last) = text.split_at(length - 1);
        let printed = process::print_in_pieces(PROGRAM, &[most, last], 20 * pause);
        assert_eq!(printed, output(&text), "{}", length);
        let (most, last) = text.split_at(100);
        let printed = process::print_in_pieces(PROGRAM, &[most, last], 20 * pause);
        assert_eq!(printed, output(&text), "{}", length);
    }
    let cut = &SAMPLE.as_bytes()[..SAMPLE.len() - 2];
    assert_eq!(process::print_in_pieces(PROGRAM, &[cut, b")\n"], 20 * pause), SAMPLE_TEXT);
    assert_eq!(process::print_in_pieces(PROGRAM, &[cut], 20 * pause), output(cut));
}
