//! hc_read_owl: catalogues in OWL functional syntax, what their tables are and mean, every refusal.

use std::collections::{BTreeMap, BTreeSet};
use std::fs;
use std::path::PathBuf;
use std::process::{Command, Stdio};
use std::thread;
use std::time::{Duration, Instant};

use hermitcasket_tests::builder::Builder;
use hermitcasket_tests::capi::{self, Answer, Catalogue};
use hermitcasket_tests::compare;
use hermitcasket_tests::konclude::{is_installed, wrapped, Hierarchy, PROGRAM};
use hermitcasket_tests::layout::{self, Relation};
use hermitcasket_tests::limits::*;
use hermitcasket_tests::owl::{self, dense, spaced, tokens, tower, Axiom, Class};
use hermitcasket_tests::random::{cases, seed, Random, Size};
use hermitcasket_tests::reference;
use hermitcasket_tests::tables::{Concept, Tables};
use hermitcasket_tests::tally::Tally;

const THING: &str = "owl:Thing";
const AND: &str = "ObjectIntersectionOf";
const SOME: &str = "ObjectSomeValuesFrom";

/// The answer, held against the reference with all that was lent.
fn ask(text: impl AsRef<[u8]>) -> Catalogue {
    compare::read_owl(text.as_ref(), CATALOGUE_ROOMS)
}

/// The tables as the library writes them.
fn read(text: impl AsRef<[u8]>) -> Tables {
    let [mut concepts, mut inclusions] = CATALOGUE_ROOMS.map(|room| vec![0xa5a5; room]);
    let answer = capi::read_owl(text.as_ref(), &mut concepts, &mut inclusions);
    assert_eq!((answer.number, answer.place), (0, 0), "{}", shown(text.as_ref()));
    concepts.truncate(3 * answer.concepts as usize);
    inclusions.truncate(2 * answer.inclusions as usize);
    Tables { concepts, inclusions, ..Tables::default() }
}

fn shown(text: &[u8]) -> String {
    format!("b\"{}\" ({} bytes)", text.escape_ascii(), text.len())
}

/// The text is refused by this number at this place.
fn refused(text: impl AsRef<[u8]>, number: u16, place: usize) {
    let answer = ask(&text);
    assert_eq!(answer, Catalogue::refused(number, place as u64), "{}", shown(text.as_ref()));
}

fn off_grammar(text: impl AsRef<[u8]>, place: usize) {
    refused(text, 17, place);
}

/// The text is accepted, with so many entries and inclusions.
fn accepted(text: impl AsRef<[u8]>, concepts: usize, inclusions: usize) {
    let wanted = Catalogue::done(concepts as u64, inclusions as u64);
    assert_eq!(ask(&text), wanted, "{}", shown(text.as_ref()));
}

/// Random catalogues of each size, a share of the cases.
fn each_catalogue(name: &str, share: usize, mut run: impl FnMut(Vec<Axiom>, Random)) {
    let seed = seed(name);
    for size in [Size::Small, Size::Medium, Size::Large] {
        for k in 0..(cases(size) / share).max(1) {
            let mut random = Random::for_case(seed, k);
            let axioms = owl::catalogue(&mut random, size);
            run(axioms, random);
        }
    }
}

/// Every form, with two axioms.
const SAMPLE: &str = "\
SubClassOf(:c10 ObjectIntersectionOf(:c11 ObjectSomeValuesFrom(:r1 :c12) owl:Thing))
SubClassOf(ObjectSomeValuesFrom(:r0 ObjectIntersectionOf(:c0 :c999)) :c20)
";

#[test]
fn the_sample() {
    accepted(SAMPLE, 12, 2);
    let rows = [
        [1, 10, 0],
        [1, 11, 0],
        [1, 12, 0],
        [2, 1, 2],
        [0, 0, 0],
        [3, 1, 3],
        [3, 5, 4],
        [1, 0, 0],
        [1, 999, 0],
        [3, 7, 8],
        [2, 0, 9],
        [1, 20, 0],
    ];
    assert_eq!(read(SAMPLE), Tables::new(&rows, &[[0, 6], [10, 11]], &[], 0));
}

/// The entries of a class come as it closes: members first, then the pairs, all at the bracket.
#[test]
fn entries_as_they_close() {
    let nested = "SubClassOf(ObjectIntersectionOf(ObjectIntersectionOf(:c1 :c2 :c3) \
                  ObjectSomeValuesFrom(:r5 ObjectIntersectionOf(:c4 :c5)) :c6) owl:Thing)";
    let rows = [
        [1, 1, 0],
        [1, 2, 0],
        [1, 3, 0],
        [3, 0, 1],
        [3, 3, 2],
        [1, 4, 0],
        [1, 5, 0],
        [3, 5, 6],
        [2, 5, 7],
        [1, 6, 0],
        [3, 4, 8],
        [3, 10, 9],
        [0, 0, 0],
    ];
    accepted(nested, 13, 1);
    assert_eq!(read(nested), Tables::new(&rows, &[[11, 12]], &[], 0));
    // equal classes are entries of their own each, also within one intersection
    let equal = "SubClassOf(ObjectIntersectionOf(:c1 :c1 :c1)ObjectIntersectionOf(:c1 :c1 :c1))";
    let rows =
        [[1, 1, 0], [1, 1, 0], [1, 1, 0], [3, 0, 1], [3, 3, 2], [1, 1, 0], [1, 1, 0], [1, 1, 0]];
    let rows = [&rows[..], &[[3, 5, 6], [3, 8, 7]]].concat();
    assert_eq!(read(equal), Tables::new(&rows, &[[4, 9]], &[], 0));
}

/// Intersections of 2 to 96 members: one "and" for each after the first, each with the one before on
/// its left.
#[test]
fn intersections_are_paired_from_the_left() {
    for count in 2..=96usize {
        let members: Vec<Class> = (0..count).map(|k| Class::Name(k as u16)).collect();
        let axiom = Axiom { left: Class::All(members), right: Class::Thing };
        let text = owl::lines(&[axiom]);
        accepted(&text, 2 * count, 1);
        let tables = read(&text);
        for k in 1..count {
            let left = if k == 1 { 0 } else { count + k - 2 };
            assert_eq!(tables.row(count + k - 1), [3, left as u16, k as u16], "{}", count);
        }
        assert_eq!(tables.inclusions, [2 * count as u16 - 2, 2 * count as u16 - 1]);
    }
}

#[test]
fn nothing_but_spaces() {
    accepted("", 0, 0);
    for text in [" ", "\n", "\r", "\r\n", " \n\r \r\n  ", "\n\n\n"] {
        accepted(text, 0, 0);
    }
    for length in [1, 2, 100, 8191, 8192] {
        for byte in [32u8, 10, 13] {
            accepted(vec![byte; length], 0, 0);
        }
    }
}

/// Ids that stand for a class in the tables, with the class, each found by going down from an
/// axiom's side. The rows are what the class says, an intersection paired from the left.
fn walk<'a>(tables: &Tables, class: &'a Class, id: usize, found: &mut Vec<(&'a Class, usize)>) {
    found.push((class, id));
    match (class, tables.concept(id)) {
        (Class::Thing, Concept::Top) => {}
        (Class::Name(name), Concept::Name(read)) => assert_eq!(*name, read),
        (Class::Some(role, inner), Concept::Existential(read, below)) => {
            assert_eq!(*role, read);
            walk(tables, inner, below, found);
        }
        (Class::All(members), Concept::Conjunction(..)) => {
            let mut id = id;
            for member in members[1..].iter().rev() {
                match tables.concept(id) {
                    Concept::Conjunction(left, right) => {
                        walk(tables, member, right, found);
                        id = left;
                    }
                    other => panic!("{:?} for {:?}", other, class),
                }
            }
            walk(tables, &members[0], id, found);
        }
        (_, other) => panic!("{:?} for {:?}", other, class),
    }
}

/// All ids with their classes.
fn walk_all<'a>(tables: &Tables, axioms: &'a [Axiom]) -> Vec<(&'a Class, usize)> {
    let mut found = Vec::new();
    assert_eq!(tables.inclusion_pairs().len(), axioms.len());
    for (axiom, (left, right)) in axioms.iter().zip(tables.inclusion_pairs()) {
        walk(tables, &axiom.left, left, &mut found);
        walk(tables, &axiom.right, right, &mut found);
    }
    found
}

/// The text with many, few and the fewest spaces says the same: the classes, each occurrence an entry
/// of its own, in the order in which they close.
#[test]
fn random_catalogues_read_back() {
    let mut tally = Tally::new("owl, read back");
    each_catalogue("owl, read back", 2, |axioms, mut random| {
        let words = tokens(&axioms);
        let texts = [owl::lines(&axioms), dense(&words), spaced(&mut random, &words)];
        for text in texts.iter().filter(|text| text.len() <= MAX_TEXT) {
            accepted(text, owl::concepts(&axioms), axioms.len());
            let tables = read(text);
            let found = walk_all(&tables, &axioms);
            let ids: BTreeSet<usize> = found.iter().map(|&(_, id)| id).collect();
            assert_eq!(ids.len(), found.len(), "an entry for two of {:?}", axioms);
            let last = tables.inclusions.last().map_or(0, |&id| usize::from(id) + 1);
            assert_eq!(last, tables.concept_count(), "entries behind the last of {:?}", axioms);
        }
        tally.case();
        let deepest = axioms.iter().map(|axiom| axiom.left.depth().max(axiom.right.depth()));
        tally.note("32 deep", deepest.max() == Some(MAX_DEPTH));
        tally.note("192 entries", owl::concepts(&axioms) == MAX_CONCEPTS);
        tally.note("too long with spaces", texts[2].len() > MAX_TEXT);
        tally
            .note("over 64 parts", capi::check(reference::owl::tables(&axioms).lend()).number == 7);
    });
    tally.finish(&[("too long with spaces", 0..=5), ("over 64 parts", 0..=5)]);
}

/// Tables of the same axioms, made otherwise: equal classes share an entry, and intersections are
/// paired from the right. Also the id of each class.
fn shared(axioms: &[Axiom]) -> (Tables, BTreeMap<Class, u16>) {
    fn id(class: &Class, made: &mut Builder, ids: &mut BTreeMap<Class, u16>) -> u16 {
        if let Some(&id) = ids.get(class) {
            return id;
        }
        let new = match class {
            Class::Thing => made.add([0, 0, 0]),
            Class::Name(name) => made.add([1, *name, 0]),
            Class::Some(role, inner) => {
                let inner = id(inner, made, ids);
                made.some(*role, inner)
            }
            Class::All(members) => {
                let of: Vec<u16> = members.iter().map(|member| id(member, made, ids)).collect();
                of.into_iter().rev().reduce(|right, left| made.and(left, right)).expect("members")
            }
        };
        ids.insert(class.clone(), new);
        new
    }
    let (mut made, mut ids) = (Builder::default(), BTreeMap::new());
    for axiom in axioms.iter().rev() {
        let right = id(&axiom.right, &mut made, &mut ids);
        let left = id(&axiom.left, &mut made, &mut ids);
        made.inclusions.push([left, right]);
    }
    (made.tables(), ids)
}

/// The subsumption table as the library makes it, or nothing where there are too many parts.
fn below(tables: &Tables) -> Option<Relation> {
    let count = tables.concept_count();
    let mut bytes = vec![0; count * ROW_BYTES];
    match capi::subsumption_table(tables.lend(), &[], &mut bytes) {
        Answer { number: 0, .. } => Some(layout::read(&bytes, count)),
        refused => {
            assert_eq!(refused, Answer::refused(7, 64), "{}", tables);
            None
        }
    }
}

/// One class is below another in the library's table of what it read exactly when it is in the
/// reference's of the same axioms.
#[test]
fn the_tables_mean_the_axioms() {
    let mut tally = Tally::new("owl, meaning");
    each_catalogue("owl, meaning", 12, |axioms, mut random| {
        let text = spaced(&mut random, &tokens(&axioms));
        tally.case();
        tally.note("too long", text.len() > MAX_TEXT);
        if text.len() > MAX_TEXT {
            return;
        }
        let tables = read(&text);
        let (other, ids) = shared(&axioms);
        let held = below(&tables);
        tally.note("over 64 parts", held.is_none());
        let held = match held {
            Some(held) => held,
            None => return,
        };
        let due = reference::relation(&other, &[]);
        let found = walk_all(&tables, &axioms);
        for &(left, id) in &found {
            for &(right, above) in &found {
                let holds = due[usize::from(ids[left])][usize::from(ids[right])];
                assert_eq!(
                    held[id][above],
                    holds,
                    "{:?} below {:?}: {}",
                    left,
                    right,
                    shown(&text)
                );
            }
        }
        let pairs = found.len() * found.len();
        let marks = found.iter().flat_map(|l| found.iter().map(move |r| (l.1, r.1)));
        let marks = marks.filter(|&(l, r)| held[l][r]).count();
        tally.note("under a third of the pairs", 3 * marks < pairs);
        tally.note("more than a tenth", 10 * marks > pairs);
    });
    tally.finish(&[
        ("too long", 0..=5),
        ("over 64 parts", 0..=5),
        ("under a third of the pairs", 20..=100),
        ("more than a tenth", 20..=100),
    ]);
}

/// Every byte put in at every place, and in the place of every byte.
#[test]
fn every_byte_at_every_place() {
    let text = b"SubClassOf(:c10 ObjectSomeValuesFrom(:r1 owl:Thing))";
    accepted(text, 3, 1);
    let mut counts = [0; 19];
    for at in 0..=text.len() {
        for byte in 0..=255 {
            let put_in = [&text[..at], &[byte], &text[at..]].concat();
            counts[usize::from(ask(&put_in).number)] += 1;
            if at < text.len() {
                let changed = [&text[..at], &[byte], &text[at + 1..]].concat();
                counts[usize::from(ask(&changed).number)] += 1;
            }
        }
    }
    // a digit of a number, a space beside a token
    assert!(counts[0] > 100 && counts[17] > 20_000, "{:?}", counts);
}

/// Only spaces and line ends part words; tab, comma and all others belong to them.
#[test]
fn what_parts_words() {
    for byte in 0..=255u8 {
        let text = [&b"SubClassOf(:c1"[..], &[byte], b":c2)"].concat();
        match byte {
            b' ' | b'\n' | b'\r' => accepted(&text, 2, 1),
            b'(' | b')' => off_grammar(&text, 14),
            _ => off_grammar(&text, 11),
        }
        // before and behind, and beside brackets
        for (text, place) in [
            ([&[byte][..], b"SubClassOf(:c1 :c2)"].concat(), 0),
            ([&b"SubClassOf("[..], &[byte], b":c1 :c2)"].concat(), 11),
            ([&b"SubClassOf"[..], &[byte], b"(:c1 :c2)"].concat(), 0),
            ([&b"SubClassOf(:c1 :c2"[..], &[byte], b")"].concat(), 15),
            ([&b"SubClassOf(:c1 :c2)"[..], &[byte]].concat(), 19),
        ] {
            let answer = ask(&text);
            match byte {
                b' ' | b'\n' | b'\r' => assert_eq!(answer, Catalogue::done(2, 1)),
                b'(' | b')' | b'0'..=b'9' => {}
                _ => assert_eq!(answer, Catalogue::refused(17, place), "{}", shown(&text)),
            }
        }
    }
    for text in ["SubClassOf(:c1\t:c2)", "SubClassOf(:c1,:c2)", "SubClassOf(:c1\u{a0}:c2)"] {
        off_grammar(text, 11);
    }
    for text in ["SubClassOf(:c1 :c2,)", "SubClassOf(:c1 :c2\t)", "SubClassOf(:c1 , :c2)"] {
        off_grammar(text, 15);
    }
    off_grammar("SubClassOf(:c1 :c2)\t", 19);
    off_grammar("SubClassOf(:c1 :c2)\u{0}", 19);
    off_grammar("\u{feff}SubClassOf(:c1 :c2)", 0);
    off_grammar("# a remark\nSubClassOf(:c1 :c2)", 0);
}

/// Words that are none of the grammar, with spaces between them.
const NO_WORDS: &str = "\
:c :c01 :c00 :c000 :c0001 :c010 :c1000 :c1001 :c9999 :c10000 :c65535 :c65536 :c65537 :c65541 :c131072 \
:c4294967296 :c4294967301 :c18446744073709551616 :c18446744073709551621 \
:c340282366920938463463374607431768211456 :c99999999999999999999999999999999999999999 \
:c-1 :c+1 :c1. :c1.0 :c1e1 :cx :c1x :cx1 :c0x1 :c1: :C1 :d1 c1 ::c1 : 1 :1 :c_1 :c1, :c,1 :c1\t \t:c1 \
:c\u{661} :c1\u{a0} :c1\u{0} <:c1> \":c1\" :r :r01 :r100 :r101 :r999 :r65536 :r65537 :r-1 :rx :R1 , # [ ] \
owl:thing Owl:Thing owl:Thing1 owl:Thin owl:Nothing Thing :Thing http://www.w3.org/2002/07/owl#Thing \
ObjectUnionOf EquivalentClasses Declaration Ontology Prefix";

/// Each word where a class, a role, an axiom and each keyword may stand: 17 at its first byte.
#[test]
fn words_that_are_none() {
    let keywords = ["SubClassOf", THING, AND, SOME];
    let mut words: Vec<String> = NO_WORDS.split(' ').map(String::from).collect();
    for word in keywords {
        let middle = word.len() / 2;
        words.extend([word.to_lowercase(), word.to_uppercase()]);
        words.extend([format!("{}s", word), format!("x{}", word), word[1..].to_string()]);
        words.extend([word[..word.len() - 1].to_string(), format!(":{}", word)]);
        words.push(format!("{}{}", &word[..middle], &word[middle + 1..]));
        words.push(format!("{}{}", word, word));
        for (at, _) in word.char_indices() {
            // one letter in the other case, and one that is another
            for change in [0x20, 0x01, 0x80] {
                let mut bytes = word.as_bytes().to_vec();
                bytes[at] ^= change;
                if let Ok(changed) = String::from_utf8(bytes) {
                    words.push(changed);
                }
            }
        }
    }
    for word in &words {
        for before in [
            "",
            "SubClassOf(",
            "SubClassOf(:c1 ",
            "SubClassOf(owl:Thing\n",
            "SubClassOf(ObjectIntersectionOf(",
            "SubClassOf(ObjectIntersectionOf(:c1 ",
            "SubClassOf(ObjectIntersectionOf(:c1 :c2 ",
            "SubClassOf(ObjectSomeValuesFrom(",
            "SubClassOf(ObjectSomeValuesFrom(:r1 ",
            "SubClassOf(:c1 :c2)",
            "SubClassOf(:c1 :c2)\nSubClassOf(",
        ] {
            for behind in ["", ")", "(", " :c1)", "(:r1 :c1) :c1)", "(:c1 :c2)"] {
                off_grammar(format!("{}{}{}", before, word, behind), before.len());
            }
        }
    }
}

/// Names to 999 and roles to 99, as they are printed.
#[test]
fn every_number() {
    for number in 0..=1100u32 {
        let text = format!("SubClassOf(:c{} :c0)", number);
        match number <= 999 {
            true => {
                accepted(&text, 2, 1);
                assert_eq!(read(&text).row(0), [1, number as u16, 0]);
            }
            false => off_grammar(&text, 11),
        }
        let text = format!("SubClassOf(ObjectSomeValuesFrom(:r{} :c7):c0)", number);
        match number <= 99 {
            true => {
                accepted(&text, 3, 1);
                assert_eq!(read(&text).row(1), [2, number as u16, 0]);
            }
            false => off_grammar(&text, 32),
        }
        // a name is no role, a role no name
        off_grammar(format!("SubClassOf(:r{} :c0)", number), 11);
        off_grammar(format!("SubClassOf(ObjectSomeValuesFrom(:c{} :c7):c0)", number), 32);
        if number < 100 {
            off_grammar(format!("SubClassOf(:c0{} :c0)", number), 11);
            off_grammar(format!("SubClassOf(ObjectSomeValuesFrom(:r0{} :c7):c0)", number), 32);
        }
    }
}

/// How many members each form takes. Too few: at the bracket. Too many: at the first byte of the one
/// that has no place.
#[test]
fn too_few_and_too_many_members() {
    off_grammar("SubClassOf()", 11);
    off_grammar("SubClassOf(:c1)", 14);
    off_grammar("SubClassOf(:c1 :c2 :c3)", 19);
    off_grammar("SubClassOf(:c1 :c2 owl:Thing)", 19);
    off_grammar("SubClassOf(:c1 :c2 ObjectSomeValuesFrom(:r1 :c3))", 19);
    off_grammar("SubClassOf(:c1 :c2 ObjectIntersectionOf(:c3 :c4))", 19);
    off_grammar("SubClassOf(:c1 :c2 SubClassOf(:c3 :c4))", 19);
    off_grammar("SubClassOf(:c1 :c2 x)", 19);
    off_grammar("SubClassOf(:c1 :c2 (:c3))", 19);
    off_grammar("SubClassOf(:c1 (:c2))", 15);
    off_grammar("SubClassOf((:c1 :c2))", 11);
    off_grammar("SubClassOf(ObjectIntersectionOf() :c1)", 32);
    off_grammar("SubClassOf(ObjectIntersectionOf(:c1) :c1)", 35);
    off_grammar("SubClassOf(ObjectIntersectionOf(ObjectIntersectionOf(:c1 :c2)) :c1)", 61);
    off_grammar("SubClassOf(ObjectIntersectionOf(ObjectSomeValuesFrom(:r1 :c1)) :c1)", 61);
    accepted("SubClassOf(ObjectIntersectionOf(:c1 :c2) :c1)", 4, 1);
    off_grammar("SubClassOf(ObjectSomeValuesFrom() :c1)", 32);
    off_grammar("SubClassOf(ObjectSomeValuesFrom(:r1) :c1)", 35);
    off_grammar("SubClassOf(ObjectSomeValuesFrom(:c1) :c1)", 32);
    off_grammar("SubClassOf(ObjectSomeValuesFrom(:c1 :r1) :c1)", 32);
    off_grammar("SubClassOf(ObjectSomeValuesFrom(:r1 :r1) :c1)", 36);
    off_grammar("SubClassOf(ObjectSomeValuesFrom(:r1 :c1 :c2) :c1)", 40);
    off_grammar("SubClassOf(ObjectSomeValuesFrom(:r1 :c1 owl:Thing) :c1)", 40);
    off_grammar("SubClassOf(ObjectSomeValuesFrom(:r1 :r2 :c1) :c1)", 36);
    off_grammar("SubClassOf(ObjectSomeValuesFrom(owl:Thing :c1) :c1)", 32);
}

/// Brackets and keywords out of place.
#[test]
fn forms_that_are_none() {
    off_grammar("SubClassOf", 10);
    off_grammar("SubClassOf ", 11);
    off_grammar("SubClassOf\r\n\r\n", 14);
    off_grammar("SubClassOf :c1 :c2", 11);
    off_grammar("SubClassOf)", 10);
    off_grammar("SubClassOf((", 11);
    off_grammar("SubClassOf SubClassOf(", 11);
    off_grammar("(", 0);
    off_grammar(")", 0);
    off_grammar(" \n (:c1 :c2)", 3);
    off_grammar(":c1", 0);
    off_grammar(":r1", 0);
    off_grammar(" owl:Thing", 1);
    off_grammar("ObjectIntersectionOf(:c1 :c2)", 0);
    off_grammar("ObjectSomeValuesFrom(:r1 :c2)", 0);
    off_grammar("SubClassOf(:c1 :c2))", 19);
    off_grammar("SubClassOf(:c1 :c2)(", 19);
    off_grammar("SubClassOf(:c1 :c2) :c3", 20);
    off_grammar("SubClassOf(owl:Thing() :c2)", 20);
    off_grammar("SubClassOf(:c1() :c2)", 14);
    off_grammar("SubClassOf(SubClassOf(:c1 :c2) :c3)", 11);
    off_grammar("SubClassOf(ObjectIntersectionOf :c1 :c2)", 32);
    off_grammar("SubClassOf(ObjectSomeValuesFrom :r1 :c2)", 32);
    off_grammar("SubClassOf(ObjectIntersectionOf) :c2)", 31);
    off_grammar("SubClassOf(ObjectSomeValuesFrom((:r1 :c1) :c2)", 32);
    off_grammar("SubClassOf(ObjectSomeValuesFrom(:r1(:c1)) :c2)", 35);
    off_grammar("SubClassOf(ObjectIntersectionOf(:r1 :c1) :c2)", 32);
    off_grammar("SubClassOf(ObjectIntersectionOf(:c1 :c2)", 40);
    off_grammar("SubClassOf(ObjectIntersectionOf(:c1 :c2", 39);
    off_grammar("SubClassOf(:c1 :c2 \n\r ", 22);
    accepted("SubClassOf(:c1 :c2)SubClassOf(:c3 :c4)", 4, 2);
    accepted("SubClassOf\n(\r:c1\n:c2 ) SubClassOf ( :c3 :c4 )\n", 4, 2);
    accepted("SubClassOf(ObjectIntersectionOf(:c1 :c2)ObjectSomeValuesFrom(:r1 :c3))", 5, 1);
}

/// Texts of the tokens that the grammar has, up to this length.
const SHORT: usize = 16;

/// All classes over one name and one role of exactly so many tokens, and members of an intersection.
fn classes_of(length: usize) -> Vec<Vec<&'static str>> {
    let mut found = Vec::new();
    if length == 1 {
        found.push(vec![":c1"]);
    }
    if length > 4 {
        let inner = classes_of(length - 4).into_iter();
        found.extend(inner.map(|class| [&[SOME, "(", ":r1"][..], &class, &[")"]].concat()));
    }
    if length > 4 {
        let inner = runs_of(length - 3, 2).into_iter();
        found.extend(inner.map(|members| [&[AND, "("][..], &members, &[")"]].concat()));
    }
    found
}

/// Runs of at least so many classes.
fn runs_of(length: usize, least: usize) -> Vec<Vec<&'static str>> {
    let mut found = if length == 0 && least == 0 { vec![Vec::new()] } else { Vec::new() };
    for first in 1..=length {
        let rest = runs_of(length - first, least.saturating_sub(1));
        for class in classes_of(first) {
            found.extend(rest.iter().map(|rest| [&class[..], rest].concat()));
        }
    }
    found
}

/// Catalogues of at most so many tokens.
fn catalogues_up_to(length: usize) -> BTreeSet<Vec<&'static str>> {
    let mut found = BTreeSet::from([Vec::new()]);
    for size in 5..=length {
        for left in 1..size - 3 {
            for l in classes_of(left) {
                for r in classes_of(size - 3 - left) {
                    let axiom = [&["SubClassOf", "("][..], &l, &r, &[")"]].concat();
                    let rest = catalogues_up_to(length - size).into_iter();
                    found.extend(rest.map(|rest| [&axiom[..], &rest].concat()));
                }
            }
        }
    }
    found
}

/// The accepted texts of up to 16 of these tokens are the grammar's and no others: a text is gone on
/// with as long as only its end is at fault, and then every token is tried.
#[test]
fn every_short_text() {
    let mut open: Vec<Vec<&str>> = vec![Vec::new()];
    let mut found = BTreeSet::new();
    let mut asked = 0;
    while let Some(begun) = open.pop() {
        let text = dense(&begun);
        let answer = ask(&text);
        asked += 1;
        if answer.number == 0 {
            found.insert(begun.clone());
        } else if answer != Catalogue::refused(17, text.len() as u64) {
            continue;
        }
        if begun.len() < SHORT {
            for token in ["SubClassOf", "(", ")", ":c1", ":r1", AND, SOME] {
                open.push([&begun[..], &[token]].concat());
            }
        }
    }
    let due = catalogues_up_to(SHORT);
    assert!(found == due, "{} and not {} texts", found.len(), due.len());
    assert!(found.len() > 40 && asked > 1000, "{} of {}", found.len(), asked);
}

/// Any run of up to five tokens behind what opens each form.
#[test]
fn every_run_of_tokens() {
    let alphabet = ["SubClassOf", "(", ")", ":c1", ":r1", THING, AND, SOME, "x"];
    for before in [
        &[][..],
        &["SubClassOf", "("],
        &["SubClassOf", "(", ":c1", AND, "("],
        &["SubClassOf", "(", SOME, "("],
    ] {
        for length in 0..=if before.is_empty() { 5 } else { 4 } {
            for number in 0..alphabet.len().pow(length) {
                let token = |k: u32| alphabet[number / alphabet.len().pow(k) % alphabet.len()];
                let run: Vec<&str> = (0..length).map(token).collect();
                ask(dense(&[before, &run].concat()));
            }
        }
    }
}

/// Every beginning of the sample, and every end.
#[test]
fn every_cut() {
    let text = SAMPLE.as_bytes();
    let end_of_first = SAMPLE.find('\n').expect("two lines");
    for length in 0..=text.len() {
        let answer = ask(&text[..length]);
        let whole = [0, end_of_first, end_of_first + 1, text.len() - 1, text.len()];
        assert_eq!(answer.number == 0, whole.contains(&length), "{}", length);
        // what is left of a word is at fault itself, unless it is a word; else the end is
        assert!(answer.number == 0 || answer.place as usize <= length);
        ask(&text[length..]);
    }
    let mut random = Random::new(7);
    for k in 0..10 {
        let axioms = owl::catalogue(&mut Random::new(k), Size::Medium);
        let text = spaced(&mut random, &tokens(&axioms));
        for length in 0..=text.len().min(MAX_TEXT) {
            ask(&text[..length]);
        }
    }
}

/// Tokens that are put in the place of others.
const OTHERS: [&str; 11] =
    ["SubClassOf", "(", ")", ":c1", ":r1", THING, AND, SOME, "x", ":c1000", ":r100"];

/// Each token of a catalogue dropped, doubled, exchanged with each later one, replaced and pushed
/// aside by each other.
#[test]
fn damage_at_each_token() {
    let mut tally = Tally::new("owl, each token");
    let mut try_one = |words: &[String]| {
        let answer = ask(dense(words));
        tally.case();
        tally.note("accepted", answer.number == 0);
    };
    let mut catalogues = vec![reference::owl::read(SAMPLE.as_bytes()).expect("the sample")];
    catalogues.extend((0..6).map(|k| owl::catalogue(&mut Random::new(100 + k), Size::Medium)));
    for axioms in catalogues {
        let words = tokens(&axioms);
        for at in 0..words.len() {
            let (before, behind) = (&words[..at], &words[at + 1..]);
            try_one(&[before, behind].concat());
            try_one(&[before, &words[at..=at], &words[at..]].concat());
            for other in OTHERS.map(String::from) {
                let other = [other];
                try_one(&[before, &other, behind].concat());
                try_one(&[before, &other, &words[at..]].concat());
            }
            for with in at + 1..words.len() {
                let mut words = words.clone();
                words.swap(at, with);
                try_one(&words);
            }
        }
    }
    tally.finish(&[("accepted", 5..=60)]);
}

/// One or two tokens left out, doubled, moved, replaced or put in, or the rest cut off.
fn damage(random: &mut Random, words: &mut Vec<String>) {
    for _ in 0..random.between(1, 2) {
        let at = random.below(words.len().max(1));
        match random.below(6) {
            _ if words.is_empty() => words.push(random.pick(&OTHERS).to_string()),
            0 => drop(words.remove(at)),
            1 => words.insert(at, words[at].clone()),
            2 => {
                let with = random.below(words.len());
                words.swap(at, with);
            }
            3 => words[at] = random.pick(&OTHERS).to_string(),
            4 => words.insert(at, random.pick(&OTHERS).to_string()),
            _ => words.truncate(at),
        }
    }
}

fn damage_bytes(random: &mut Random, text: &mut Vec<u8>) {
    const TELLING: &[u8] = b" \n\r()\t,:cr019SO\0\x80\xff";
    if text.is_empty() {
        return;
    }
    let at = random.below(text.len());
    match random.below(5) {
        0 => text[at] = *random.pick(TELLING),
        1 => text.insert(at, *random.pick(TELLING)),
        2 => drop(text.remove(at)),
        3 => text[at] = random.number() as u8,
        _ => text.truncate(at),
    }
}

/// Axioms again and again, until there are about as many entries as there may be, or more.
fn overfill(random: &mut Random, axioms: &mut Vec<Axiom>) {
    let most = MAX_CONCEPTS - 5 + random.below(16);
    while owl::concepts(axioms) < most {
        let again = match axioms.is_empty() {
            true => Axiom { left: Class::Name(1), right: Class::Thing },
            false => random.pick(axioms).clone(),
        };
        axioms.insert(random.below(axioms.len() + 1), again);
    }
}

/// A side of an axiom put about as deep as it may be, or deeper.
fn deepen(random: &mut Random, axioms: &mut [Axiom]) {
    if axioms.is_empty() {
        return;
    }
    let at = random.below(axioms.len());
    let side = match random.percent(50) {
        true => &mut axioms[at].left,
        false => &mut axioms[at].right,
    };
    for _ in 0..random.between(28, 33) {
        let inner = side.clone();
        *side = match random.below(8) {
            0 => Class::All(vec![inner, Class::Thing]),
            1 => Class::All(vec![Class::Name(1), inner]),
            _ => owl::some(2, inner),
        };
    }
}

#[test]
fn random_damaged_texts() {
    let mut tally = Tally::new("owl, damaged");
    each_catalogue("owl, damaged", 1, |mut axioms, mut random| {
        match random.below(6) {
            0 => overfill(&mut random, &mut axioms),
            1 => deepen(&mut random, &mut axioms),
            _ => {}
        }
        let mut words = tokens(&axioms);
        if random.percent(50) {
            damage(&mut random, &mut words);
        }
        let mut text = spaced(&mut random, &words);
        if random.percent(50) {
            damage_bytes(&mut random, &mut text);
        }
        let answer = ask(&text);
        tally.case();
        tally.note("accepted", answer.number == 0);
        for number in [1, 17, 18] {
            tally.note(&format!("refused by {}", number), answer.number == number);
        }
    });
    tally.finish(&[
        ("accepted", 15..=60),
        ("refused by 1", 1..=20),
        ("refused by 17", 30..=80),
        ("refused by 18", 1..=20),
    ]);
}

/// So many entries as pairs of names, an odd one as "some" of a name.
fn filler(count: usize) -> String {
    assert!(count > 1 || count == 0);
    match count % 2 {
        0 => "SubClassOf(:c1 :c2)\n".repeat(count / 2),
        _ => filler(count - 3) + "SubClassOf(ObjectSomeValuesFrom(:r1 :c1) :c2)\n",
    }
}

/// Classes in pieces, each up to the end of a token that closes a class, with how many entries it
/// brings.
const PIECES: [&[(&str, usize)]; 7] = [
    &[(":c5", 1)],
    &[("owl:Thing", 1)],
    &[("ObjectSomeValuesFrom(:r1 :c5", 1), (")", 1)],
    &[("ObjectIntersectionOf(:c1", 1), (" :c2", 1), (")", 1)],
    &[("ObjectIntersectionOf(:c1", 1), (" :c2", 1), (" :c3", 1), (" :c4", 1), (" )", 3)],
    &[
        ("ObjectIntersectionOf(:c1", 1),
        (" ObjectIntersectionOf(owl:Thing", 1),
        (" :c3", 1),
        (")", 1),
        (")", 1),
    ],
    &[
        ("ObjectSomeValuesFrom(:r1 ObjectSomeValuesFrom(:r2 ObjectSomeValuesFrom(:r3 :c5", 1),
        (")", 1),
        ("\n)", 1),
        (")", 1),
    ],
];

/// 192 entries are accepted. What takes them past 192 is refused at its last byte: before anything
/// behind it, and after any fault before it.
#[test]
fn entries_at_the_limit() {
    for pieces in PIECES {
        let brought: usize = pieces.iter().map(|piece| piece.1).sum();
        for room in 0..=brought {
            let before = filler(MAX_CONCEPTS - 1 - room);
            let axioms = before.lines().count() + 1;
            let mut text = before + "SubClassOf(:c9 ";
            let mut left = Some(room);
            for (piece, entries) in pieces {
                off_grammar(format!("x{}", text), 0);
                off_grammar(format!("{} x", text), text.len() + 1);
                text += piece;
                left = left.and_then(|left| left.checked_sub(*entries));
                if left.is_none() {
                    break;
                }
            }
            if left.is_some() {
                assert_eq!(room, brought);
                accepted(format!("{})", text), MAX_CONCEPTS, axioms);
                refused(format!("{})\nSubClassOf(:c1 :c2)", text), 1, 0);
                continue;
            }
            for behind in ["", " ", ")", "(", " x", " :c1", "\n\n:c1000", ")))", "(x"] {
                refused(format!("{}{}", text, behind), 1, 0);
            }
        }
    }
}

/// An intersection's pairs are counted together at its bracket: with one too many members the
/// bracket is refused, and until then another fault is.
#[test]
fn several_entries_at_one_bracket() {
    // 1 + 96 members + 95 pairs
    let members = |count: usize| " :c7".repeat(count);
    let text = |count: usize| format!("SubClassOf(:c1 ObjectIntersectionOf({}", members(count));
    accepted(text(96) + "))", 192, 1);
    for count in [97, 98, 120, 190, 191] {
        refused(text(count) + ")", 1, 0);
        refused(text(count) + "))", 1, 0);
        refused(text(count) + ") x", 1, 0);
        let open = text(count);
        off_grammar(&open, open.len());
        off_grammar(format!("{} x)", open), open.len() + 1);
        off_grammar(format!("{}(", open), open.len());
    }
    // the 192nd member is the 193rd entry
    for count in [192, 193, 250] {
        refused(text(count), 1, 0);
        refused(text(count) + ")", 1, 0);
    }
    off_grammar(text(191) + " ", text(191).len() + 1);
    // all below 192 but for the last pair
    for before in 2..100usize {
        let full = filler(before);
        let rest = MAX_CONCEPTS - before - 1;
        let axiom = |count: usize| {
            format!("{}SubClassOf(ObjectIntersectionOf({}) owl:Thing)", full, members(count))
        };
        let most = (rest + 1) / 2;
        assert_eq!(ask(axiom(most)).number, 0, "{}", before);
        refused(axiom(most + 1), 1, 0);
    }
}

/// A bracket that would take the entries past 192 but has too few members is 17.
#[test]
fn too_few_members_at_the_limit() {
    let full = filler(190);
    off_grammar(format!("{}SubClassOf(:c1 ObjectIntersectionOf(:c2))", full), full.len() + 39);
    let full = filler(191);
    off_grammar(format!("{}SubClassOf(ObjectIntersectionOf(:c2))", full), full.len() + 35);
    let full = filler(192);
    off_grammar(format!("{}SubClassOf(ObjectIntersectionOf())", full), full.len() + 32);
    off_grammar(format!("{}SubClassOf(ObjectSomeValuesFrom(:r1))", full), full.len() + 35);
    off_grammar(format!("{}SubClassOf()", full), full.len() + 11);
    refused(format!("{}SubClassOf(ObjectIntersectionOf(:c1))", full), 1, 0);
}

/// 96 axioms are all there can be: the first class of another takes the entries past 192.
#[test]
fn axioms_at_the_limit() {
    let full = filler(192);
    accepted(&full, 192, 96);
    assert_eq!(read(&full).inclusions, (0..192).collect::<Vec<u16>>());
    let at = full.len();
    for behind in [":c1", " owl:Thing ", ":c1 :c2)", ":c1 x", ":c1(", ":c1)", "\n:c999)))"] {
        refused(format!("{}SubClassOf({}", full, behind), 1, 0);
    }
    off_grammar(format!("{}SubClassOf", full), at + 10);
    off_grammar(format!("{}SubClassOf(", full), at + 11);
    off_grammar(format!("{}SubClassOf(:c1000 :c1)", full), at + 11);
    off_grammar(format!("{}SubClassOf(:c1\t:c1)", full), at + 11);
    off_grammar(format!("{}SubClassOf({}(:r1 ", full, SOME), at + 36);
    off_grammar(format!("{}:c1", full), at);
    refused(format!("{}SubClassOf({}(:r1 :c1", full, SOME), 1, 0);
    accepted(full + " \n\r", 192, 96);
}

/// What leads to a class so deep, level by level: by roles, by intersections where it is the first
/// or a later member, or in turns. Beside what is too deep there is no other member.
fn levels(way: usize, depth: usize) -> Vec<&'static str> {
    const LEVELS: [&str; 4] = [
        "ObjectSomeValuesFrom(:r7 ",
        "ObjectIntersectionOf(",
        "ObjectIntersectionOf(:c3 ",
        "ObjectIntersectionOf(owl:Thing\n",
    ];
    let form = |level: usize| if way < 3 { way } else { (way + level) % 4 };
    let most = |level: usize| if level < MAX_DEPTH { 3 } else { 1 };
    (1..depth).map(|level| LEVELS[form(level).min(most(level))]).collect()
}

fn way_in(way: usize, depth: usize) -> String {
    levels(way, depth).concat()
}

fn way_out(way: usize, depth: usize) -> String {
    let shut = |level: &&str| if level.starts_with(SOME) { ")" } else { " :c5)" };
    levels(way, depth).iter().rev().map(shut).collect()
}

/// A class may be begun 32 deep. 33 deep whatever begins a class is 18 at its first byte, and any
/// other token or the end is 17.
#[test]
fn classes_at_the_deepest() {
    let starts = [":c1", THING, AND, SOME];
    let others = [")", "(", "x", ":r1", "SubClassOf", ":c1000", ":c01", "owl:thing", "\t"];
    for (before, behind) in [
        ("SubClassOf(", " :c9)"),
        ("SubClassOf(:c9 ", ")"),
        ("SubClassOf(:c1 :c2)\nSubClassOf(:c9 ", ")\n"),
    ] {
        for way in 0..7 {
            let at = format!("{}{}", before, way_in(way, MAX_DEPTH));
            for leaf in [":c1", THING] {
                let text = format!("{}{}{}{}", at, leaf, way_out(way, MAX_DEPTH), behind);
                assert_eq!(ask(&text).number, 0, "{}", text);
            }
            for start in starts {
                off_grammar(format!("{}{}", at, start), at.len() + start.len());
            }
            for token in others {
                off_grammar(format!("{}{}", at, token), at.len());
            }
            let at = format!("{}{}", before, way_in(way, MAX_DEPTH + 1));
            off_grammar(&at, at.len());
            off_grammar(format!("{} \n", at), at.len() + 2);
            for start in starts {
                for rest in ["", " ", "(", ")", "(:r1 :c1)", "(:c1 :c2)", " x", "))))"] {
                    refused(format!("{}{}{}", at, start, rest), 18, at.len());
                    refused(format!("{}\r\n {}{}", at, start, rest), 18, at.len() + 3);
                }
            }
            for token in others {
                off_grammar(format!("{}{}", at, token), at.len());
                off_grammar(format!("{} {}", at, token), at.len() + 1);
            }
        }
    }
    // deeper still: the first that is too deep decides
    for depth in [34, 35, 40, 64, 100] {
        for way in 0..7 {
            let text = format!("SubClassOf({}:c1{}:c1)", way_in(way, depth), way_out(way, depth));
            refused(text, 18, format!("SubClassOf({}", way_in(way, MAX_DEPTH + 1)).len());
        }
    }
}

/// Depth is counted anew for each side, and goes back with each bracket.
#[test]
fn depth_goes_back() {
    let deep = tower(MAX_DEPTH - 1, 3, Class::Thing);
    let wide = Class::All(vec![Class::Name(1), tower(MAX_DEPTH - 2, 4, Class::Name(2))]);
    for (left, right) in [(&deep, &deep), (&wide, &deep), (&deep, &wide), (&wide, &wide)] {
        let axiom = Axiom { left: left.clone(), right: right.clone() };
        let axioms = [axiom.clone(), axiom.clone()];
        accepted(owl::lines(&axioms), owl::concepts(&axioms), 2);
    }
    // many at one depth
    let inner = |count: usize| Class::All(vec![Class::Name(3); count]);
    let axiom = Axiom { left: tower(MAX_DEPTH - 2, 0, inner(70)), right: Class::Thing };
    let axioms = [axiom];
    accepted(owl::lines(&axioms), owl::concepts(&axioms), 1);
    let axiom = Axiom { left: tower(MAX_DEPTH - 1, 0, inner(2)), right: Class::Thing };
    let text = owl::lines(&[axiom]);
    refused(&text, 18, text.iter().rposition(|&byte| byte == b'(').expect("a bracket") + 1);
    // towers side by side
    let towers = Class::All((0..5).map(|k| tower(MAX_DEPTH - 2, k, Class::Thing)).collect());
    assert_eq!(towers.depth(), MAX_DEPTH);
    let axiom = Axiom { left: Class::Name(4), right: towers };
    let axioms = [axiom];
    accepted(owl::lines(&axioms), owl::concepts(&axioms), 1);
}

/// 18 is at the first byte of a word and 1 at its last: with 192 entries before it a name 33 deep is
/// 18, and one that is less deep is 1.
#[test]
fn too_deep_and_too_many() {
    let full = filler(MAX_CONCEPTS) + "SubClassOf(";
    for leaf in [":c1", THING] {
        for depth in 1..=MAX_DEPTH {
            refused(format!("{}{}{}", full, way_in(0, depth), leaf), 1, 0);
            refused(format!("{}{}{} x", full, way_in(0, depth), leaf), 1, 0);
        }
    }
    let at = full + &way_in(0, MAX_DEPTH + 1);
    for start in [":c1", THING, AND, SOME] {
        for behind in ["", " :c1", ")", " x", "("] {
            refused(format!("{}{}{}", at, start, behind), 18, at.len());
        }
    }
    off_grammar(format!("{})", at), at.len());
    off_grammar(format!("{}x", at), at.len());
}

/// 8192 bytes are judged, and one more is 17 at 8192 whatever the text is.
#[test]
fn lengths_around_the_limit() {
    let sample = SAMPLE.as_bytes();
    let pad = |length: usize| b" ".repeat(length - sample.len());
    for length in [8000, 8191, 8192] {
        accepted([sample, &pad(length)].concat(), 12, 2);
        accepted([&pad(length), sample].concat(), 12, 2);
        // cut in the middle of the last word, before its bracket and behind it
        let cut = &[&pad(length + 6), &sample[..sample.len() - 6]].concat()[..length];
        assert_ne!(ask(cut).number, 0);
        let open = [&pad(length + 2), &sample[..sample.len() - 2]].concat();
        off_grammar(&open, length);
        off_grammar([b"x".to_vec(), vec![b' '; length - 1]].concat(), 0);
        off_grammar([vec![b'\n'; length - 1], b"x".to_vec()].concat(), length - 1);
        off_grammar([b"SubClassOf".to_vec(), vec![b'\n'; length - 10]].concat(), length);
        off_grammar(vec![b'x'; length], 0);
    }
    for length in [8193, 8194, 8200, 10_000, 70_000] {
        refused([sample, &pad(length)].concat(), 17, 8192);
        refused([&pad(length), sample].concat(), 17, 8192);
        for byte in [b' ', b'\n', b'\r', b'x', b'(', b')', 0, 255] {
            refused(vec![byte; length], 17, 8192);
        }
        // faults of all kinds before
        for text in ["x", "SubClassOf", "SubClassOf(:c1)"] {
            let mut text = text.as_bytes().to_vec();
            text.resize(length, b' ');
            refused(text, 17, 8192);
        }
        let mut many = filler(194).into_bytes();
        many.resize(length, b'\n');
        refused(many, 17, 8192);
        let mut deep = format!("SubClassOf({}:c1", way_in(0, 40)).into_bytes();
        deep.resize(length, b' ');
        refused(deep, 17, 8192);
    }
    for (_, text) in owl::at_the_limits() {
        assert_eq!(ask(&text).number, 0, "{}", shown(&text));
    }
}

/// Entries and inclusions in turn, before everything else; how much is written changes nothing.
#[test]
fn short_and_long_buffers() {
    let deep = format!("SubClassOf({}:c1", way_in(0, 40));
    let too_deep = "SubClassOf(".len() + way_in(0, MAX_DEPTH + 1).len();
    let texts = [
        (String::new(), Catalogue::done(0, 0)),
        (SAMPLE.to_string(), Catalogue::done(12, 2)),
        (filler(192), Catalogue::done(192, 96)),
        ("x".to_string(), Catalogue::refused(17, 0)),
        ("SubClassOf(:c1 ".to_string(), Catalogue::refused(17, 15)),
        (deep, Catalogue::refused(18, too_deep as u64)),
        (filler(194), Catalogue::refused(1, 0)),
        (" ".repeat(8193), Catalogue::refused(17, 8192)),
    ];
    for (text, due) in &texts {
        for concepts in [0, 1, 36, 191, 192, 575, 576, 577, 700] {
            for inclusions in [0, 1, 4, 190, 191, 192, 193, 300] {
                let wanted = match (concepts < 576, inclusions < 192) {
                    (true, _) => Catalogue::refused(8, 576),
                    (_, true) => Catalogue::refused(8, 192),
                    _ => *due,
                };
                let rooms = [concepts, inclusions];
                let answer = compare::read_owl(text.as_bytes(), rooms);
                assert_eq!(answer, wanted, "{:?} numbers, {}", rooms, text);
            }
        }
    }
}

/// The same call again gives the same, whatever came between.
#[test]
fn calls_share_no_state() {
    let texts = [SAMPLE.to_string(), filler(192), filler(194), "SubClassOf(:c1".to_string()];
    for first in &texts {
        for second in &texts {
            let answer = ask(first);
            ask(second);
            assert_eq!(ask(first), answer);
        }
    }
}

/// Names that occur and whether each is below each other, by Konclude. Nothing where it takes too
/// long.
fn classified(text: &[u8], names: &[u16], label: &str) -> Option<Relation> {
    let folder = PathBuf::from(env!("CARGO_TARGET_TMPDIR"));
    let (input, output) =
        (folder.join(format!("{}.ofn", label)), folder.join(format!("{}.owx", label)));
    let declared: String = names.iter().map(|n| format!("Declaration(Class(:c{}))\n", n)).collect();
    let axioms = String::from_utf8(text.to_vec()).expect("plain text");
    fs::write(&input, wrapped(&(declared + &axioms))).expect("a file for Konclude");
    let _ = fs::remove_file(&output);
    // with one worker some versions wait for ever
    let mut child = Command::new(PROGRAM)
        .args(["classification", "-w", "2", "-i"])
        .arg(&input)
        .arg("-o")
        .arg(&output)
        .stdin(Stdio::null())
        .stdout(Stdio::null())
        .stderr(Stdio::null())
        .spawn()
        .expect("Konclude starts");
    let start = Instant::now();
    while child.try_wait().expect("Konclude can be waited for").is_none() {
        if start.elapsed() > Duration::from_secs(20) {
            let _ = child.kill();
            let _ = child.wait();
            return None;
        }
        thread::sleep(Duration::from_millis(1));
    }
    let mut hierarchy = Hierarchy::read(&fs::read_to_string(&output).expect("its hierarchy"));
    let places: Vec<usize> = names.iter().map(|n| hierarchy.place(&format!("c{}", n))).collect();
    let row = |&place: &usize| {
        let reached = hierarchy.reached(place);
        places.iter().map(|&other| reached[other]).collect()
    };
    Some(places.iter().map(row).collect())
}

/// The same text, wrapped as an ontology: its names have in our table the hierarchy that Konclude
/// finds. Left out where something is above everything (there Konclude 0.7.0 misses pairs), and where
/// an intersection repeats a member, which OWL does not have.
#[test]
fn konclude_finds_the_same_hierarchy() {
    assert!(is_installed(PROGRAM), "{} is missing: install Debian's package konclude", PROGRAM);
    fn repeats(class: &Class) -> bool {
        match class {
            Class::Thing | Class::Name(_) => false,
            Class::Some(_, inner) => repeats(inner),
            Class::All(members) => {
                let all: BTreeSet<&Class> = members.iter().collect();
                all.len() < members.len() || members.iter().any(repeats)
            }
        }
    }
    let mut tally = Tally::new("owl, Konclude");
    let mut k = 0;
    each_catalogue("owl, Konclude", 400, |mut axioms, mut random| {
        axioms.retain(|axiom| !repeats(&axiom.left) && !repeats(&axiom.right));
        axioms.retain(|axiom| axiom.left != Class::Thing);
        let of = |axiom: &Axiom| [axiom.left.names(), axiom.right.names()].concat();
        let names: BTreeSet<u16> = axioms.iter().flat_map(of).collect();
        let names: Vec<u16> = names.into_iter().collect();
        let text = spaced(&mut random, &tokens(&axioms));
        k += 1;
        tally.case();
        // nothing is compared without names, of a text that is too long, and over 64 parts
        let tables = (!names.is_empty() && text.len() <= MAX_TEXT).then(|| read(&text));
        let held = tables.and_then(|tables| Some((below(&tables)?, tables)));
        tally.note("left out", held.is_none());
        let (held, tables) = match held {
            Some(held) => held,
            None => return,
        };
        let id = |name: u16| {
            let is_it = |&id: &usize| tables.concept(id) == Concept::Name(name);
            (0..tables.concept_count()).find(is_it).expect("a name that occurs")
        };
        let row = |&left: &u16| names.iter().map(|&right| held[id(left)][id(right)]).collect();
        let ours: Relation = names.iter().map(row).collect();
        let theirs = classified(&text, &names, &format!("owl-{}", k));
        tally.note("compared", theirs.is_some());
        tally.note("stopped", theirs.is_none());
        if let Some(theirs) = theirs {
            assert_eq!(ours, theirs, "{:?} in {}", names, shown(&text));
        }
    });
    tally.finish(&[("compared", 50..=100), ("left out", 0..=40), ("stopped", 0..=10)]);
}
