//! tests/run itself, with other tools in the place of rt and cargo: what makes it fail.

use std::env;
use std::fs;
use std::os::unix::fs::PermissionsExt;
use std::path::Path;
use std::process::Command;

use hermitcasket_tests::scratch::Scratch;

/// What the tools print and how they end.
#[derive(Clone)]
struct Tools {
    /// The end of what rt ci prints.
    proofs: &'static str,
    proofs_end: u8,
    library_end: u8,
    tests: &'static str,
    tests_end: u8,
    /// What rt ci says of each must-fail edit before that; nothing: no line.
    edits: [&'static str; 3],
}

const PROOFS: &str = "rt: ok; handles allowed: none; must-fail edits: 3 refused; every proof and must-fail edit was done in this run\n\
                      5 passed, 0 failed\n";
const TESTS: &str = "test result: ok. 4 passed; 0 failed; 0 ignored; 0 measured; 0 filtered out\n\
                     test result: ok. 3 passed; 0 failed; 0 ignored; 0 measured; 0 filtered out\n";
const RETURNS: &str = "refused, as it must be: ./proofs/f/Answers.antt:9:2: error: `returns-then-2`: the two types differ";
const LAW: &str = "refused, as it must be: ./proofs/Laws.antt:3:4: error: `every-card`: expected type `a`, but this has type `b`";
const SEARCH: &str = "refused, as it must be: note: src/lib.rt:15:1: it is not proved that what the function ensures holds when it \
                      returns (`returns`); the facts known there allow values at which this goal";
const GOOD: Tools = Tools {
    proofs: PROOFS,
    proofs_end: 0,
    library_end: 0,
    tests: TESTS,
    tests_end: 0,
    edits: [RETURNS, LAW, SEARCH],
};

fn write_tool(path: &Path, script: String) {
    fs::write(path, script).expect("a tool");
    fs::set_permissions(path, fs::Permissions::from_mode(0o755)).expect("a tool that runs");
}

/// A folder with tests/run, this tests/expected, two crates and the tools.
fn folder(label: &str, expected: &str, tools: &Tools) -> Scratch {
    let folder = Scratch::new(&format!("gate-{}", label));
    for part in ["tests", "bin", "kit/bin", "crates/a/must-fail", "crates/capi/out"] {
        fs::create_dir_all(folder.join(part)).expect("a folder");
    }
    for script in ["run", "facts", "library"] {
        let from = Path::new(env!("CARGO_MANIFEST_DIR")).join(script);
        fs::copy(from, folder.join("tests").join(script)).expect("a script of tests/");
    }
    fs::write(folder.join("crates.txt"), "# a: b\na:\ncapi staticlib: a of_kit\n")
        .expect("crates.txt");
    let mut told = String::new();
    for (edit, said) in ["A", "B", "C"].iter().zip(tools.edits) {
        fs::write(folder.join(format!("crates/a/must-fail/{}.edit", edit)), "").expect("an edit");
        if !said.is_empty() {
            told += &format!("rt: must-fail a/{}.edit: {}\n", edit, said);
        }
    }
    fs::write(folder.join("tests/expected"), expected).expect("tests/expected");
    let rt = format!(
        "#!/bin/sh\ncase \"$*\" in\nci) ;;\ndoc) echo '{}/kit/START-HERE.md'; exit ;;\n\
         lib) echo \"rt lib in ${{PWD##*/}}\"; exit {} ;;\n*) exit 9 ;;\nesac\n\
         cat <<'END'\n{}{}END\nexit {}\n",
        folder.display(),
        tools.library_end,
        told,
        tools.proofs,
        tools.proofs_end
    );
    let cargo =
        format!("#!/bin/sh\nenv\ncat <<'END'\n{}END\nexit {}\n", tools.tests, tools.tests_end);
    write_tool(&folder.join("bin/rt"), rt);
    write_tool(&folder.join("bin/cargo"), cargo);
    folder
}

/// All that it prints, and whether it ends well.
fn run(label: &str, expected: &str, tools: &Tools) -> (String, bool) {
    run_in(&folder(label, expected, tools))
}

fn run_in(folder: &Path) -> (String, bool) {
    let tools = env::var("PATH").expect("a path to bash and its tools");
    let path = format!("{}:{}", folder.join("bin").display(), tools);
    let output = Command::new("bash")
        .arg(folder.join("tests/run"))
        .env("PATH", path)
        .env("HC_CASES", "1")
        .env("RUSTFLAGS", "-Coverflow-checks=off")
        .output()
        .expect("tests/run");
    (String::from_utf8(output.stdout).expect("plain text"), output.status.success())
}

fn last_line(printed: &str) -> &str {
    printed.lines().last().unwrap_or("")
}

#[test]
fn passes() {
    for (label, expected) in
        [("exact", "tests=7\nedits=3\n"), ("more", "# least\ntests=1\nedits=0\n")]
    {
        let (printed, well) = run(label, expected, &GOOD);
        assert_eq!(last_line(&printed), "12 passed, 0 failed", "{}", printed);
        assert!(well, "{}", printed);
    }
}

/// Variables that make tests fewer or change how they are built do not reach cargo.
#[test]
fn no_variable_gets_through() {
    let (printed, _) = run("variables", "tests=7\nedits=3\n", &GOOD);
    assert!(printed.contains("\nPATH="), "{}", printed);
    assert!(!printed.contains("HC_CASES"), "{}", printed);
    assert!(!printed.contains("RUSTFLAGS"), "{}", printed);
}

/// The fact that each edit fails on is told, a line an edit.
#[test]
fn facts_are_told() {
    let (printed, _) = run("facts", "tests=7\nedits=3\n", &GOOD);
    for fact in [
        "a/A: returns-then-2 of proofs/f/Answers.antt: ",
        "a/B: every-card of proofs/Laws.antt: ",
        "a/C: returns of src/lib.rt: ",
    ] {
        assert!(printed.lines().any(|line| line.starts_with(fact)), "{}:\n{}", fact, printed);
    }
}

/// An edit whose error is about form shows nothing, and the gate says so.
#[test]
fn an_edit_on_form_fails() {
    let said = [
        "refused, as it must be (only because a proof file names what the edit took away, so this says little of the contract: change a \
         value and keep the names): ./proofs/f/Answers.antt:9:2: error: `returns`: record `After` has no field `args`",
        "refused, as it must be: ./proofs/f/Answers.antt:9:2: error: `next`: module `Goals` has no `next` that can be named from here",
        "refused, as it must be: ./proofs/f/Proof.antt:9:2: error: `f-spec`: expected type `tie.Need-a`, but this has type `tie.Need-b`",
        "refused, as it must be: ./proofs/f/Answers.antt:9:2: error: `overflow_cast-value`: the goal does not follow",
        "refused, as it must be: note: src/lib.rt:9:2: it is not proved that the sum fits its type (at a range `..=n`, `n + 1`) \
         (`overflow_add-sum`); the facts",
        "refused, as it must be: note: src/lib.rt:9:2: it is not proved that the part ends within what it is a part of (`slice_bounds-a-end`)",
        "refused, as it must be: note: src/lib.rt:9:2: it is not proved that the divisor is not 0 (`nonzero_rem-result`)",
        "refused, as it must be: note: src/lib.rt:9:2: it is not proved that the subtraction does not go below 0 (at a range, that its",
        "refused, as it must be: ./specs/Tables.antt:9:2: error: `tables`: expected type `a`, but this has type `b`",
        "refused, as it must be: ./proofs/Laws.antt:9:2: error: `every-card`: `tells` is not in scope",
        "refused, as it must be (only by a limit of the prover, which gave no verdict, so this says less of the contract: choose a change \
         that it refuses sooner): ./proofs/Laws.antt:9:2: error: `every-card`: antt ran out of stack",
        "refused, as it must be",
        "BAD EDIT: an 'old:' text is in src/lib.rt 0 times, and not once",
        "NOT TRIED: its check was killed, most likely for memory, so nothing is known of it: run this again",
    ];
    for (k, said) in said.into_iter().enumerate() {
        let tools = Tools { edits: [said, LAW, SEARCH], ..GOOD };
        let (printed, well) = run(&format!("form {}", k), "tests=7\nedits=3\n", &tools);
        assert!(
            !well && printed.contains("tests/facts: a/A fails on form"),
            "{}:\n{}",
            said,
            printed
        );
        assert!(!last_line(&printed).ends_with(" 0 failed"), "{}", printed);
    }
}

#[test]
fn fails() {
    let expected = "tests=7\nedits=3\n";
    let ignored = "test result: ok. 7 passed; 0 failed; 1 ignored; 0 measured; 0 filtered out\n";
    let filtered = "test result: ok. 7 passed; 0 failed; 0 ignored; 0 measured; 1 filtered out\n";
    let broken = "test result: FAILED. 6 passed; 1 failed; 0 ignored; 0 measured; 0 filtered out\n";
    let survived = "rt: FAILED: capi/edit\n4 passed, 1 failed\n";
    let bad = "rt: ok; handles allowed: none; must-fail edits: 3 refused, 1 bad; every proof was done in this run\n5 passed, 0 failed\n";
    let cases = [
        ("fewer tests", "tests=8\nedits=3\n", GOOD),
        ("fewer edits", "tests=7\nedits=4\n", GOOD),
        ("no number of tests", "edits=3\n", GOOD),
        ("no number of edits", "tests=7\nedits=\n", GOOD),
        ("ignored", expected, Tools { tests: ignored, ..GOOD }),
        ("filtered", expected, Tools { tests: filtered, ..GOOD }),
        ("broken", expected, Tools { tests: broken, tests_end: 101, ..GOOD }),
        ("no tests", expected, Tools { tests: "", ..GOOD }),
        ("cargo ends badly", expected, Tools { tests_end: 101, ..GOOD }),
        ("a bad edit", expected, Tools { proofs: bad, ..GOOD }),
        ("an edit not told", expected, Tools { edits: ["", LAW, SEARCH], ..GOOD }),
        ("survived", expected, Tools { proofs: survived, proofs_end: 1, ..GOOD }),
        ("rt ends badly", expected, Tools { proofs_end: 2, ..GOOD }),
        ("rt says nothing", expected, Tools { proofs: "", ..GOOD }),
        ("no library", expected, Tools { library_end: 1, ..GOOD }),
    ];
    for (label, expected, tools) in cases {
        let (printed, well) = run(label, expected, &tools);
        let sum = last_line(&printed);
        assert!(!well && sum.ends_with(" failed"), "{}:\n{}", label, printed);
        assert!(!sum.ends_with(" 0 failed"), "{}:\n{}", label, printed);
    }
}

/// Has this stand-in of rt ci make the library of the crate `a`, and this one of the kit's compiler be there.
fn with_libraries(folder: &Path, compiler: &str) {
    let rt = fs::read_to_string(folder.join("bin/rt")).expect("rt");
    let making = rt.replace("ci) ;;", "ci) sleep 0.1; mkdir -p crates/a/out/rlib/a.rlib ;;");
    assert_ne!(rt, making);
    write_tool(&folder.join("bin/rt"), making);
    write_tool(
        &folder.join("kit/bin/rattle"),
        format!("#!/bin/sh\necho \"rattle $*\"\n{}\n", compiler),
    );
}

/// Where rt ci left the libraries below capi, only capi is proved again, over these.
#[test]
fn the_library_is_built_over_what_was_proved() {
    let folder = folder("over", "tests=7\nedits=3\n", &GOOD);
    with_libraries(&folder, "touch out/libcapi.a");
    let (printed, well) = run_in(&folder);
    assert!(well, "{}", printed);
    let words = printed
        .lines()
        .find(|line| line.starts_with("rattle build --crate-name capi src/lib.rt "))
        .expect("a call");
    let kit = folder.join("kit");
    for due in [
        format!("--extern std={}/rlibs/std.rlib", kit.display()),
        format!("--extern of_kit={}/rlibs/of_kit.rlib", kit.display()),
        "--extern a=../a/out/rlib/a.rlib".to_string(),
        "-L dependency=../a/out/rlib".to_string(),
        "--crate-type staticlib".to_string(),
        "-o out/libcapi.a".to_string(),
    ] {
        assert!(words.contains(&due), "{}: {}", due, words);
    }
    assert!(
        folder.join("crates/capi/out/libcapi.a").is_file() && !printed.contains("rt lib in"),
        "{}",
        printed
    );
}

/// A library that this rt ci did not make, or over which capi is not built, is rt lib's.
#[test]
fn other_libraries_are_left_to_rt() {
    let before = folder("before", "tests=7\nedits=3\n", &GOOD);
    fs::create_dir_all(before.join("crates/a/out/rlib/a.rlib")).expect("a library");
    with_libraries(&before, "touch out/libcapi.a");
    let unfit = folder("unfit", "tests=7\nedits=3\n", &GOOD);
    with_libraries(&unfit, "exit 1");
    for (folder, is_called) in [(before, false), (unfit, true)] {
        let (printed, well) = run_in(&folder);
        assert!(well && printed.contains("\nrt lib in capi\n"), "{}", printed);
        assert_eq!(printed.contains("\nrattle build "), is_called, "{}", printed);
    }
}

/// A file of tests that no program has among its modules would not be run.
#[test]
fn every_file_is_run() {
    let package = Path::new(env!("CARGO_MANIFEST_DIR"));
    let programs = fs::read_to_string(package.join("Cargo.toml")).expect("Cargo.toml");
    let modules = include_str!("all.rs");
    for entry in fs::read_dir(package.join("tests")).expect("a folder") {
        let path = entry.expect("a file").path();
        let name = path.file_stem().and_then(|name| name.to_str()).expect("a plain name");
        let is_module = modules.lines().any(|line| line == format!("mod {};", name));
        let is_program = programs.lines().any(|line| line == format!("name = \"{}\"", name));
        assert!(is_module != is_program, "{}", path.display());
    }
}
