//! The example prints what examples/card.c prints.

#[path = "../examples/card.rs"]
mod card;

#[test]
fn the_example_prints_its_lines() {
    let lines = include_str!("../../examples/card.lines");
    assert_eq!(card::told().expect("accepted").join("\n") + "\n", lines);
}
