//! No operation uses more stack than include/hermitcasket.h says, nor more than 1 MiB. What the header says of the matcher is by its
//! frame and depth, and a little more.

use hermitcasket_bench::operations::{inputs, stack_bytes, Room, OPERATIONS};
use hermitcasket_bench::stack::depth;

const MOST: usize = 1 << 20;

/// Depth of a frame of this size, all of it used.
fn depth_of<const BYTES: usize>() -> usize {
    depth(|| {
        let mut frame = [0u8; BYTES];
        frame.iter_mut().for_each(|byte| unsafe { (byte as *mut u8).write_volatile(1) });
    })
}

#[test]
fn the_measure_is_right() {
    let found = [(100, depth_of::<100>()), (5000, depth_of::<5000>()), (MOST, depth_of::<MOST>())];
    for (bytes, depth) in found {
        assert!(depth >= bytes && depth < bytes + 2000, "{} for {}", depth, bytes);
    }
}

/// The bytes that the header gives the operation: " * NAME BYTES".
fn said(operation: &str) -> usize {
    let words = |line: &'static str| line.split_whitespace().collect::<Vec<_>>();
    let header = include_str!("../../include/hermitcasket.h").lines();
    let number = |line| match words(line)[..] {
        ["*", name, bytes, ..] if name == operation => bytes.parse().ok(),
        _ => None,
    };
    header.filter_map(number).next().expect("the header has a number for each operation")
}

#[test]
fn at_most_what_the_header_says() {
    let mut room = Room::default();
    for input in inputs() {
        for (name, operation) in OPERATIONS {
            let bytes = stack_bytes(operation, &input, &mut room);
            let most = said(name);
            assert!(bytes <= MOST, "{} needs {} bytes on {}", name, bytes, input.label);
            assert!(bytes <= most, "{} needs {} bytes on {}", name, bytes, input.label);
        }
    }
}
