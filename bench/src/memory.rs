//! The stack that each operation needs.

use hermitcasket_bench::operations::{inputs, stack_bytes, Input, Operation, Room, OPERATIONS};

use crate::markdown::{print_head, print_row, Column};

const COLUMNS: [Column; 4] = [("operation", 20), ("least", 7), ("most", 7), ("most on", 30)];

fn print_line(name: &str, operation: Operation, inputs: &[Input]) {
    let mut room = Room::default();
    let bytes: Vec<usize> =
        inputs.iter().map(|input| stack_bytes(operation, input, &mut room)).collect();
    let (least, most) = (bytes.iter().min().expect("an input"), bytes.iter().max().expect("one"));
    let at = bytes.iter().position(|found| found == most).expect("the most is one of them");
    let family = if least == most { "any" } else { &inputs[at].label };
    let cells = [name.to_string(), least.to_string(), most.to_string(), family.to_string()];
    print_row(&COLUMNS, &cells);
}

pub fn print() {
    println!("Bytes of stack for one operation, over all families.\n");
    print_head(&COLUMNS);
    let inputs = inputs();
    OPERATIONS.iter().for_each(|&(name, operation)| print_line(name, operation, &inputs));
}
