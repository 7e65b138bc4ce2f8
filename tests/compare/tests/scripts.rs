//! Scripts are read as they were written.

use compare::lists;
use second::generate::SECOND;
use second::script::{self, Form, Line};

#[test]
fn a_written_script_is_read_as_the_same_calls() {
    for seed in 0..40 {
        let mut buffers = second::generate::Buffers::default();
        let mut calls = Vec::new();
        for call in lists::of_seed(seed) {
            let call = buffers.exact(&call);
            buffers.make(&SECOND, &call);
            calls.push(call);
        }
        let written = script::write(&calls);
        let (lines, bad) = script::read(&written, Form::Marked);
        assert_eq!(bad, None, "seed {seed}");
        let read: Vec<_> = lines
            .into_iter()
            .map(|line| match line {
                Line::Call(call) => call,
                _ => panic!("calls alone were written"),
            })
            .collect();
        assert_eq!(format!("{read:?}"), format!("{calls:?}"), "seed {seed}");
    }
}
