//! The stack that README and header ask for: it is the worst call's with a margin, and every call runs on it.

use compare::stack::{accepted, of_call};
use compare::Tables;
use generate::nest::NESTS;
use generate::Grammar;
use idl::{Reply, DEPTH_CEILING, STACK_KB};

const KB: usize = 1024;
/// What is stated above the worst call: room for the thread's own part of its stack, and for the frames of a caller's
/// compiler.
const MARGIN: usize = 8 * KB;

/// The texts that are nested to the ceiling, with tables.
fn deepest() -> impl Iterator<Item = (&'static str, Vec<u8>, Tables)> {
    let grammar = Grammar::published();
    NESTS.iter().map(move |nest| {
        let text = accepted(nest, DEPTH_CEILING, &grammar);
        let tables = Tables::with_room(text.len());
        (nest.name, text, tables)
    })
}

#[test]
fn the_worst_call_and_the_margin_come_to_it() {
    let of_text = |(_, text, mut tables): (&str, Vec<u8>, Tables)| {
        of_call(&mut || {
            idl::read(&text, &mut tables.tokens, &mut tables.tree, DEPTH_CEILING);
        })
    };
    let worst = deepest().map(of_text).max().expect("there are ways to nest");
    let stated = STACK_KB * KB;
    assert!(worst + MARGIN <= stated, "the worst call takes {worst} bytes: state more");
    assert!(stated < worst + 2 * MARGIN, "the worst call takes {worst} bytes: state less");
}

#[test]
fn every_call_runs_on_a_thread_that_has_it() {
    for (name, text, mut tables) in deepest() {
        let call = move || idl::read(&text, &mut tables.tokens, &mut tables.tree, DEPTH_CEILING);
        let thread = std::thread::Builder::new().stack_size(STACK_KB * KB).spawn(call).expect("a thread starts");
        assert!(matches!(thread.join(), Ok(Reply::Accepted { .. })), "{name}");
    }
}

#[test]
fn readme_and_header_state_it() {
    let sentence = format!("at most {STACK_KB} KB of stack at depth {DEPTH_CEILING}");
    let header = include_str!("../../c/idl.h");
    assert!(include_str!("../../../README.md").contains(&sentence));
    assert!(header.contains(&sentence));
    assert!(header.contains(&format!("#define IDL_STACK_KB {STACK_KB}\n")));
    assert!(header.contains(&format!("#define IDL_DEPTH_CEILING {DEPTH_CEILING}\n")));
}
