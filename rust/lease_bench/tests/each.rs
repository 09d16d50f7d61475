//! A little of each kind of calls makes what plain Rust by hand makes for the same words (`bench/*.rs`). Of captures there is no
//! such program: their line is what the proved code made as the kit built it.

use std::process::Command;

const EACH: &str = "\
124716
514 messages, 774 events, 12 chains, 148 changes
1000
157384
1621 7556922557878948402
";

fn printed(words: &[&str]) -> (Option<i32>, String) {
    let done = Command::new(env!("CARGO_BIN_EXE_lease_bench")).args(words).output().expect("the program runs");
    (done.status.code(), String::from_utf8(done.stdout).expect("it prints text"))
}

#[test]
fn a_little_of_each() {
    assert_eq!(printed(&["each"]), (Some(0), EACH.to_owned()));
}

#[test]
fn what_asks_for_nothing_is_refused() {
    for words in [&[][..], &["other"], &["contexts"], &["manager", "session", "1"], &["captures", "1"]] {
        assert_eq!(printed(words), (Some(2), String::new()), "{words:?}");
    }
}
