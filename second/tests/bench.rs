//! The benchmark runs, and has a line for each call.

use second::asking::GREATEST_LIMIT;
use std::process::Command;

#[test]
fn bench_quick_has_a_line_for_each_call() {
    let output = Command::new(env!("CARGO_BIN_EXE_bench")).arg("quick").output();
    let output = output.expect("the program runs");
    assert!(output.status.success(), "{}", String::from_utf8_lossy(&output.stderr));
    let printed = String::from_utf8(output.stdout).expect("a text");
    let names = ["set up", "form check", "age", "receive", "receive with readings", "write"];
    let names = names.into_iter().chain(["copy, and receive with a rise"]);
    let names = names.chain(["read", "rewrite", "fewest"]);
    let asks = (0..=GREATEST_LIMIT).map(|limit| format!("ask {limit}"));
    for name in names.map(String::from).chain(asks) {
        assert!(printed.contains(&format!("| {name} |")), "no line of {name} in {printed}");
    }
    let filled =
        ["quiet", "usual", "full"].map(|state| [state.into(), format!("{state}, 28 saved")]);
    let worst = ["worst for the engine", "worst for Rust"].map(String::from);
    let epochs = ["one epoch word", "29 epoch words"].map(String::from);
    for state in filled.into_iter().flatten().chain(worst).chain(epochs) {
        assert!(printed.contains(&format!("| {state} |")), "no line of {state} in {printed}");
    }
}
