//! Every case of the project's `tests/cases.txt`.

use rival::cases;

#[test]
fn every_case() {
    let path = concat!(env!("CARGO_MANIFEST_DIR"), "/../tests/cases.txt");
    let text = std::fs::read_to_string(path).expect("tests/cases.txt");
    let cases = cases::read(&text);
    assert!(!cases.is_empty());
    let failures: Vec<String> = cases.iter().flat_map(|case| case.failures()).collect();
    assert!(failures.is_empty(), "\n{}", failures.join("\n"));
}
