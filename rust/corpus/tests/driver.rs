//! Req 07: each rule of the driver's profile has a kept file on both sides.

use corpus::folder::kept_files;
use std::collections::BTreeMap;

#[test]
fn each_rule_has_a_file_on_both_sides() {
    let mut answers: BTreeMap<String, Vec<String>> = BTreeMap::new();
    for file in kept_files() {
        if let Some(answer) = file.driver {
            let number = answer.split(' ').nth(1).unwrap_or("passed").to_string();
            answers.entry(number).or_default().push(file.name);
        }
    }
    let refusals = ["41", "42", "43", "44", "45", "46", "47"];
    let reported: Vec<&str> = answers.keys().map(String::as_str).collect();
    assert_eq!(reported, [&refusals[..], &["passed"]].concat());
    // What stands beside 43 to 45 and 47: a reader that shared objects alone use, enums of two names, one key in two
    // dictionaries, and a next that is a null resource.
    for name in [
        "ok-kind-35-ring-of-pages-with-pictures",
        "ok-driver-two-enums",
        "ok-driver-key-in-two-dictionaries",
        "ok-resource-id-1-of-1",
    ] {
        assert!(answers["passed"].iter().any(|it| it == name), "{name}");
    }
}
