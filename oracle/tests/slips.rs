//! Each rule before conversion, and what a refusal leaves behind: no slip in them escapes the trees of class `broken` and those for each error.

use oracle::forms::{forms, known};
use oracle::generate::call_list::{bytes, cases};
use oracle::tree::Tree;
use oracle::{Answer, convert, generate, slips};

/// Slips that change no answer: Break and Continue lie beside a condition or a name that is as deep, and a name is never deep.
const NONE_CAN_SEE: [&str; 4] = [
    "kind 22: adds no depth",
    "kind 23: adds no depth",
    "kind 25: word A not nested",
    "kind 25: word B not nested",
];

#[test]
fn every_slip_is_noticed() {
    let list = bytes(&cases(1, 0, "").unwrap()).unwrap();
    let cases = slips::stored(&list);
    assert_eq!(slips::misread(&cases), 0);
    assert!(slips::slips().len() > 2000);
    assert_eq!(slips::unnoticed(&cases), NONE_CAN_SEE);
    let (_, left) = slips::leaves::unnoticed(&cases);
    assert!(left.is_empty(), "{left:?}");
}

#[test]
fn rare_forms_convert() {
    let mut found = std::collections::BTreeSet::new();
    for seed in 0..2000 {
        let case = generate(seed, "rare");
        if let Answer::Converted(tables) = convert(&case.tree, &case.text, case.needs_main, case.lens) {
            found.extend(forms(&Tree::new(&case.tree, &case.text), &tables));
        }
    }
    let missing: Vec<String> = known().into_iter().filter(|form| !found.contains(form)).collect();
    assert!(missing.is_empty(), "{missing:?}");
}
