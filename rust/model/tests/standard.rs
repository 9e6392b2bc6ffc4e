//! The examples of Z.315, 2.9.2.

mod common;

use common::names;

#[test]
fn simple_parameter_arguments() {
    names("5&9", &["5", "9"]);
    names("5&&9", &["5", "6", "7", "8", "9"]);
    names("5&&9+ +2", &["5", "7", "9"]);
    names("5&&7&9", &["5", "6", "7", "9"]);
    names("5&&9+ +2&10", &["5", "7", "9", "10"]);
}

#[test]
fn compound_parameter_arguments() {
    names("5-1&6-3", &["5-1", "6-3"]);
    names("7-1&-3", &["7-1", "7-3"]);
    names("7-1&&-3", &["7-1", "7-2", "7-3"]);
    names("7-1&-3&&-5", &["7-1", "7-3", "7-4", "7-5"]);
    names(
        "5-1&&-3&8-2&-5&-6",
        &["5-1", "5-2", "5-3", "8-2", "8-5", "8-6"],
    );
    names(
        "5-1&&-7++2&8-1&-3",
        &["5-1", "5-3", "5-5", "5-7", "8-1", "8-3"],
    );
}

/// Z.314, 4.1 and 4.2.
#[test]
fn identifiers_and_symbolic_names() {
    for name in ["U", "UPDATE", "UPD8", "06H", "10%", "SS#6"] {
        names(name, &[name]);
    }
}
