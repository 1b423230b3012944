//! The model tried against document 01's examples and against properties that must hold of it.

mod conditions;
mod days;
mod examples;
mod generator;
mod places;
mod properties;
mod readings;
mod report;
mod rounds;
mod search;
mod second_ruler;
mod sessions;

use self::report::Report;

pub fn selftest() -> bool {
    let groups: [(&str, fn(&mut Report)); 11] = [
        ("examples of document 01", examples::examples),
        ("readings of unclear places", readings::readings),
        ("readings of the second ruler", second_ruler::second_ruler),
        ("days of a trip", days::days),
        ("session program", sessions::sessions),
        ("partitions of a trip", places::places_of_trips),
        ("builds, edits and questions", properties::properties),
        ("a window under every code", rounds::every_code),
        ("refusal 8 against a search of all tables", search::search),
        ("refusal 8 against conditions on the words", conditions::conditions),
        ("drawn calls", generator::generator),
    ];
    let mut all = true;
    for (name, group) in &groups {
        let mut report = Report::default();
        group(&mut report);
        all = report.close(name) && all;
    }
    println!("{}", if all { "selftest: good" } else { "selftest: FAILED" });
    all
}

#[test]
fn selftest_is_good() {
    assert!(selftest());
}
