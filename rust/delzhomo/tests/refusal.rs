//! Refusals in words.

use std::collections::BTreeSet;

use delzhomo::{Place, Refusal};

const NUMBERS: [usize; 18] = [
    1, 2, 3, 4, 5, 10, 11, 12, 13, 14, 15, 20, 21, 22, 30, 31, 32, 33,
];

fn refusal(number: usize) -> Refusal {
    Refusal {
        number,
        place: 1234,
        extra: 567,
    }
}

#[test]
fn each_number_has_a_sentence_of_its_own() {
    let sentences: BTreeSet<String> = NUMBERS.map(|each| refusal(each).to_string()).into();
    assert_eq!(sentences.len(), NUMBERS.len());
    assert!(
        sentences
            .iter()
            .all(|sentence| !sentence.contains("no sentence"))
    );
    assert!(refusal(99).to_string().contains("number 99"));
}

#[test]
fn a_sentence_names_the_place_if_there_is_one() {
    for number in NUMBERS {
        let refusal = refusal(number);
        let named = refusal.to_string().contains("1234");
        assert_eq!(named, refusal.place() != Place::Whole, "{refusal}");
    }
}

#[test]
fn a_sentence_about_a_label_field_names_it() {
    for number in [31, 32, 33] {
        let names = [0, 1].map(|extra| {
            let refusal = Refusal {
                extra,
                ..refusal(number)
            };
            assert_eq!(refusal.place(), Place::Record(1234));
            let sentence = refusal.to_string();
            ["first", "second"].map(|name| sentence.contains(&format!("the {name} ")))
        });
        assert_eq!(names, [[true, false], [false, true]], "{number}");
    }
}

#[test]
fn the_line_is_that_of_the_document() {
    assert_eq!(refusal(12).line(), "refused 12 1234 567");
}
