//! Refusals: their numbers by the table of RULES 5.2, their sentences, and numbers that are in no table.
use apfelruder::raw::Answer;
use apfelruder::Refusal;
use std::collections::HashSet;
use std::error::Error;

/// Each refusal with its code, operand and place.
const TABLE: [(Refusal, u64, u64, u64); 20] = [
    (Refusal::Zero, 1, 1, 0),
    (Refusal::TooMany { operand: 0 }, 2, 0, 0),
    (Refusal::TooMany { operand: 2 }, 2, 2, 0),
    (Refusal::Order { operand: 4, place: 1023 }, 3, 4, 1023),
    (Refusal::Shared, 4, 0, 0),
    (Refusal::TooLarge { operand: 0 }, 5, 0, 0),
    (Refusal::TooLarge { operand: 1 }, 5, 1, 0),
    (Refusal::Room { operand: 0 }, 6, 0, 0),
    (Refusal::Room { operand: 1 }, 6, 1, 0),
    (Refusal::Work, 7, 1, 0),
    (Refusal::Form, 8, 1, 0),
    (Refusal::Wide, 9, 1, 0),
    (Refusal::Short { operand: 0 }, 10, 0, 0),
    (Refusal::Short { operand: 1 }, 10, 1, 0),
    (Refusal::Misfit, 11, 1, 0),
    (Refusal::Extra { operand: 0 }, 12, 0, 0),
    (Refusal::Extra { operand: 1 }, 12, 1, 0),
    (Refusal::Pad, 13, 1, 0),
    (Refusal::Sign { place: 65536 }, 14, 1, 65536),
    (Refusal::Twice { place: 5 }, 15, 1, 5),
];

#[test]
fn numbers_and_back() {
    for (refusal, code, operand, place) in TABLE {
        let answer = Answer { code, operand, place, count: 0 };
        assert_eq!(answer.result(), Err(refusal));
        assert_eq!(Answer::from(refusal), answer);
        assert_eq!((refusal.code(), refusal.operand(), refusal.place()), (code, operand, place));
    }
    assert_eq!(TABLE.iter().map(|row| row.0).collect::<HashSet<_>>().len(), TABLE.len());
}

#[test]
fn accepted_is_no_refusal() {
    assert_eq!(Answer { code: 0, operand: 0, place: 0, count: 5 }.result(), Ok(5));
}

#[test]
fn any_numbers_are_kept() {
    // a code of a later version; codes of the table with an operand or a place that it does not have
    let strange = [
        (16, 2, 3),
        (u64::MAX, u64::MAX, u64::MAX),
        (1, 2, 0),
        (4, 1, 0),
        (6, 1, 9),
        (10, 0, 1),
        (13, 1, 1),
        (14, 2, 3),
    ];
    for (code, operand, place) in strange {
        let told = Answer { code, operand, place, count: 0 }.result();
        assert_eq!(told, Err(Refusal::Unknown { code, operand, place }));
        assert_eq!(told.map_err(Answer::from), Err(Answer { code, operand, place, count: 0 }));
    }
}

#[test]
fn sentences() {
    let said = |refusal: Refusal| refusal.to_string();
    assert_eq!(
        said(Refusal::Order { operand: 2, place: 3 }),
        "the second list is out of order at index 3: the term is not above the one before it"
    );
    assert_eq!(
        said(Refusal::TooMany { operand: 1 }),
        "the first list has more than 1,024 terms, or the text more than 65,536 bytes"
    );
    assert_eq!(said(Refusal::TooMany { operand: 3 }), "the third list has more than 1,024 terms");
    assert_eq!(said(Refusal::TooMany { operand: 4 }), "the fourth list has more than 1,024 terms");
    assert_eq!(said(Refusal::TooMany { operand: 5 }), "list 5 has more than 1,024 terms");
    assert_eq!(said(Refusal::TooMany { operand: 0 }), "more than 64 parts or boards are given");
    assert_eq!(said(Refusal::Short { operand: 1 }), "the bytes end before the block does");
    assert_eq!(said(Refusal::Extra { operand: 1 }), "there are bytes after the block");
    assert_eq!(said(Refusal::Short { operand: 0 }), "the given lengths add to more words than were lent");
    assert_eq!(said(Refusal::Extra { operand: 0 }), "the given lengths add to fewer words than were lent");
    assert_eq!(said(Refusal::Shared), "a variable is in both lists");
    assert_eq!(said(Refusal::TooLarge { operand: 0 }), "the product would have more than 1,024 terms");
    assert_eq!(said(Refusal::TooLarge { operand: 1 }), "the text would have more than 65,536 bytes");
    assert_eq!(
        said(Refusal::Sign { place: 5 }),
        "no equation goes on with the byte at index 5 of the text, or it ends there too early"
    );
    assert_eq!(
        said(Refusal::Unknown { code: 16, operand: 2, place: 3 }),
        "refused for an unknown reason: code 16, operand 2, place 3"
    );
}

#[test]
fn each_has_its_own_sentence() {
    let said: HashSet<String> = TABLE.iter().map(|row| row.0.to_string()).collect();
    // the two kinds of room share theirs
    assert_eq!(said.len(), TABLE.len() - 1);
}

#[test]
fn it_is_an_error_to_pass_on() {
    fn passed() -> Result<(), Box<dyn Error + Send + Sync>> {
        Err(Refusal::Zero)?
    }
    let error = passed().expect_err("a refusal was passed on");
    assert_eq!(error.to_string(), "the list is empty: zero has no parts");
    assert_eq!(error.downcast_ref(), Some(&Refusal::Zero));
}
