//! Numbers of the C interface, there and back.

use desk::{Place, Price, Refusal, Verdict, sys};

fn numbers() -> impl Iterator<Item = u32> {
    (0..1000).chain([1 << 16, (1 << 16) + 1, 1 << 31, u32::MAX])
}

#[test]
fn refusals_have_their_numbers_and_no_others() {
    for number in numbers() {
        let expected = Refusal::ALL
            .iter()
            .find(|refusal| refusal.number() == number);
        match Refusal::try_from(number) {
            Ok(refusal) => assert_eq!((Some(&refusal), u32::from(refusal)), (expected, number)),
            Err(unknown) => {
                assert_eq!((expected, unknown.number()), (None, number));
                assert_eq!(
                    unknown.to_string(),
                    format!("{number} is not the number of a refusal")
                );
            }
        }
    }
    assert_eq!(
        numbers()
            .filter(|&number| Refusal::try_from(number).is_ok())
            .count(),
        25
    );
}

/// Document 02 has three numbers for what document 01 gave 5 for.
#[test]
fn number_5_is_never_given() {
    let unknown = Refusal::try_from(5).expect_err("no call answers 5");
    assert_eq!(unknown.number(), 5);
    let layout = [31, 32, 33].map(Refusal::try_from);
    let expected = [Refusal::TableStart, Refusal::TableEnd, Refusal::Leftover];
    assert_eq!(layout, expected.map(Ok));
}

/// Document 02, R-5.
#[test]
fn number_34_is_a_falling_rate() {
    assert_eq!(Refusal::try_from(34), Ok(Refusal::FallingRate));
    assert_eq!(
        Refusal::FallingRate.to_string(),
        "refused 34: announced rate below that of the row before"
    );
}

/// Document 02, R-6.
#[test]
fn number_35_is_a_large_table() {
    assert_eq!(Refusal::try_from(35), Ok(Refusal::LargeTable));
    assert_eq!(
        Refusal::LargeTable.to_string(),
        "refused 35: N above 100,000 (compare on shares; N: obligors of the table)"
    );
}

/// Document 02, R-8.
#[test]
fn numbers_36_to_38_are_of_events() {
    let events = [Refusal::NoGrade, Refusal::NoFirm, Refusal::FullTable];
    assert_eq!([36, 37, 38].map(Refusal::try_from), events.map(Ok));
    assert_eq!(
        Refusal::NoGrade.to_string(),
        "refused 36: grade outside the table"
    );
}

#[test]
fn places_and_refusals_are_ordered_by_number() {
    assert!(Place::First < Place::Second);
    for &one in Refusal::ALL {
        for &other in Refusal::ALL {
            assert_eq!(one.cmp(&other), one.number().cmp(&other.number()));
        }
    }
}

#[test]
fn places_are_1_and_2() {
    for number in numbers() {
        let expected = match number {
            1 => Ok(Place::First),
            2 => Ok(Place::Second),
            _ => Err(Refusal::Place),
        };
        assert_eq!(Place::try_from(number), expected);
        assert!(expected.is_err() || expected.map(u32::from) == Ok(number));
    }
}

#[test]
fn a_verdict_has_the_prices_of_its_kind() {
    let (first_dearer, second_dearer) = (Price { u: 3, v: 2 }, Price { u: 1, v: 3 });
    let of_kind = |kind| {
        Verdict::try_from(sys::Verdict {
            kind,
            first_dearer,
            second_dearer,
        })
    };
    let expected = [
        Verdict::Equal,
        Verdict::First { second_dearer },
        Verdict::Second { first_dearer },
        Verdict::Crossing {
            first_dearer,
            second_dearer,
        },
    ];
    for (kind, verdict) in (0..).zip(expected) {
        assert_eq!(of_kind(kind), Ok(verdict));
    }
    for kind in numbers().skip(4) {
        let words = of_kind(kind).map_err(|unknown| unknown.to_string());
        assert_eq!(words, Err(format!("{kind} is not the kind of a verdict")));
    }
}

#[test]
fn a_verdict_says_who_is_dearer_where() {
    let price = Price { u: 3, v: 2 };
    let other = Price { u: 1, v: 3 };
    let crossing = Verdict::Crossing {
        first_dearer: price,
        second_dearer: other,
    };
    let dearer = |verdict: Verdict| (verdict.first_dearer(), verdict.second_dearer());
    assert_eq!(dearer(Verdict::Equal), (None, None));
    assert_eq!(
        dearer(Verdict::First {
            second_dearer: price
        }),
        (None, Some(price))
    );
    assert_eq!(
        dearer(Verdict::Second {
            first_dearer: price
        }),
        (Some(price), None)
    );
    assert_eq!(dearer(crossing), (Some(price), Some(other)));
}
