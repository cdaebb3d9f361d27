//! What prints: the same texts as in Python's module.

use desk::{
    Cutoff, Fraction, Grade, Measures, Place, PooledGrade, Price, Refusal, Spread, Verdict,
    WrongCut,
};

fn fraction(numerator: i64, denominator: i64) -> Fraction {
    Fraction::new(numerator, denominator).expect("a positive denominator")
}

#[test]
fn a_fraction_is_a_decimal_and_as_written() {
    let prints = |n, d, text: &str| assert_eq!(fraction(n, d).to_string(), text);
    prints(2050, 2500, "0.820000 (2050/2500)");
    prints(-4, 4, "-1.000000 (-4/4)");
    prints(0, 4, "0.000000 (0/4)");
    prints(2, 3, "0.666667 (2/3)");
    prints(-1, 2_000_000, "-0.000001 (-1/2000000)");
    prints(-1, 2_000_001, "0.000000 (-1/2000001)");
    prints(19_999_999, 2_000_000, "10.000000 (19999999/2000000)");
    prints(
        i64::MIN,
        1,
        "-9223372036854775808.000000 (-9223372036854775808/1)",
    );
    prints(1, i64::MAX, "0.000000 (1/9223372036854775807)");
}

#[test]
fn a_precision_is_the_number_of_places() {
    assert_eq!(format!("{:.2}", fraction(-1, 8)), "-0.13 (-1/8)");
    assert_eq!(format!("{:.2}", fraction(-1, 1000)), "0.00 (-1/1000)");
    assert_eq!(format!("{:.0}", fraction(1, 2)), "1 (1/2)");
    assert_eq!(format!("{:.0}", fraction(-1, 2)), "-1 (-1/2)");
    assert_eq!(format!("{:.0}", fraction(-49, 100)), "0 (-49/100)");
    assert_eq!(format!("{:.0}", fraction(19, 2)), "10 (19/2)");
    assert_eq!(
        format!("{:.50}", fraction(1, 8)),
        format!("0.125{} (1/8)", "0".repeat(47))
    );
    assert_eq!(
        format!("{:.45}", fraction(2, 3)),
        format!("0.{}7 (2/3)", "6".repeat(44))
    );
    let places = 3;
    assert_eq!(format!("{:.places$}", fraction(2, 3)), "0.667 (2/3)");
}

/// By the formula of the Python module, in whole numbers.
fn decimal(numerator: i64, denominator: i64, places: u32) -> String {
    let (unit, divisor) = (10_i64.pow(places), 2 * denominator);
    let units = (2 * numerator.abs() * unit + denominator) / divisor;
    let sign = if numerator < 0 && units != 0 { "-" } else { "" };
    let width = places as usize;
    format!("{sign}{}.{:0width$}", units / unit, units % unit)
}

#[test]
fn every_small_fraction_is_the_nearest_decimal() {
    for (numerator, denominator) in (-300..=300).flat_map(|n| (1..=40).map(move |d| (n, d))) {
        for places in 1..=4 {
            let expected = decimal(numerator, denominator, places);
            let places = places as usize;
            let printed = format!("{:.places$}", fraction(numerator, denominator));
            assert_eq!(printed, format!("{expected} ({numerator}/{denominator})"));
        }
    }
}

#[test]
fn a_width_pads_and_nothing_is_cut() {
    assert_eq!(
        format!("[{:>18.2}]", fraction(41, 50)),
        "[      0.82 (41/50)]"
    );
    assert_eq!(format!("[{:<14.2}]", fraction(41, 50)), "[0.82 (41/50)  ]");
    assert_eq!(format!("[{:14.2}]", fraction(41, 50)), "[0.82 (41/50)  ]");
    assert_eq!(
        format!("[{:*^17.2}]", fraction(41, 50)),
        "[**0.82 (41/50)***]"
    );
    assert_eq!(format!("[{:3.2}]", fraction(41, 50)), "[0.82 (41/50)]");
    assert_eq!(format!("[{:>5}]", Price { u: 3, v: 2 }), "[  3:2]");
    assert_eq!(format!("{:.1}", Refusal::Empty), "refused 22: place empty");
    assert_eq!(
        format!("[{:-<24}]", Refusal::Empty),
        "[refused 22: place empty-]"
    );
    let cut = WrongCut::Leftover {
        rater: 2,
        end: 52,
        bytes: 1,
    };
    let words = "byte 52: the table of rater 2, the last, ends here; bytes that follow it: 1, expected none";
    assert_eq!(format!("[{cut:>94.2}]"), format!("[    {words}]"));
    assert_eq!(format!("[{cut:.<91}]"), format!("[{words}.]"));
    assert_eq!(format!("[{cut:5}]"), format!("[{words}]"));
}

#[test]
fn a_refusal_has_its_number() {
    let unlike = "refused 25: D or S differ between the places (D: defaults, S: survivors)";
    assert_eq!(Refusal::Unlike.to_string(), unlike);
    for refusal in Refusal::ALL {
        let expected = format!("refused {}: {}", refusal.number(), refusal.meaning());
        assert_eq!(refusal.to_string(), expected);
    }
}

#[test]
fn a_verdict_is_a_sentence_with_the_prices_that_show_it() {
    let (first_dearer, second_dearer) = (Price { u: 6, v: 4 }, Price { u: 1, v: 3 });
    let crossing = Verdict::Crossing {
        first_dearer,
        second_dearer,
    };
    let prints = |verdict: Verdict, text: &str| assert_eq!(verdict.to_string(), text);
    prints(
        Verdict::Equal,
        "the first and the second are equal: both cost the same at all prices.",
    );
    prints(
        Verdict::First { second_dearer },
        "the first is better than the second: it costs more at no prices, and less at some. At 1:3 the second costs more.",
    );
    prints(
        Verdict::Second { first_dearer },
        "the second is better than the first: it costs more at no prices, and less at some. At 3:2 the first costs more.",
    );
    prints(
        crossing,
        "the first and the second cross: neither is better, each costs less than the other at some prices. \
         At 3:2 the first costs more. At 1:3 the second costs more.",
    );
}

#[test]
fn a_price_is_a_ratio() {
    let price = |u, v| Price { u, v };
    assert_eq!(price(6, 4).to_string(), "6:4");
    let reduced = |u, v| price(u, v).reduced();
    assert_eq!([reduced(6, 4), reduced(4, 6)], [price(3, 2), price(2, 3)]);
    assert_eq!(
        [reduced(0, 7), reduced(7, 0), reduced(0, 0)],
        [price(0, 1), price(1, 0), price(0, 0)]
    );
    assert_eq!(reduced(u32::MAX, u32::MAX), price(1, 1));
    let high = price(2_500_000_000, 2_499_950_000); // on shares
    assert_eq!(high.to_string(), "2500000000:2499950000");
    assert_eq!(high.reduced(), price(50_000, 49_999));
}

#[test]
fn answers_print_in_one_line() {
    assert_eq!(
        Cutoff { cutoff: 1, cost: 2 }.to_string(),
        "cutoff 1, cost 2"
    );
    assert_eq!(
        [Place::First, Place::Second].map(|place| place.to_string()),
        ["place 1", "place 2"]
    );
    let pooled = PooledGrade {
        defaults: 2,
        obligors: 3,
        band: 13,
    };
    assert_eq!(pooled.to_string(), "0.666667 (2/3), band 13");
    assert_eq!(format!("{pooled:.1}"), "0.7 (2/3), band 13");
    let spread = Spread {
        total: 1.5,
        residual: 0.1,
    };
    assert_eq!(spread.to_string(), "1.5 in all, 0.1 within the blocks");
    assert_eq!(
        format!("{spread:.3}"),
        "1.500 in all, 0.100 within the blocks"
    );
    let grade = Grade {
        obligors: 5,
        defaults: 2,
        announced: 400_000,
    };
    assert_eq!(
        grade.to_string(),
        "5 obligors = 3 survivors + 2 defaults, announced 400000 ppm"
    );
    let empty = Grade {
        obligors: 0,
        defaults: 0,
        announced: 100,
    };
    assert_eq!(
        empty.to_string(),
        "0 obligors = 0 survivors + 0 defaults, announced 100 ppm"
    );
}

#[test]
fn measures_print_in_one_line() {
    let measures = Measures {
        defaults: 3,
        survivors: 4,
        gini: fraction(-1, 12),
        roc: fraction(11, 24),
        cap: fraction(20, 42),
        pietra: fraction(-5, 12),
        cutoff: 5,
    };
    assert_eq!(
        measures.to_string(),
        "Gini -0.083333 (-1/12), ROC area 0.458333 (11/24), CAP area 0.476190 (20/42), \
         Pietra -0.416667 (-5/12) at cutoff 5; 3 defaults, 4 survivors"
    );
    assert_eq!(
        format!("{measures:.1}"),
        "Gini -0.1 (-1/12), ROC area 0.5 (11/24), CAP area 0.5 (20/42), \
         Pietra -0.4 (-5/12) at cutoff 5; 3 defaults, 4 survivors"
    );
}
