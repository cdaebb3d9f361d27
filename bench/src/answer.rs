//! What a call answered, in one form for all versions.
use crate::cases::{Call, Case};
use crate::{plain, proved};
use reference::compare::{dearer, dearer_on_shares, Dearer};
use reference::cutoff::{Price, Verdict};
use reference::spread::lawful;
use reference::table::Table;

#[derive(Clone, Debug, PartialEq)]
pub enum Answer {
    Refused(u32),
    Done,
    Numbers(Vec<i64>),
    Verdict(Verdict),
    Spread { total: f64, residual: f64 },
}

impl Answer {
    /// Whether this answer says the same as the other to a case's call: price pairs and floats by what documents 01 and 02 ask of them.
    pub fn agrees(&self, other: &Answer, case: &Case) -> bool {
        let table = &case.tables[0];
        match (self, other) {
            (Answer::Verdict(one), Answer::Verdict(two)) => {
                std::mem::discriminant(one) == std::mem::discriminant(two) && shown(one, case) && shown(two, case)
            }
            (Answer::Spread { .. }, Answer::Spread { .. }) => self.is_lawful(table) && other.is_lawful(table),
            _ => self == other,
        }
    }

    fn is_lawful(&self, table: &Table) -> bool {
        matches!(self, Answer::Spread { total, residual } if lawful(table, total.to_bits(), residual.to_bits()))
    }
}

/// Whether the price pairs of a verdict are in range and show what it says.
fn shown(verdict: &Verdict, case: &Case) -> bool {
    let (first, second) = (&case.tables[0], &case.tables[1]);
    let dearer: Dearer = match case.call {
        Call::CompareShares => dearer_on_shares,
        _ => dearer,
    };
    match verdict {
        Verdict::Equal => true,
        Verdict::First(price) => dearer(second, first, price),
        Verdict::Second(price) => dearer(first, second, price),
        Verdict::Crossing(p, q) => dearer(first, second, p) && dearer(second, first, q),
    }
}

/// `From` for the result of a call, by how its answer is made uniform.
macro_rules! uniform {
    ($($answer:ty: $how:expr;)*) => {$(
        impl From<Result<$answer, u32>> for Answer {
            fn from(result: Result<$answer, u32>) -> Answer {
                result.map_or_else(Answer::Refused, $how)
            }
        }
    )*};
}

uniform! {
    (): |()| Answer::Done;
    usize: |length| Answer::Numbers(vec![length as i64]);
    proved::Cutoff: |c| Answer::Numbers(vec![c.cutoff, c.cost]);
    plain::Cheapest: |c| Answer::Numbers(vec![c.cutoff.into(), c.cost as i64]);
    (u32, u64): |(cutoff, cost)| Answer::Numbers(vec![cutoff.into(), cost as i64]);
    proved::Fraction: |f| Answer::Numbers(vec![f.numerator(), f.denominator()]);
    plain::Fraction: |f| Answer::Numbers(vec![f.numerator, f.denominator]);
    (u64, u64): |(numerator, denominator)| Answer::Numbers(vec![numerator as i64, denominator as i64]);
    proved::Measures: |m| {
        let fractions = [m.gini, m.roc, m.cap, m.pietra].map(proved::Fraction::written);
        measures(m.defaults, m.survivors, fractions, m.cutoff)
    };
    plain::Measures: |m| {
        let fractions = [m.gini, m.roc, m.cap, m.pietra].map(|f| (f.numerator, f.denominator));
        measures(m.defaults.into(), m.survivors.into(), fractions, m.cutoff.into())
    };
    reference::measures::Measures: |m| {
        let fractions = [m.gini, m.roc, m.cap, m.pietra];
        measures(m.defaults as i64, m.survivors as i64, fractions, m.pietra_cutoff.into())
    };
    proved::Verdict: |v| {
        let (p, q) = (price(v.first_dearer.u, v.first_dearer.v), price(v.second_dearer.u, v.second_dearer.v));
        Answer::Verdict(match v.kind {
            0 => Verdict::Equal,
            1 => Verdict::First(q),
            2 => Verdict::Second(p),
            _ => Verdict::Crossing(p, q),
        })
    };
    plain::Verdict: |v| Answer::Verdict(match v {
        plain::Verdict::Equal => Verdict::Equal,
        plain::Verdict::First(q) => Verdict::First(price(q.u, q.v)),
        plain::Verdict::Second(p) => Verdict::Second(price(p.u, p.v)),
        plain::Verdict::Crossing(p, q) => Verdict::Crossing(price(p.u, p.v), price(q.u, q.v)),
    });
    Verdict: Answer::Verdict;
    proved::Spread: |s| Answer::Spread { total: s.total, residual: s.residual };
    plain::Spread: |s| Answer::Spread { total: s.total, residual: s.residual };
    reference::spread::Spread: |s| Answer::Spread { total: s.total, residual: s.residual };
}

fn price(u: u32, v: u32) -> Price {
    Price {
        missed_default: u.into(),
        lost_survivor: v.into(),
    }
}

fn measures(defaults: i64, survivors: i64, fractions: [(i64, i64); 4], cutoff: i64) -> Answer {
    let mut numbers = vec![defaults, survivors];
    numbers.extend(fractions.iter().flat_map(|&(numerator, denominator)| [numerator, denominator]));
    numbers.push(cutoff);
    Answer::Numbers(numbers)
}
