//! The spread record.
use super::Pooled;

pub struct Spread {
    pub total: f64,
    pub residual: f64,
}

fn quotient(obligors: u32, defaults: u32) -> f64 {
    (i64::from(defaults) * i64::from(obligors - defaults)) as f64 / f64::from(obligors)
}

/// Along the pooled list: a grade with the counts of the one before is of its block.
pub fn spread(pooled: &Pooled) -> Spread {
    let totals = pooled.table.totals();
    let mut residual = 0.0;
    let mut before = [0; 2];
    for &[defaults, obligors, _] in pooled.list {
        if [defaults, obligors] != before {
            residual += quotient(obligors, defaults);
            before = [defaults, obligors];
        }
    }
    Spread {
        total: quotient(totals.obligors, totals.defaults),
        residual,
    }
}
