//! The cheapest cutoff.
use super::Table;

#[derive(Clone, Copy)]
pub struct Cheapest {
    pub cutoff: u32,
    pub cost: u64,
}

/// From the worst grade to the best: accepting a grade adds its defaults, turning it away costs the survivors of all passed.
pub fn cheapest(table: &Table, u: u32, v: u32) -> Cheapest {
    let (u, v) = (u64::from(u), u64::from(v));
    let mut best = Cheapest { cutoff: 0, cost: 0 };
    let mut passed = 0u32;
    for (turned, (n, d)) in (1..).zip(table.counts().rev()) {
        passed += n - d;
        let away = v * u64::from(passed);
        best.cost += u * u64::from(d);
        if away < best.cost {
            best = Cheapest {
                cutoff: turned,
                cost: away,
            };
        }
    }
    best
}
