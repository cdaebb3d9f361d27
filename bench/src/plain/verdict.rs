//! The verdict on two scales, by counts or by shares.
use super::{Numbers, Table, Totals, GRADES};

/// The prices of a missed default and of a survivor turned away.
#[derive(Clone, Copy)]
pub struct Price {
    pub u: u32,
    pub v: u32,
}

#[derive(Clone, Copy)]
pub enum Verdict {
    Equal,
    First(Price),
    Second(Price),
    Crossing(Price, Price),
}

/// How often each default and each survivor of a scale counts.
#[derive(Clone, Copy)]
struct Weights {
    defaults: u32,
    survivors: u32,
}

impl Weights {
    const ONCE: Weights = Weights { defaults: 1, survivors: 1 };

    /// Shares times D and S of both tables are counts, each table's in the other's totals.
    fn of_other(totals: Totals) -> Weights {
        Weights {
            defaults: totals.defaults,
            survivors: totals.obligors - totals.defaults,
        }
    }

    fn weigh(self, obligors: u32, defaults: u32) -> Block {
        Block {
            defaults: i64::from(self.defaults) * i64::from(defaults),
            survivors: i64::from(self.survivors) * i64::from(obligors - defaults),
        }
    }

    /// The break-even prices of a block in these weights, where the other scale has those.
    fn price(self, block: &Block, other: Weights) -> Price {
        let survivors = block.survivors / i64::from(self.survivors);
        let defaults = block.defaults / i64::from(self.defaults);
        Price {
            u: survivors as u32 * other.defaults,
            v: defaults as u32 * other.survivors,
        }
    }
}

/// What a run of neighbouring grades weighs. On shares a scale weighs D1 D2 and S1 S2 in all, and D S of a table of at most 100,000 obligors is at
/// most 50,000 times 50,000: so defaults times survivors, of whichever scales, are at most 2,500,000,000 squared, which is below 2^63.
#[derive(Clone, Copy)]
pub struct Block {
    defaults: i64,
    survivors: i64,
}

impl Block {
    /// By odds, which both weights leave in order.
    fn is_below(&self, next: &Block) -> bool {
        self.defaults * next.survivors < next.defaults * self.survivors
    }

    fn add(&mut self, other: &Block) {
        self.defaults += other.defaults;
        self.survivors += other.survivors;
    }

    fn subtract(&mut self, other: &Block) {
        self.defaults -= other.defaults;
        self.survivors -= other.survivors;
    }
}

/// The blocks of a scale, the worst first. They count no grades, which only pool asks for, and are weighed when they are stored: once, where
/// a sweep would weigh each block whenever it looks at it.
pub struct Scale {
    defaults: [i64; GRADES],
    survivors: [i64; GRADES],
    count: usize,
}

impl Scale {
    pub const NONE: Scale = Scale {
        defaults: [0; GRADES],
        survivors: [0; GRADES],
        count: 0,
    };

    /// The last of `count` blocks, if there is one. For none the index is past the end: one test for both.
    fn last(&self, count: usize) -> Option<Block> {
        let at = count.wrapping_sub(1);
        Some(Block {
            defaults: *self.defaults.get(at)?,
            survivors: *self.survivors.get(at)?,
        })
    }

    /// From the worst grade to the best. An empty grade is below none, so it joins the block behind it, or the grade before it joins it.
    pub fn pool(&mut self, table: &Table) {
        let mut count = 0;
        for (obligors, defaults) in table.counts().rev() {
            let mut block = Weights::ONCE.weigh(obligors, defaults);
            while let Some(next) = self.last(count) {
                if block.is_below(&next) {
                    break;
                }
                block.add(&next);
                count -= 1;
            }
            (self.defaults[count], self.survivors[count]) = (block.defaults, block.survivors);
            count += 1;
        }
        self.count = count;
    }

    /// From a pooled list, in which a grade with the counts of the one before is of its block.
    #[inline(always)] // so that weights of 1 cost nothing
    fn read(&mut self, list: &[Numbers], weights: Weights) {
        let mut count = 0;
        let mut before = (0, 0);
        for &[defaults, obligors, _] in list.iter().rev() {
            if (defaults, obligors) != before {
                let block = weights.weigh(obligors, defaults);
                (self.defaults[count], self.survivors[count]) = (block.defaults, block.survivors);
                count += 1;
                before = (defaults, obligors);
            }
        }
        self.count = count;
    }

    fn worst_first(&self) -> impl Iterator<Item = Block> + '_ {
        let columns = self.defaults[..self.count].iter().zip(&self.survivors[..self.count]);
        columns.map(|(&defaults, &survivors)| Block { defaults, survivors })
    }
}

/// A block of the first at whose break-even prices the first costs more; both weigh the same in all. They are tried from the worst block on:
/// there it is cheapest to turn away the worse blocks of the first, and of the second those whose survivors cost no more than their defaults.
/// What decides is by how much more the second turns away: whether the defaults of this lead save more than its survivors cost.
pub fn where_dearer(first: &Scale, second: &Scale) -> Option<Block> {
    let mut lead = Block { defaults: 0, survivors: 0 };
    let mut others = second.worst_first();
    let mut next = others.next();
    for block in first.worst_first() {
        while let Some(other) = next.filter(|other| !other.is_below(&block)) {
            lead.add(&other);
            next = others.next();
        }
        if block.survivors * lead.defaults > block.defaults * lead.survivors {
            return Some(block);
        }
        lead.subtract(&block);
    }
    None
}

#[inline(always)] // so that weights of 1 cost nothing
fn judge_weighed([first, second]: [&[Numbers]; 2], [ours, theirs]: [Weights; 2]) -> Verdict {
    let (mut one, mut two) = (Scale::NONE, Scale::NONE);
    one.read(first, ours);
    two.read(second, theirs);
    let first_dearer = where_dearer(&one, &two).map(|block| ours.price(&block, theirs));
    let second_dearer = where_dearer(&two, &one).map(|block| theirs.price(&block, ours));
    match (first_dearer, second_dearer) {
        (None, None) => Verdict::Equal,
        (None, Some(q)) => Verdict::First(q),
        (Some(p), None) => Verdict::Second(p),
        (Some(p), Some(q)) => Verdict::Crossing(p, q),
    }
}

/// On the pooled lists of tables of the same D and S.
pub fn judge(lists: [&[Numbers]; 2]) -> Verdict {
    judge_weighed(lists, [Weights::ONCE; 2])
}

/// On the pooled lists of tables of these totals.
pub fn judge_shares(lists: [&[Numbers]; 2], [first, second]: [Totals; 2]) -> Verdict {
    judge_weighed(lists, [Weights::of_other(second), Weights::of_other(first)])
}
