//! The scene "at a band's limit": blocks with a default rate at one of the fourteen limits, or
//! above or below it by so little that a limit 1 ppm off would give another band.

use crate::draft::Draft;
use crate::generate::Generator;
use crate::pooling::Rate;
use crate::population::{announce, positive_shares};
use crate::random::Random;
use crate::script::{Call, MAX_LENT_NUMBERS};
use crate::table::{Table, MAX_GRADES, MAX_OBLIGORS, MILLION};
use std::cmp::Ordering::{Equal, Greater, Less};

/// Bands 0 to 13 have a limit, 14 has none.
const LIMIT_COUNT: u32 = 14;

/// On which side of a limit, in the order of the rates.
#[derive(Clone, Copy, Debug, PartialEq, Eq, PartialOrd, Ord)]
pub enum Side {
    /// By exactly 1 ppm. A limit less or more 1 ppm is a fraction of a million in lowest terms:
    /// only a block of all 1,000,000 obligors has such a rate.
    OneBelow,
    /// By less than 1 ppm.
    Below,
    At,
    /// By less than 1 ppm.
    Above,
    /// By exactly 1 ppm.
    OneAbove,
}

pub const SIDES: [Side; 5] = [
    Side::OneBelow,
    Side::Below,
    Side::At,
    Side::Above,
    Side::OneAbove,
];

/// A default rate at the limit of a band, or at most 1 ppm from it.
#[derive(Clone, Copy, Debug, PartialEq, Eq, PartialOrd, Ord)]
pub struct Edge {
    pub band: u32,
    pub side: Side,
}

pub fn every_edge() -> Vec<Edge> {
    let at_limit = |band| SIDES.map(|side| Edge { band, side });
    (0..LIMIT_COUNT).flat_map(at_limit).collect()
}

/// Those in turn that a table of one block has. Tables of several blocks leave out the sides that
/// need all obligors: these have more turns.
pub(crate) fn edges_in_turn() -> Vec<Edge> {
    let mut rare = every_edge();
    rare.retain(|edge| edge.needs_all_obligors());
    [every_edge(), rare.clone(), rare].concat()
}

impl Edge {
    /// None if the rate is further from every limit. No rate is that near to two.
    pub fn of(rate: &Rate) -> Option<Edge> {
        (0..LIMIT_COUNT).find_map(|band| {
            let side = side_of(rate, limit(band))?;
            Some(Edge { band, side })
        })
    }

    /// In ppm.
    pub fn limit(self) -> u64 {
        limit(self.band)
    }

    fn needs_all_obligors(self) -> bool {
        matches!(self.side, Side::OneBelow | Side::OneAbove)
    }

    /// Counts with this rate and at most so many obligors: of a size drawn, or the next larger one
    /// that can have it, else the next smaller.
    pub fn block(self, random: &mut Random, most: u64) -> Rate {
        let size = match self.needs_all_obligors() {
            true => MAX_OBLIGORS,
            false => any_size(random, most),
        };
        let closest = !self.needs_all_obligors() && random.chance(50);
        (size..=most)
            .chain((1..size).rev())
            .filter_map(|obligors| self.rate_among(obligors))
            .find(|rate| !closest || self.is_closest(rate))
            .expect("room for the fewest obligors that can have this rate")
    }

    fn rate_among(self, obligors: u64) -> Option<Rate> {
        let at = self.limit() * obligors;
        let defaults = match self.side {
            Side::At => at / MILLION,
            Side::Above | Side::OneAbove => at / MILLION + 1,
            Side::Below | Side::OneBelow => (at - 1) / MILLION,
        };
        let rate = Rate { defaults, obligors };
        (side_of(&rate, self.limit()) == Some(self.side)).then_some(rate)
    }

    /// At the limit, or as near as it gets: a million and the limit have in common the factor 100
    /// and, from band 4 on, four more factors 2.
    fn is_closest(self, rate: &Rate) -> bool {
        distance(rate, self.limit()) <= 100 << self.band.min(4)
    }
}

fn limit(band: u32) -> u64 {
    100 << band
}

/// In ppm, times the obligors.
fn distance(rate: &Rate, limit: u64) -> u64 {
    (rate.defaults * MILLION).abs_diff(limit * rate.obligors)
}

/// None if the rate is more than 1 ppm from the limit.
fn side_of(rate: &Rate, limit: u64) -> Option<Side> {
    let order = (rate.defaults * MILLION).cmp(&(limit * rate.obligors));
    match (order, distance(rate, limit).cmp(&rate.obligors)) {
        (_, Greater) => None,
        (Equal, _) => Some(Side::At),
        (Less, Less) => Some(Side::Below),
        (Less, Equal) => Some(Side::OneBelow),
        (Greater, Less) => Some(Side::Above),
        (Greater, Equal) => Some(Side::OneAbove),
    }
}

/// From one obligor to `most`, both often: the more obligors, the closer a rate can be.
fn any_size(random: &mut Random, most: u64) -> u64 {
    let up_to = random.pick(&[1, 10_000.min(most), 100_000.min(most), most, most, most]);
    match random.chance(25) {
        true => up_to,
        false => random.between(1, up_to),
    }
}

/// A table of one grade with this rate.
pub fn single_grade(random: &mut Random, edge: Edge) -> Table {
    let block = edge.block(random, MAX_OBLIGORS);
    Table::of_rows(&[(block.obligors, block.defaults)])
}

/// A table of several grades that pooling joins to this rate.
pub fn joined_grades(random: &mut Random, edge: Edge) -> Table {
    let block = edge.block(random, MAX_OBLIGORS);
    let grade_count = random.pick(&[2, 2, 3, 5, MAX_GRADES]);
    Table::of_rows(&split(random, &block, grade_count))
}

/// Rows (n, d) that pooling joins to this block, none of them near a limit by itself.
fn split(random: &mut Random, block: &Rate, grade_count: usize) -> Vec<(u64, u64)> {
    let is_near = |&(obligors, defaults): &(u64, u64)| {
        let rate = Rate { defaults, obligors };
        Edge::of(&rate).is_some()
    };
    loop {
        let rows = split_anyhow(random, block, grade_count);
        if !rows.iter().any(is_near) {
            return rows;
        }
    }
}

/// Wherever the rows are cut in two, the better part has the higher rate: so they are one block,
/// even where a rate rises from one row to the next.
fn split_anyhow(random: &mut Random, block: &Rate, grade_count: usize) -> Vec<(u64, u64)> {
    let sizes = positive_shares(random, block.obligors, grade_count);
    let (mut obligors, mut defaults) = (0, 0);
    let mut rows = Vec::new();
    for &size in &sizes[..grade_count - 1] {
        obligors += size;
        let in_proportion = block.defaults * obligors / block.obligors;
        let fewest = defaults.max(in_proportion + 1);
        let most = block.defaults.min(defaults + size);
        let any = random.between(fewest, most);
        let so_far = random.pick(&[fewest, any]);
        rows.push((size, so_far - defaults));
        defaults = so_far;
    }
    rows.push((block.obligors - obligors, block.defaults - defaults));
    rows
}

/// A table whose blocks have these rates, each below the next and none that needs all obligors.
/// There is room for two more grades.
pub fn rising_blocks(random: &mut Random, edges: &[Edge]) -> Table {
    let room = MAX_OBLIGORS / (edges.len() as u64 + 2);
    let most_grades = (MAX_GRADES - 2) / edges.len();
    let mut rows = Vec::new();
    for edge in edges {
        let block = edge.block(random, room);
        let grade_count = random.pick(&[1, 1, 2, 3]).min(most_grades);
        match grade_count {
            1 => rows.push((block.obligors, block.defaults)),
            _ => rows.extend(split(random, &block, grade_count)),
        }
    }
    Table::of_rows(&rows)
}

/// Blocks at different limits or on different sides of one, sometimes with rate 0 before them and
/// a rate far above the highest limit behind them.
fn several_blocks(random: &mut Random) -> Table {
    let mut edges = every_edge();
    edges.retain(|edge| !edge.needs_all_obligors());
    random.shuffle(&mut edges);
    edges.truncate(random.between(2, 14) as usize);
    edges.sort_unstable();
    let mut table = rising_blocks(random, &edges);
    let room = (MAX_OBLIGORS - table.obligors()) / 2;
    if random.chance(40) {
        table.grades.splice(0..0, no_defaults(random, room).grades);
    }
    if random.chance(40) {
        table.grades.extend(far_above(random, room).grades);
    }
    table
}

fn no_defaults(random: &mut Random, most: u64) -> Table {
    Table::of_rows(&[(any_size(random, most), 0)])
}

/// More than 1 ppm above the highest limit, up to rate 1.
fn far_above(random: &mut Random, most: u64) -> Table {
    let obligors = any_size(random, most);
    let too_few = (limit(LIMIT_COUNT - 1) + 1) * obligors / MILLION;
    let any = random.between(too_few + 1, obligors);
    Table::of_rows(&[(obligors, random.pick(&[any, obligors]))])
}

impl Generator {
    /// Mostly one block each, of every limit and side in turn.
    pub(crate) fn at_band_limit(&mut self) {
        let mut table = match self.random.between(0, 19) {
            0..=7 => {
                let edge = self.next_edge();
                single_grade(&mut self.random, edge)
            }
            8..=14 => {
                let edge = self.next_edge();
                joined_grades(&mut self.random, edge)
            }
            15..=18 => several_blocks(&mut self.random),
            _ if self.random.chance(50) => no_defaults(&mut self.random, MAX_OBLIGORS),
            _ => far_above(&mut self.random, MAX_OBLIGORS),
        };
        announce(&mut self.random, &mut table);
        let place = self.random.pick(&[1, 2]);
        self.empty(place);
        let draft = Draft::around(&mut self.random, &table);
        self.load(place, draft);
        let exact = 3 * table.grades.len() as u32;
        let length = self
            .random
            .pick(&[exact, exact, exact + 1, exact + 3, MAX_LENT_NUMBERS]);
        self.emit(Call::Pool { place, length });
    }
}
