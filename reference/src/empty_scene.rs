//! The scene "some grades empty", for request R-4 of document 02: tables with runs of empty grades
//! before, in, between and behind their blocks.

use crate::draft::Draft;
use crate::generate::Generator;
use crate::partners::partner;
use crate::pooling::{blocks, Block};
use crate::population::{announce, any_table, positive_shares};
use crate::random::Random;
use crate::script::{Call, MAX_LENT_NUMBERS};
use crate::table::{Grade, Table, MAX_GRADES};
use std::fmt;

/// Where a run of empty grades stands, in the order of the grades.
#[derive(Clone, Copy, Debug, PartialEq, Eq, PartialOrd, Ord)]
pub enum Stand {
    BeforeBest,
    InsideBlock,
    BetweenBlocks,
    BehindWorst,
}

pub const STANDS: [Stand; 4] = [
    Stand::BeforeBest,
    Stand::InsideBlock,
    Stand::BetweenBlocks,
    Stand::BehindWorst,
];

impl fmt::Display for Stand {
    fn fmt(&self, out: &mut fmt::Formatter) -> fmt::Result {
        out.write_str(match self {
            Stand::BeforeBest => "before the best occupied grade",
            Stand::InsideBlock => "inside a block",
            Stand::BetweenBlocks => "between two blocks",
            Stand::BehindWorst => "behind the worst occupied grade",
        })
    }
}

/// The runs of empty grades of a loaded table, best first: where each stands and how many grades
/// it has.
pub fn empty_runs(table: &Table) -> Vec<(Stand, usize)> {
    let blocks = blocks(table);
    let mut runs = Vec::new();
    let mut length = 0;
    for (index, grade) in table.grades.iter().enumerate() {
        if grade.is_occupied() {
            if length > 0 {
                runs.push((stand_before(&blocks, index), length));
            }
            length = 0;
        } else {
            length += 1;
        }
    }
    if length > 0 {
        runs.push((Stand::BehindWorst, length));
    }
    runs
}

/// Where empty grades stand that are just before this occupied grade, or would stand there.
fn stand_before(blocks: &[Block], index: usize) -> Stand {
    match blocks.iter().position(|block| block.first == index) {
        Some(0) => Stand::BeforeBest,
        Some(_) => Stand::BetweenBlocks,
        None => Stand::InsideBlock,
    }
}

/// Which grades of a table are empty.
#[derive(Clone, Debug, PartialEq, Eq)]
pub enum Pattern {
    /// A run at each of these.
    Runs(Vec<Stand>),
    /// From the best grade or the one behind it on.
    EverySecond,
    AllButOne,
}

/// Runs at every choice of places; the other patterns a few times more than each of these.
pub fn every_pattern() -> Vec<Pattern> {
    let chosen = |choice: u32| {
        let stands = STANDS.into_iter().enumerate();
        stands.filter_map(move |(bit, stand)| (choice >> bit & 1 == 1).then_some(stand))
    };
    let runs = (1..1 << STANDS.len()).map(|choice| Pattern::Runs(chosen(choice).collect()));
    let others = [Pattern::EverySecond, Pattern::AllButOne];
    runs.chain(others.into_iter().cycle().take(6)).collect()
}

impl Pattern {
    /// A valid table whose empty grades are these.
    pub fn table(&self, random: &mut Random) -> Table {
        let mut table = match self {
            Pattern::Runs(stands) => with_runs(random, stands),
            Pattern::EverySecond => every_second(random),
            Pattern::AllButOne => all_but_one(random),
        };
        announce(random, &mut table);
        table
    }
}

/// The table without its empty grades.
pub fn without_empty(table: &Table) -> Table {
    let mut table = table.clone();
    table.grades.retain(Grade::is_occupied);
    table
}

/// Puts so many empty grades into each of these gaps of a table. A gap is the place before the
/// grade of its index; the last one is behind the worst grade.
fn insert_empty(table: &Table, runs: &[(usize, usize)]) -> Table {
    let nobody = Grade {
        obligors: 0,
        defaults: 0,
        announced: 0,
    };
    let mut grades = Vec::new();
    for gap in 0..=table.grades.len() {
        for run in runs.iter().filter(|run| run.0 == gap) {
            grades.extend(vec![nobody; run.1]);
        }
        grades.extend(table.grades.get(gap));
    }
    Table { grades }
}

/// Where empty grades would stand in each gap of a table that has none.
fn stands_of_gaps(table: &Table) -> Vec<Stand> {
    let blocks = blocks(table);
    (0..table.grades.len())
        .map(|gap| stand_before(&blocks, gap))
        .chain([Stand::BehindWorst])
        .collect()
}

/// A table without empty grades that leaves room for so many.
fn occupied_table(random: &mut Random, room: usize) -> Table {
    let mut table = without_empty(&any_table(random));
    table.grades.truncate(MAX_GRADES - room);
    table
}

/// How many empty grades there are in each of so many gaps: often one, and often as many as 40
/// grades allow.
fn run_lengths(random: &mut Random, occupied: usize, gaps: usize) -> Vec<usize> {
    let most = MAX_GRADES - occupied;
    let any = random.between(gaps as u64, most as u64);
    let few = (gaps as u64 + 2).min(most as u64);
    let total = random.weighted(&[(3, gaps as u64), (3, few), (3, any), (2, most as u64)]);
    let lengths = positive_shares(random, total, gaps);
    lengths.into_iter().map(|length| length as usize).collect()
}

fn fill_gaps(random: &mut Random, table: &Table, gaps: &[usize]) -> Table {
    let lengths = run_lengths(random, table.grades.len(), gaps.len());
    let runs: Vec<(usize, usize)> = gaps.iter().copied().zip(lengths).collect();
    insert_empty(table, &runs)
}

fn with_runs(random: &mut Random, stands: &[Stand]) -> Table {
    loop {
        let table = occupied_table(random, stands.len());
        let of_gaps = stands_of_gaps(&table);
        // Not every table has two blocks, or a block of two grades.
        if !stands.iter().all(|stand| of_gaps.contains(stand)) {
            continue;
        }
        let mut gap_at = |stand: &Stand| loop {
            let gap = random.index(of_gaps.len());
            if of_gaps[gap] == *stand {
                return gap;
            }
        };
        let gaps: Vec<usize> = stands.iter().map(&mut gap_at).collect();
        return fill_gaps(random, &table, &gaps);
    }
}

fn every_second(random: &mut Random) -> Table {
    let table = occupied_table(random, MAX_GRADES / 2);
    let first = random.index(2);
    let runs: Vec<(usize, usize)> = (0..table.grades.len())
        .map(|index| (index + first, 1))
        .collect();
    insert_empty(&table, &runs)
}

fn all_but_one(random: &mut Random) -> Table {
    let table = occupied_table(random, MAX_GRADES - 1);
    let gaps: &[usize] = match random.between(0, 2) {
        0 => &[0],
        1 => &[1],
        _ => &[0, 1],
    };
    fill_gaps(random, &table, gaps)
}

/// The same obligors in the same order, among other empty grades. The table has some, so that there
/// is room.
pub fn with_other_empty(random: &mut Random, table: &Table) -> Table {
    let occupied = without_empty(table);
    let mut gaps: Vec<usize> = (0..=occupied.grades.len()).collect();
    random.shuffle(&mut gaps);
    let most = (MAX_GRADES - occupied.grades.len()).min(gaps.len());
    gaps.truncate(random.between(1, most.min(4) as u64) as usize);
    let mut table = fill_gaps(random, &occupied, &gaps);
    announce(random, &mut table);
    table
}

impl Generator {
    /// A table with empty grades is asked everything, compared with one over the same obligors,
    /// and sometimes written and loaded back.
    pub(crate) fn some_empty(&mut self) {
        let pattern = self.next_pattern();
        let table = pattern.table(&mut self.random);
        let place = self.random.pick(&[1, 2]);
        self.empty(place);
        let draft = Draft::around(&mut self.random, &table);
        self.load(place, draft);
        self.pool_both_ways(place, &table);
        self.emit(Call::Measures { place });
        self.emit(Call::Brier { place });
        self.emit(Call::Spread { place });
        for _ in 0..2 {
            let (u, v) = self.prices(place);
            self.emit(Call::Cheapest { place, u, v });
        }
        self.compare_with(3 - place, &table);
        if self.random.chance(50) {
            self.write_and_load();
        }
    }

    /// Into a buffer that is long enough, and into one that is too short, often by just the
    /// numbers of the empty grades.
    fn pool_both_ways(&mut self, place: u32, table: &Table) {
        let exact = 3 * table.grades.len() as u32;
        let of_occupied = 3 * table.occupied() as u32;
        let long = self
            .random
            .pick(&[exact, exact, exact + 1, exact + 3, MAX_LENT_NUMBERS]);
        let short = self
            .random
            .pick(&[of_occupied, of_occupied, exact - 1, exact - 3]);
        let mut lengths = [long, short];
        self.random.shuffle(&mut lengths);
        for length in lengths {
            self.emit(Call::Pool { place, length });
        }
    }

    /// The table is compared with itself without its empty grades or with others, or with another
    /// rater's table.
    fn compare_with(&mut self, other_place: u32, table: &Table) {
        let other = match self.random.between(0, 3) {
            0 => without_empty(table),
            1 => with_other_empty(&mut self.random, table),
            _ => partner(&mut self.random, table),
        };
        self.empty(other_place);
        let draft = Draft::around(&mut self.random, &other);
        self.load(other_place, draft);
        self.compare_both_ways();
    }
}
