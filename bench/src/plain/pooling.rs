//! The blocks of a table by one pass with a stack, and the numbers that pool writes.
use super::{Numbers, Table, GRADES, MILLION};

/// A run of neighbouring grades.
#[derive(Clone, Copy)]
pub struct Block {
    pub grades: u32,
    pub obligors: u32,
    pub defaults: u32,
}

impl Block {
    fn is_below(&self, next: &Block) -> bool {
        u64::from(self.defaults) * u64::from(next.obligors) < u64::from(next.defaults) * u64::from(self.obligors)
    }

    fn joined(&self, next: &Block) -> Block {
        Block {
            grades: self.grades + next.grades,
            obligors: self.obligors + next.obligors,
            defaults: self.defaults + next.defaults,
        }
    }
}

/// A stack of blocks, the worst at the bottom, column by column: that costs fewer instructions than an array of blocks.
pub struct Blocks {
    grades: [u32; GRADES],
    obligors: [u32; GRADES],
    defaults: [u32; GRADES],
    count: usize,
}

impl Blocks {
    pub const NONE: Blocks = Blocks {
        grades: [0; GRADES],
        obligors: [0; GRADES],
        defaults: [0; GRADES],
        count: 0,
    };

    fn get(&self, at: usize) -> Block {
        Block {
            grades: self.grades[at],
            obligors: self.obligors[at],
            defaults: self.defaults[at],
        }
    }

    fn set(&mut self, at: usize, block: &Block) {
        self.grades[at] = block.grades;
        self.obligors[at] = block.obligors;
        self.defaults[at] = block.defaults;
    }

    /// Puts a block before `count` others: it takes in those after it for as long as its rate is not below theirs. Answers how many there
    /// are then.
    fn push(&mut self, mut block: Block, mut count: usize) -> usize {
        while count > 0 {
            let next = self.get(count - 1);
            if block.is_below(&next) {
                break;
            }
            block = block.joined(&next);
            count -= 1;
        }
        self.set(count, &block);
        count + 1
    }

    /// From the worst grade to the best. The empty grades behind an occupied one are its own, and so are those before the best.
    pub fn pool(&mut self, table: &Table) {
        let mut count = 0;
        let mut grades = 1;
        for (obligors, defaults) in table.counts().rev() {
            if obligors == 0 {
                grades += 1;
                continue;
            }
            let block = Block {
                grades,
                obligors,
                defaults,
            };
            count = self.push(block, count);
            grades = 1;
        }
        self.grades[count - 1] += grades - 1;
        self.count = count;
    }

    pub fn worst_first(&self) -> impl DoubleEndedIterator<Item = Block> + '_ {
        let grades = self.grades[..self.count].iter();
        let counts = self.obligors[..self.count].iter().zip(&self.defaults[..self.count]);
        grades.zip(counts).map(|(&grades, (&obligors, &defaults))| Block {
            grades,
            obligors,
            defaults,
        })
    }
}

/// In ppm.
const BAND_LIMITS: [u32; 14] = [
    100, 200, 400, 800, 1_600, 3_200, 6_400, 12_800, 25_600, 51_200, 102_400, 204_800, 409_600, 819_200,
];

/// The numbers of each grade. Rates rise from block to block, so a block's band is looked for from the last one's on.
pub fn pool(table: &Table, numbers: &mut [Numbers]) {
    let mut blocks = Blocks::NONE;
    blocks.pool(table);
    let mut rows = numbers.iter_mut();
    let mut band = 0;
    for block in blocks.worst_first().rev() {
        let rate = u64::from(block.defaults) * u64::from(MILLION);
        let passes = |&limit: &u32| rate > u64::from(limit) * u64::from(block.obligors);
        while BAND_LIMITS.get(band).is_some_and(passes) {
            band += 1;
        }
        for row in rows.by_ref().take(block.grades as usize) {
            *row = [block.defaults, block.obligors, band as u32];
        }
    }
}
