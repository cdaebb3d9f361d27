//! The scenes of generated scripts: a few calls each that belong together.

use crate::book;
use crate::damage::{any_way, ways_from};
use crate::diagonal::table_for_pietra;
use crate::draft::Draft;
use crate::generate::Generator;
use crate::partners::{one_sided, other_obligors, partner, same_obligors};
use crate::population::{announce, any_table};
use crate::script::Call;
use crate::table::{Table, MAX_GRADES, MAX_OBLIGORS};

/// A scene's name, and what makes its calls.
pub type Scene = (&'static str, fn(&mut Generator));

/// How often each scene is taken, in proportion.
pub const SCENES: [(u64, Scene); 18] = [
    (36, ("two raters, same obligors", Generator::same_obligors)),
    (8, ("two raters, other obligors", Generator::other_obligors)),
    (12, ("one table, all questions", Generator::one_table)),
    (58, ("far from the diagonal", Generator::far_from_diagonal)),
    (56, ("damaged book", Generator::damaged_book)),
    (27, ("several faults at once", Generator::several_faults)),
    (38, ("book cut wrong", Generator::book_cut_wrong)),
    (30, ("two faults of a table", Generator::two_faults)),
    (2, ("junk for a book", Generator::junk_book)),
    (5, ("wandering calls", Generator::wandering)),
    (5, ("at the limits", Generator::limits)),
    (48, ("at a band's limit", Generator::at_band_limit)),
    (17, ("some grades empty", Generator::some_empty)),
    (19, ("all grades empty, or nearly", Generator::nearly_empty)),
    (21, ("announced rates out of step", Generator::out_of_step)),
    (40, ("raters of different books", Generator::other_books)),
    (34, ("shortlist of a whole book", Generator::whole_book)),
    (7, ("write and load back", Generator::write_and_load)),
];

impl Generator {
    fn same_obligors(&mut self) {
        let pair = same_obligors(&mut self.random);
        self.load_pair(pair);
        self.compare_both_ways();
        for _ in 0..self.random.between(0, 2) {
            self.question();
        }
        if self.random.chance(10) {
            let place = self.random.pick(&[1, 2]);
            self.empty(place);
            self.compare_both_ways();
        }
    }

    fn other_obligors(&mut self) {
        let pair = match self.random.between(0, 9) {
            0..=4 => other_obligors(&mut self.random),
            5..=8 => one_sided(&mut self.random),
            _ => (any_table(&mut self.random), any_table(&mut self.random)),
        };
        self.load_pair(pair);
        self.compare_both_ways();
    }

    /// Now and then on shares too, where other tables are refused, or as a book's only raters.
    pub(crate) fn compare_both_ways(&mut self) {
        self.emit(Call::Compare);
        if self.random.chance(40) {
            self.emit(Call::CompareShares);
        }
        self.list_places();
    }

    fn one_table(&mut self) {
        let place = self.random.pick(&[1, 2]);
        self.empty(place);
        let table = any_table(&mut self.random);
        let draft = self.draft_around(&table);
        self.load(place, draft);
        self.emit(Call::Measures { place });
        self.emit(Call::Brier { place });
        self.emit(Call::Spread { place });
        for _ in 0..2 {
            let length = self.pool_length(place);
            self.emit(Call::Pool { place, length });
            let (u, v) = self.prices(place);
            self.emit(Call::Cheapest { place, u, v });
        }
        let length = self.write_length();
        self.emit(Call::Write { length });
    }

    /// A book around the table; its other raters' rows are not looked at, so that some are bad.
    fn draft_around(&mut self, table: &Table) -> Draft {
        let mut draft = Draft::around(&mut self.random, table);
        if self.random.chance(30) && draft.raters() > 1 {
            let right = draft.rater;
            draft.rater = 1 + right % draft.raters() as u32;
            let (_, damage) = self.random.pick(&ways_from(8));
            damage(&mut self.random, &mut draft);
            draft.rater = right;
        }
        draft
    }

    /// Where and on which side the curve is farthest from the diagonal.
    fn far_from_diagonal(&mut self) {
        let place = self.random.pick(&[1, 2]);
        self.empty(place);
        let table = table_for_pietra(&mut self.random);
        let draft = Draft::around(&mut self.random, &table);
        self.load(place, draft);
        self.emit(Call::Measures { place });
    }

    fn damaged_book(&mut self) {
        let place = self.random.pick(&[1, 2]);
        self.empty(place);
        let table = any_table(&mut self.random);
        let mut draft = Draft::around(&mut self.random, &table);
        let (_, damage) = any_way(&mut self.random);
        damage(&mut self.random, &mut draft);
        self.list_now_and_then(&draft.bytes);
        self.load(place, draft);
    }

    /// Two to four faults in one call: the order of the checks decides.
    fn several_faults(&mut self) {
        let place = self.any_place();
        if self.random.chance(85) {
            self.empty(place);
        }
        let table = any_table(&mut self.random);
        let mut draft = Draft::around(&mut self.random, &table);
        // Early checks would hide the late ones.
        let earliest = self.random.pick(&[2, 3, 31, 31, 8, 8]);
        let ways = ways_from(earliest);
        for _ in 0..self.random.between(2, 4) {
            let (_, damage) = self.random.pick(&ways);
            damage(&mut self.random, &mut draft);
        }
        self.list_now_and_then(&draft.bytes);
        self.load(place, draft);
    }

    fn junk_book(&mut self) {
        let place = self.random.pick(&[1, 2]);
        self.empty(place);
        let most = self.random.pick(&[20, 200, 8_192, 8_193, 65_535]);
        let length = match self.random.chance(30) {
            true => most,
            false => self.random.between(4, most),
        };
        let mut book: Vec<u8> = (0..length).map(|_| self.random.bits() as u8).collect();
        if self.random.chance(80) {
            book[2..4].copy_from_slice(&(length as u16).to_le_bytes());
        }
        if self.random.chance(80) {
            let raters = self.random.between(1, 16) as u8;
            book[..2].copy_from_slice(&[raters, 0]);
            let start = 4 + 2 * raters as usize;
            if let Some(offset) = book.get_mut(4..6) {
                offset.copy_from_slice(&(start as u16).to_le_bytes());
            }
            let header = [self.random.between(0, 45) as u8, 0, 0, 0];
            if let Some(old) = book.get_mut(start..start + 4) {
                old.copy_from_slice(&header);
            }
        }
        self.list(&book);
        let rater = self.random.between(0, 3) as u32;
        self.emit(Call::Load { place, rater, book });
    }

    /// Any calls with any operands.
    fn wandering(&mut self) {
        for _ in 0..self.random.between(5, 60) {
            match self.random.between(0, 14) {
                0..=2 => self.any_load(),
                3 => {
                    let place = self.any_place();
                    self.emit(Call::Clear { place });
                }
                _ => self.question(),
            }
        }
    }

    pub(crate) fn any_load(&mut self) {
        let place = self.any_place();
        let table = self.partner_of(3u32.saturating_sub(place));
        let mut draft = Draft::around(&mut self.random, &table);
        match self.random.between(0, 9) {
            0 => self.flip_byte(&mut draft),
            1 => draft.rater = self.random.between(0, draft.raters() as u64 + 1) as u32,
            _ => (),
        }
        self.load(place, draft);
    }

    /// A table over the obligors of the place, if it is loaded; else any table.
    pub(crate) fn partner_of(&mut self, place: u32) -> Table {
        match self.desk.table(place) {
            Ok(table) if self.random.chance(80) => partner(&mut self.random, table),
            _ => any_table(&mut self.random),
        }
    }

    fn flip_byte(&mut self, draft: &mut Draft) {
        let index = self.random.index(draft.bytes.len());
        draft.bytes[index] ^= 1 << self.random.between(0, 7);
    }

    /// One call that leaves the desk unchanged.
    pub(crate) fn question(&mut self) {
        let place = self.any_place();
        match self.random.between(0, 8) {
            0 => {
                let length = self.pool_length(place);
                self.emit(Call::Pool { place, length });
            }
            1 => {
                let (u, v) = self.prices(place);
                self.emit(Call::Cheapest { place, u, v });
            }
            2 => self.emit(Call::Compare),
            3 => self.emit(Call::Measures { place }),
            4 => self.emit(Call::Brier { place }),
            5 => self.emit(Call::Spread { place }),
            6 => self.emit(Call::CompareShares),
            7 => self.any_shortlist(),
            _ => {
                let length = self.write_length();
                self.emit(Call::Write { length });
            }
        }
    }

    /// Tables of the largest sizes, and of one more.
    fn limits(&mut self) {
        let place = self.random.pick(&[1, 2]);
        self.empty(place);
        let grade_count = self
            .random
            .pick(&[1, 2, MAX_GRADES as u64 - 1, MAX_GRADES as u64]);
        let obligors = MAX_OBLIGORS + self.random.pick(&[0, 0, 1]);
        let mut rows = Vec::new();
        for index in 0..grade_count {
            let size = obligors * (index + 1) / grade_count - obligors * index / grade_count;
            let defaults = self.random.pick(&[0, size / 2, size - 1, size]);
            rows.push((size, defaults));
        }
        let mut table = Table::of_rows(&rows);
        announce(&mut self.random, &mut table);
        let draft = Draft::around(&mut self.random, &table);
        self.load(place, draft);
        for _ in 0..2 {
            self.question();
        }
        let (u, v) = self
            .random
            .pick(&[(1_000_000, 1_000_000), (1_000_001, 0), (0, 1_000_001)]);
        self.emit(Call::Cheapest { place, u, v });
        self.emit(Call::Spread { place });
        self.emit(Call::Measures { place });
    }

    /// Writes the loaded places and loads a rater of the written book.
    pub(crate) fn write_and_load(&mut self) {
        let length = self.write_length();
        self.emit(Call::Write { length });
        let tables: Vec<Table> = [1, 2]
            .iter()
            .filter_map(|&place| self.desk.table(place).ok().cloned())
            .collect();
        if tables.is_empty() {
            return;
        }
        let book = book::write(&tables.iter().collect::<Vec<_>>());
        let place = self.random.pick(&[1, 2]);
        self.empty(place);
        let rater = self.random.between(1, tables.len() as u64 + 1) as u32;
        self.emit(Call::Load { place, rater, book });
        self.compare_both_ways();
        self.emit(Call::Brier { place });
    }
}
