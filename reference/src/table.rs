//! A grade table: how many obligors each grade of a rating scale holds, how many of them
//! defaulted, and which default rate was announced for the grade.

/// The most grades a table may have.
pub const MAX_GRADES: usize = 40;
/// The most obligors a table may have (N).
pub const MAX_OBLIGORS: u64 = 1_000_000;
/// The whole in ppm; also the highest announced rate.
pub const MILLION: u64 = 1_000_000;

/// Document 01's number for a refusal.
pub type Refusal = u32;

/// One row of a table.
#[derive(Clone, Copy, Debug, PartialEq, Eq)]
pub struct Grade {
    /// n
    pub obligors: u64,
    /// d
    pub defaults: u64,
    /// The default rate that the rater stated beforehand, in ppm. Document 01: "announced".
    pub announced: u64,
}

impl Grade {
    /// s = n - d
    pub fn survivors(&self) -> u64 {
        self.obligors - self.defaults
    }

    /// Request R-4 of document 02: a grade may have nobody in it.
    pub fn is_occupied(&self) -> bool {
        self.obligors >= 1
    }
}

/// The grades of one rater, the best first.
#[derive(Clone, Debug, PartialEq, Eq)]
pub struct Table {
    pub grades: Vec<Grade>,
}

impl Table {
    /// A table of rows (n, d), all announced rates 0.
    pub fn of_rows(rows: &[(u64, u64)]) -> Table {
        let grade = |&(obligors, defaults): &(u64, u64)| Grade {
            obligors,
            defaults,
            announced: 0,
        };
        Table {
            grades: rows.iter().map(grade).collect(),
        }
    }

    /// Puts these announced rates in, the best grade's first.
    pub fn announce(&mut self, rates: &[u64]) {
        for (grade, &rate) in self.grades.iter_mut().zip(rates) {
            grade.announced = rate;
        }
    }

    /// How many grades have somebody in them.
    pub fn occupied(&self) -> usize {
        let grades = self.grades.iter();
        grades.filter(|grade| grade.is_occupied()).count()
    }

    /// N
    pub fn obligors(&self) -> u64 {
        self.grades.iter().map(|grade| grade.obligors).sum()
    }

    /// D
    pub fn defaults(&self) -> u64 {
        self.grades.iter().map(|grade| grade.defaults).sum()
    }

    /// S
    pub fn survivors(&self) -> u64 {
        self.grades.iter().map(Grade::survivors).sum()
    }
}

/// What a comparison of any number of tables needs: 23 over all of them, then 24 over all.
pub fn check_outcomes(tables: &[&Table]) -> Result<(), Refusal> {
    if tables.iter().any(|table| table.defaults() == 0) {
        return Err(23);
    }
    if tables.iter().any(|table| table.survivors() == 0) {
        return Err(24);
    }
    Ok(())
}

/// 25 where D or S differ between any two.
pub fn check_same_totals(tables: &[&Table]) -> Result<(), Refusal> {
    let totals = |table: &Table| (table.defaults(), table.survivors());
    let differ = |one: &&Table| tables.iter().any(|other| totals(one) != totals(other));
    match tables.iter().any(differ) {
        true => Err(25),
        false => Ok(()),
    }
}
