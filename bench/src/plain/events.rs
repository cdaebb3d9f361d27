//! Firms that come and go: four events at a grade, each with its checks in the order of the refusal numbers.
use super::{Desk, Place, Refusal, Rows, MILLION};

impl Desk {
    pub fn survivor_enters(&mut self, place: u32, grade: u32) -> Result<(), Refusal> {
        let (place, i) = self.at_grade(place, grade)?;
        if place.rows.total() == MILLION {
            return Err(38);
        }
        place.rows.obligors[i] += 1;
        place.renew()
    }

    pub fn survivor_leaves(&mut self, place: u32, grade: u32) -> Result<(), Refusal> {
        let (place, i) = self.at_grade(place, grade)?;
        if place.rows.survivors(i) == 0 || place.rows.total() == 1 {
            return Err(37);
        }
        place.rows.obligors[i] -= 1;
        place.renew()
    }

    pub fn survivor_defaults(&mut self, place: u32, grade: u32) -> Result<(), Refusal> {
        let (place, i) = self.at_grade(place, grade)?;
        if place.rows.survivors(i) == 0 {
            return Err(37);
        }
        place.rows.defaults[i] += 1;
        place.renew()
    }

    pub fn defaulted_removed(&mut self, place: u32, grade: u32) -> Result<(), Refusal> {
        let (place, i) = self.at_grade(place, grade)?;
        if place.rows.defaults[i] == 0 || place.rows.total() == 1 {
            return Err(37);
        }
        place.rows.obligors[i] -= 1;
        place.rows.defaults[i] -= 1;
        place.renew()
    }

    /// A loaded place, and the index of one of its grades.
    fn at_grade(&mut self, place: u32, grade: u32) -> Result<(&mut Place, usize), Refusal> {
        let place = self.place_mut(place)?;
        if !place.rows.loaded {
            return Err(22);
        }
        let i = (grade as usize).wrapping_sub(1); // that of grade 0 is past every grade: one test for both
        if i >= place.rows.grades {
            return Err(36);
        }
        Ok((place, i))
    }
}

impl Rows {
    fn survivors(&self, i: usize) -> u32 {
        self.obligors[i] - self.defaults[i]
    }

    /// N.
    fn total(&self) -> u32 {
        self.obligors[..self.grades].iter().sum()
    }
}
