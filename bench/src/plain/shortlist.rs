//! The shortlist of a book.
use super::verdict::{where_dearer, Scale};
use super::{book, check_outcomes, check_same, Refusal, Totals, RATERS};

/// Writes the raters that no other one is better than, and answers how many. Each is read and pooled once.
pub fn shortlist(book: &[u8], numbers: &mut [u32]) -> Result<usize, Refusal> {
    let mut scales = [const { Scale::NONE }; RATERS];
    let mut totals = [Totals::default(); RATERS];
    let raters = book::read_each(book, |rater, table| {
        scales[rater].pool(table);
        totals[rater] = table.totals();
    })?;
    let totals = &totals[..raters];
    check_outcomes(totals)?;
    check_same(totals)?;
    let numbers = numbers.get_mut(..raters).ok_or(13u32)?;
    let beaten = beaten(&scales[..raters]);
    let mut listed = 0;
    for (rater, _) in (1..).zip(&beaten[..raters]).filter(|(_, beaten)| !**beaten) {
        numbers[listed] = rater;
        listed += 1;
    }
    Ok(listed)
}

/// Which of the scales another one is better than. Each is compared with the unbeaten ones before it until it is beaten itself: whom a beaten
/// one beats, an unbeaten one beats, too.
#[inline(never)] // so that the search has the registers to itself
fn beaten(scales: &[Scale]) -> [bool; RATERS] {
    let mut beaten = [false; RATERS];
    for (index, scale) in scales.iter().enumerate() {
        let (before, here) = beaten.split_at_mut(index);
        for (other, other_beaten) in scales.iter().zip(before).filter(|(_, beaten)| !**beaten) {
            match (where_dearer(other, scale), where_dearer(scale, other)) {
                (None, Some(_)) => {
                    here[0] = true;
                    break;
                }
                (Some(_), None) => *other_beaten = true,
                _ => (),
            }
        }
    }
    beaten
}
