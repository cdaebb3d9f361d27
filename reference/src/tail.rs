//! Broken ends of scripts: what no program can carry out, and answers with the line `end`.

use crate::events::Event;
use crate::random::Random;
use crate::script::{Call, MAX_BOOK_LENGTH};

/// Bytes that end the program after the line `end`.
pub fn broken_tail(random: &mut Random) -> Vec<u8> {
    let numbers =
        |numbers: &[u32]| -> Vec<u8> { numbers.iter().flat_map(|n| n.to_le_bytes()).collect() };
    match random.between(0, 6) {
        // An unknown operation; what follows is not carried out.
        0 => numbers(&[random.pick(&[0, 16, 256 + 5, u32::MAX]), 5, 5, 5]),
        // A buffer above its limit; what follows is not carried out.
        1 => numbers(&[3, random.pick(&[0, 1, 2]), random.pick(&[513, u32::MAX]), 5]),
        2 => numbers(&[9, random.pick(&[8_193, u32::MAX]), 5]),
        3 => numbers(&[11, random.pick(&[513, 513, u32::MAX]), 4, 5, 5]),
        // A book above its limit, whole.
        4 => {
            let operands: &[u32] = random.pick(&[&[1, 1, 1], &[11, 1]]);
            let length = MAX_BOOK_LENGTH + 1;
            let book = vec![0; length as usize];
            [numbers(operands), numbers(&[length]), book].concat()
        }
        // A book cut short, mostly, or an operand.
        5 => {
            let (length, book) = (1, vec![1; 46]);
            cut(random, &Call::Shortlist { length, book })
        }
        _ => cut_call(random),
    }
}

fn cut_call(random: &mut Random) -> Vec<u8> {
    let place = 1;
    let length = random.pick(&[1, 46, MAX_BOOK_LENGTH]) as usize;
    let book = vec![1; length];
    let calls = [
        Call::Load {
            place,
            rater: 1,
            book: book.clone(),
        },
        Call::Shortlist { length: 1, book },
        Call::Clear { place },
        Call::Pool { place, length: 3 },
        Call::Cheapest { place, u: 1, v: 1 },
        Call::Measures { place },
        Call::Brier { place },
        Call::Spread { place },
        Call::Write { length: 46 },
        Call::Event {
            event: Event::SurvivorDefaults,
            place,
            grade: 1,
        },
    ];
    let index = random.index(calls.len());
    cut(random, &calls[index])
}

/// The operation, and not all of what belongs to it.
fn cut(random: &mut Random, call: &Call) -> Vec<u8> {
    let mut bytes = call.encode();
    let shorter = random.between(4, bytes.len() as u64 - 1) as usize;
    bytes.truncate(shorter);
    bytes
}
