//! The printing program: what it prints for a book on standard input.

use crate::desk::Desk;
use crate::pooling;

/// Longer input is refused with number 2.
pub const MAX_INPUT: usize = 8_192;

pub fn print(input: &[u8]) -> String {
    if input.len() > MAX_INPUT {
        return "refused 2\n".to_string();
    }
    let mut desk = Desk::fresh();
    if let Err(number) = desk.load(1, 1, input) {
        return format!("refused {number}\n");
    }
    let numbers = pooling::pool(desk.table(1).expect("just loaded"));
    let mut text = String::new();
    for (index, grade) in numbers.chunks(3).enumerate() {
        let (defaults, obligors, band) = (grade[0], grade[1], grade[2]);
        text += &format!("{} {defaults} {obligors} {band}\n", index + 1);
    }
    text + &gini_line(&desk)
}

fn gini_line(desk: &Desk) -> String {
    match desk.measures(1) {
        Ok(measures) => format!("gini {} {}\n", measures.gini.0, measures.gini.1),
        Err(number) => format!("gini refused {number}\n"),
    }
}
