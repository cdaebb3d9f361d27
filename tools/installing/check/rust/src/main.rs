//! Compares two tables that are given in memory.

use desk::{Desk, Place, Refusal, Table};

fn main() -> Result<(), Refusal> {
    let first = Table::by_obligors().grade(5, 2, 400_000).grade(1, 1, 1_000_000);
    let second = Table::by_survivors().grade(2, 0, 0).grade(1, 3, 750_000);
    let mut desk = Desk::empty();
    desk.load_table(Place::First, &first)?;
    desk.load_table(Place::Second, &second)?;
    println!("{}", desk.compare()?);
    Ok(())
}
