//! Says which of two rating scales over the same six obligors is better; both tables are given in memory.

use desk::{Desk, Place, Price, Refusal, Table, Verdict};

fn accept_or_exit<T>(what: &str, answer: Result<T, Refusal>) -> T {
    answer.unwrap_or_else(|refusal| {
        eprintln!("{what}: {refusal}");
        std::process::exit(1)
    })
}

fn main() {
    // Obligors or survivors, defaults, announced rate in ppm; best grade first.
    let first = Table::by_obligors().grades([(5, 2, 400_000), (1, 1, 1_000_000)]);
    let second = Table::by_survivors().grades([(2, 0, 0), (1, 3, 750_000)]);
    let mut desk = Desk::empty();
    accept_or_exit("first scale", desk.load_table(Place::First, &first));
    accept_or_exit("second scale", desk.load_table(Place::Second, &second));
    let verdict = accept_or_exit("comparison", desk.compare());
    let words = match verdict {
        Verdict::Equal => "The scales cost the same at all prices.",
        Verdict::First { .. } => "The first scale is better.",
        Verdict::Second { .. } => "The second scale is better.",
        Verdict::Crossing { .. } => "Each scale is better at some prices.",
    };
    println!("{words}");
    let (first, second) = (verdict.first_dearer(), verdict.second_dearer());
    for (dearer, price) in [("first", first), ("second", second)] {
        if let Some(Price { u, v }) = price {
            print!("At {u} for a missed default and {v} for a survivor turned away ");
            println!("the {dearer} costs more.");
        }
    }
}
