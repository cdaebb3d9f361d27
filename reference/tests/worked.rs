//! The worked tables a to k of document 01, and book K; table f and others for Pietra as request
//! R-1 of document 02 has them, the last line of the cases as R-4 has it.

use reference::book;
use reference::cutoff::{cheapest_cost, verdict, Price, Verdict};
use reference::desk::Desk;
use reference::measures::{measures, pairs, Pairs};
use reference::pooling::pool;
use reference::print::print;
use reference::table::Table;

fn rows(rows: &[(u64, u64)]) -> Table {
    Table::of_rows(rows)
}

fn table_k() -> Table {
    let mut table = rows(&[(10, 2), (10, 1), (20, 4)]);
    for (grade, announced) in table.grades.iter_mut().zip([100_000, 150_000, 200_000]) {
        grade.announced = announced;
    }
    table
}

fn table_e() -> Table {
    rows(&[(30, 2), (18, 4), (15, 10), (16, 14), (21, 20)])
}

/// Block defaults and block obligors of each grade.
fn pooled(table: &Table) -> Vec<(u32, u32)> {
    let numbers = pool(table);
    numbers
        .chunks(3)
        .map(|grade| (grade[0], grade[1]))
        .collect()
}

fn price(missed_default: u64, lost_survivor: u64) -> Price {
    Price {
        missed_default,
        lost_survivor,
    }
}

#[test]
fn a_book_k_prints_as_printed() {
    let book = book::write(&[&table_k()]);
    assert_eq!(book.len(), 46);
    assert_eq!(book[..10], [1, 0, 46, 0, 6, 0, 3, 0, 0, 0]);
    assert_eq!(
        print(&book),
        "1 3 20 11\n2 3 20 11\n3 4 20 11\ngini 10 231\n"
    );
}

#[test]
fn the_printing_program_refuses() {
    let book = book::write(&[&table_k()]);
    assert_eq!(print(&book[..45]), "refused 2\n");
    assert_eq!(print(&vec![0; 8_193]), "refused 2\n");
    let good = book::write(&[&rows(&[(2, 0)])]);
    assert_eq!(print(&good), "1 0 2 0\ngini refused 23\n");
    let bad = book::write(&[&rows(&[(2, 2)])]);
    assert_eq!(print(&bad), "1 2 2 14\ngini refused 24\n");
    let reversed = book::write(&[&rows(&[(2, 2), (2, 0)])]);
    assert_eq!(print(&reversed), "1 2 4 13\n2 2 4 13\ngini -4 4\n");
}

#[test]
fn b_equal_neighbours_are_joined() {
    assert_eq!(pooled(&rows(&[(10, 2), (20, 4)])), [(6, 30); 2]);
}

#[test]
fn c_a_join_looks_back() {
    assert_eq!(pooled(&rows(&[(10, 3), (10, 4), (10, 1)])), [(8, 30); 3]);
}

#[test]
fn d_counts_are_joined_not_rates() {
    assert_eq!(pooled(&rows(&[(90, 18), (10, 1)])), [(19, 100); 2]);
}

#[test]
fn e_the_five_grade_table() {
    let table = table_e();
    let counted = Pairs {
        concordant: 2170,
        discordant: 120,
        tied: 210,
    };
    assert_eq!(pairs(&table), counted);
    let measures = measures(&table);
    assert_eq!((measures.defaults, measures.survivors), (50, 50));
    assert_eq!(measures.gini, (2050, 2500));
    assert_eq!(measures.roc, (4550, 5000));
    assert_eq!(measures.cap, (50 * 100 + 2050, 2 * 50 * 100));
    assert_eq!((measures.pietra, measures.pietra_cutoff), ((1800, 2500), 3));
    let bands: Vec<u32> = pool(&table).chunks(3).map(|grade| grade[2]).collect();
    assert_eq!(bands, [10, 12, 13, 14, 14]);
}

#[test]
fn f_a_reversed_scale() {
    let measures = measures(&rows(&[(2, 2), (2, 0)]));
    assert_eq!(measures.gini, (-4, 4));
    assert_eq!((measures.pietra, measures.pietra_cutoff), ((-4, 4), 1));
}

/// Pietra and its g.
fn pietra(table: &[(u64, u64)]) -> ((i64, i64), u32) {
    let measures = measures(&rows(table));
    (measures.pietra, measures.pietra_cutoff)
}

#[test]
fn r1_of_equal_sizes_on_either_side_the_smaller_g_decides_the_sign() {
    assert_eq!(pietra(&[(1, 1), (2, 0), (1, 1)]), ((2, 4), 1));
    assert_eq!(pietra(&[(1, 0), (2, 2), (1, 0)]), ((-2, 4), 1));
}

#[test]
fn r1_of_equal_sizes_on_one_side_the_smaller_g_is_taken() {
    assert_eq!(pietra(&[(2, 0), (2, 1), (2, 2)]), ((6, 9), 1));
    assert_eq!(pietra(&[(2, 2), (2, 1), (2, 0)]), ((-6, 9), 1));
}

#[test]
fn r1_the_larger_size_is_taken_on_either_side() {
    assert_eq!(pietra(&[(2, 2), (3, 0), (1, 1)]), ((-6, 9), 2));
    assert_eq!(pietra(&[(2, 0), (3, 3), (1, 0)]), ((6, 9), 2));
}

#[test]
fn r1_sizes_are_told_apart_to_the_last_unit() {
    // Heights of 50,000,050,000 at g 1 and one more on the other side at g 2, over 999,999 obligors.
    let below = [(200_002, 150_001), (599_997, 199_998), (200_000, 150_000)];
    assert_eq!(pietra(&below), ((-50_000_050_001, 249_999_500_000), 2));
    let above = below.map(|(obligors, defaults)| (obligors, obligors - defaults));
    assert_eq!(pietra(&above), ((50_000_050_001, 249_999_500_000), 2));
    // 4,200,000,000 at g 1 and 4,900,000,000 at g 2, which only as a 32-bit number is smaller.
    let rising = [(70_000, 0), (10_000, 10_000), (60_000, 60_000)];
    assert_eq!(pietra(&rising), ((4_900_000_000, 4_900_000_000), 2));
}

#[test]
fn r1_noise_is_on_the_diagonal() {
    assert_eq!(pietra(&[(10, 2), (20, 4), (5, 1)]), ((0, 196), 0));
    assert_eq!(pietra(&[(5, 2)]), ((0, 6), 0));
}

#[test]
fn g_the_finer_scale_is_first() {
    let (fine, coarse) = (rows(&[(2, 0), (2, 1), (2, 2)]), rows(&[(3, 1), (3, 2)]));
    assert!(matches!(verdict(&fine, &coarse), Verdict::First(_)));
    assert!(matches!(verdict(&coarse, &fine), Verdict::Second(_)));
}

#[test]
fn h_crossing_with_costs() {
    let (first, second) = (rows(&[(5, 2), (1, 1)]), rows(&[(2, 0), (4, 3)]));
    assert!(matches!(verdict(&first, &second), Verdict::Crossing(..)));
    let costs = |price: Price| {
        (
            cheapest_cost(&first, &price),
            cheapest_cost(&second, &price),
        )
    };
    assert_eq!(costs(price(1, 1)), (2, 1));
    assert_eq!(costs(price(1, 3)), (2, 3));
}

#[test]
fn i_a_table_equals_itself() {
    assert_eq!(verdict(&table_e(), &table_e()), Verdict::Equal);
}

#[test]
fn k_limits() {
    let load = |table: &Table| Desk::fresh().load(1, 1, &book::write(&[table]));
    assert_eq!(load(&rows(&[(1_000_000, 1)])), Ok(()));
    assert_eq!(load(&rows(&[(1_000_001, 1)])), Err(11));
    assert_eq!(load(&rows(&[(999_999, 1), (2, 0)])), Err(11));
    assert_eq!(load(&rows(&[(1, 0); 40])), Ok(()));
    assert_eq!(load(&rows(&[(1, 0); 41])), Err(6));
    assert_eq!(load(&rows(&[(1, 0)])), Ok(()));
    // n 0 loads if another grade is occupied.
    assert_eq!(load(&rows(&[(0, 0), (1, 0)])), Ok(()));
    assert_eq!(load(&rows(&[(1, 0), (0, 0)])), Ok(()));
    assert_eq!(load(&rows(&[(0, 0)])), Err(9));
    assert_eq!(load(&rows(&[(0, 0), (0, 0)])), Err(9));
    let book = book::write(&[&table_k()]);
    assert_eq!(Desk::fresh().load(1, 1, &book[..45]), Err(2));
    let mut desk = Desk::fresh();
    assert_eq!(desk.load(1, 1, &book), Ok(()));
    assert_eq!(desk.cheapest(1, 1_000_000, 1_000_000), Ok((0, 7_000_000)));
    assert_eq!(desk.cheapest(1, 1_000_001, 0), Err(12));
    assert_eq!(desk.cheapest(1, 0, 1_000_001), Err(12));
}

#[test]
fn brier_of_k() {
    // 2 * 0.9^2 + 8 * 0.1^2 + 0.85^2 + 9 * 0.15^2 + 4 * 0.8^2 + 16 * 0.2^2 = 5.825
    let expected = (5_825_000_000_000, 40_000_000_000_000);
    assert_eq!(reference::measures::brier(&table_k()), expected);
}
