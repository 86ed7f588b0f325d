// Prints, for trees of several sizes under panel 1, the microseconds and the products of an insertion, a removal, a
// replacement, a range and a fold of all rows anew, and the most products of one edit and of one range beside their
// bounds.
//
// As in main.rs, each number comes from the shortest of many runs, and from the difference of a longer and a shorter
// one: what a run costs besides its turns goes out by it.

use std::hint::black_box;
use std::time::Instant;

const SIZES: [u16; 3] = [64, 512, 4096];

// Runs of each sort.
const RUNS: usize = 60;

// Edits, ranges or rows folded in the shorter of two runs; the longer has three times as many turns.
const WORK: u64 = 4_096;

// What an export returns where something was refused.
const REFUSED: u64 = u64::MAX;

#[link(name = "bench_trees", kind = "static")]
unsafe extern "C" {
    fn trees_built(rows: u16, struck: bool, turns: u64) -> u64;
    fn rows_replaced(rows: u16, turns: u64) -> u64;
    fn ranges_asked(rows: u16, turns: u64, lit: &mut u64) -> u64;
    fn rows_folded(rows: u16, turns: u64, lit: &mut u64) -> u64;
    fn worst_edit(rows: u16) -> u64;
    fn worst_range(rows: u16) -> u64;
    fn greatest_height(rows: u16) -> u8;
}

// What one turn takes.
#[derive(Clone, Copy)]
struct Cost {
    microseconds: f64,
    products: f64,
}

impl Cost {
    fn less(self, other: Cost) -> Cost {
        Cost {
            microseconds: self.microseconds - other.microseconds,
            products: self.products - other.products,
        }
    }

    fn by(self, rows: u16) -> Cost {
        Cost {
            microseconds: self.microseconds / f64::from(rows),
            products: self.products / f64::from(rows),
        }
    }
}

// The microseconds of the shortest of many runs of so many turns, and the products of a run.
fn shortest(run: &dyn Fn(u64) -> u64, turns: u64) -> Cost {
    let mut microseconds = f64::INFINITY;
    let mut products = 0;
    for _ in 0..RUNS {
        let start = Instant::now();
        products = run(black_box(turns));
        microseconds = microseconds.min(start.elapsed().as_nanos() as f64 / 1000.0);
        assert!(products != REFUSED, "something was refused");
    }
    Cost { microseconds, products: products as f64 }
}

// What one of so many turns takes.
fn turn(run: &dyn Fn(u64) -> u64, turns: u64) -> Cost {
    let difference = shortest(run, 3 * turns).less(shortest(run, turns));
    Cost {
        microseconds: difference.microseconds / (2 * turns) as f64,
        products: difference.products / (2 * turns) as f64,
    }
}

fn print(rows: u16, name: &str, cost: Cost) {
    println!("{rows:>6}  {name:<14}{:>14.2}{:>12.2}", cost.microseconds, cost.products);
}

fn measure(rows: u16) {
    let trees = WORK / u64::from(rows);
    let built = turn(&|turns| unsafe { trees_built(rows, false, turns) }, trees);
    let struck = turn(&|turns| unsafe { trees_built(rows, true, turns) }, trees);
    print(rows, "insert", built.by(rows));
    print(rows, "strike", struck.less(built).by(rows));
    print(rows, "replace", turn(&|turns| unsafe { rows_replaced(rows, turns) }, WORK));
    print(rows, "range", turn(&|turns| unsafe { ranges_asked(rows, turns, black_box(&mut 0)) }, WORK));
    print(rows, "fold anew", turn(&|turns| unsafe { rows_folded(rows, turns, black_box(&mut 0)) }, trees));
}

// The most products of one edit and of one range, beside 8 and 4 times the greatest height, and as many more.
fn bounds(rows: u16) {
    let height = unsafe { u64::from(greatest_height(rows)) };
    let edit = unsafe { worst_edit(rows) };
    let range = unsafe { worst_range(rows) };
    println!("{rows:>6}  worst edit {edit} of {}, worst range {range} of {}", 8 * height + 8, 4 * height + 4);
    assert!(edit <= 8 * height + 8 && range <= 4 * height + 4, "more than the bound");
}

fn main() {
    println!("{:>6}  {:<14}{:>14}{:>12}", "rows", "operation", "microseconds", "products");
    SIZES.into_iter().for_each(measure);
    SIZES.into_iter().for_each(bounds);
}
