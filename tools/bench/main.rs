// Prints, for each recogniser, the nanoseconds of a product and the bytes of an element.
//
// A machine that has other work to do stops a run at any moment, and then the run looks longer than it is. So each
// recogniser is measured by many short runs, each of which mostly fits between two such stops, and the shortest counts.

use std::hint::black_box;
use std::time::Instant;

// Runs of each recogniser.
const RUNS: usize = 400;
// Turns of the longer and of the shorter of two runs: what a run costs besides its turns goes out by their difference.
const LONG: u64 = 10_000;
const SHORT: u64 = 2_000;

// What is aimed at for the first panel.
const AIM_NANOSECONDS: f64 = 100.0;
const AIM_BYTES: usize = 64;

type Products = unsafe extern "C" fn(u64) -> u64;

// What the archive exports: from the turns of a run to how many of its last products light lamp 0, and the bytes of an
// element by the place of its recogniser among those.
#[link(name = "bench", kind = "static")]
unsafe extern "C" {
    fn table_products(turns: u64) -> u64;
    fn automaton_products(turns: u64) -> u64;
    fn counter_products(turns: u64) -> u64;
    fn side_by_side_products(turns: u64) -> u64;
    fn not_products(turns: u64) -> u64;
    fn all_products(turns: u64) -> u64;
    fn memo_products(turns: u64) -> u64;
    fn before_after_products(turns: u64) -> u64;
    fn panel_one_products(turns: u64) -> u64;
    fn panel_two_products(turns: u64) -> u64;
    fn element_bytes(place: usize) -> usize;
}

// In the order of their places.
const RECOGNISERS: &[(&str, Products)] = &[
    ("table of 3 elements", table_products),
    ("automaton of 3 states", automaton_products),
    ("counter modulo 10", counter_products),
    ("side by side: two tables", side_by_side_products),
    ("not: a table", not_products),
    ("all: a table", all_products),
    ("memo: a table", memo_products),
    ("before and after: memo and table", before_after_products),
    ("panel 1", panel_one_products),
    ("panel 2, reversed: a table", panel_two_products),
];

// The nanoseconds of the shortest of many runs.
fn shortest(products: Products, turns: u64) -> f64 {
    (0..RUNS)
        .map(|_| {
            let start = Instant::now();
            let lit = unsafe { products(black_box(turns)) };
            let nanoseconds = start.elapsed().as_nanos() as f64;
            assert!(lit <= 16, "{lit} of 16 products light the lamp");
            nanoseconds
        })
        .fold(f64::INFINITY, f64::min)
}

// The nanoseconds of one product.
fn product_nanoseconds(products: Products) -> f64 {
    (shortest(products, LONG) - shortest(products, SHORT)) / (LONG - SHORT) as f64
}

fn main() {
    println!("{:<36}{:>12}{:>8}", "recogniser", "ns/product", "bytes");
    for (place, (name, products)) in RECOGNISERS.iter().enumerate() {
        let nanoseconds = product_nanoseconds(*products);
        let bytes = unsafe { element_bytes(place) };
        println!("{name:<36}{nanoseconds:>12.1}{bytes:>8}");
    }
    println!("{:<36}{AIM_NANOSECONDS:>12.1}{AIM_BYTES:>8}", "aim for panel 1");
}
