//! Compares the proved engine with a plain Rust one: the answers on random books, and the time on full ones.

mod books;
mod plain;
mod proved;
mod types;

use books::{Random, damaged_book, full_book, random_auction, random_book};
use std::hint::black_box;
use std::time::{Duration, Instant};
use types::{Auction, Fill, Order};

const BOOKS: u32 = 20_000;
const RUNS: usize = 201;
const NO_FILL: Fill = Fill {
    number: 7,
    shares: 7,
};

/// Both engines' fills, records behind them included.
fn compare_fills(
    lines: &[Order],
    used: usize,
    next: u64,
    price: u32,
    trading: u32,
    records: usize,
) {
    let mut ours = vec![NO_FILL; records];
    let mut theirs = vec![NO_FILL; records];
    let a = proved::fill(lines, used, next, price, trading, &mut ours);
    let b = plain::fill(lines, used, next, price, trading, &mut theirs);
    assert_eq!((a, ours), (b, theirs), "fills at {price} of {lines:?}");
}

/// One book: price, and fills at the price found and at others.
fn compare(
    random: &mut Random,
    lines: &[Order],
    used: usize,
    next: u64,
    auction: &Auction,
) -> bool {
    let a = proved::price(lines, used, next, auction);
    let b = plain::price(lines, used, next, auction);
    assert_eq!(
        a, b,
        "price of {lines:?} used {used} next {next} {auction:?}"
    );
    if auction.reference <= 20_000 {
        assert_eq!(
            b,
            plain::walked(lines, used, next, auction),
            "walk of {lines:?} {auction:?}"
        );
    }
    let found = a.unwrap_or_default();
    compare_fills(lines, used, next, found.price, found.shares, used);
    let trading = random.below(300_000);
    let records = (used + random.below(3) as usize).saturating_sub(1);
    let near = random.near(auction.reference);
    compare_fills(lines, used, next, near, trading, records);
    a.is_ok_and(|found| found.shares > 0)
}

fn compare_all() {
    let mut random = Random::new(2026);
    let mut traded = 0;
    let mut refused = 0;
    for _ in 0..BOOKS {
        let auction = random_auction(&mut random);
        let mut book = random_book(&mut random, auction.reference);
        traded += u32::from(compare(
            &mut random,
            &book.lines,
            book.used,
            book.next,
            &auction,
        ));
        damaged_book(&mut random, &mut book);
        refused += u32::from(proved::price(&book.lines, book.used, book.next, &auction).is_err());
        compare(&mut random, &book.lines, book.used, book.next, &auction);
    }
    println!(
        "{BOOKS} random books and {BOOKS} damaged ones: same answers ({traded} of the first traded, {refused} of the others refused)"
    );
}

fn median(mut times: Vec<Duration>) -> Duration {
    times.sort();
    times[times.len() / 2]
}

/// The median times of two jobs, run in turn.
fn timed<A, B>(mut ours: impl FnMut() -> A, mut theirs: impl FnMut() -> B) -> (Duration, Duration) {
    let mut a = Vec::new();
    let mut b = Vec::new();
    for _ in 0..RUNS {
        let start = Instant::now();
        black_box(ours());
        a.push(start.elapsed());
        let start = Instant::now();
        black_box(theirs());
        b.push(start.elapsed());
    }
    (median(a), median(b))
}

fn report(job: &str, (ours, theirs): (Duration, Duration)) {
    println!(
        "{job}: proved {:>9.1} us, plain {:>9.1} us, ratio {:.2}",
        ours.as_secs_f64() * 1e6,
        theirs.as_secs_f64() * 1e6,
        ours.as_secs_f64() / theirs.as_secs_f64()
    );
}

fn time_all() {
    let ladders = [
        ("step 1 about 1,000,000,000", 0, 1, 1_000_000_000),
        (
            "step 1,000,000 about 1,000,000,000",
            0,
            1_000_000,
            1_000_000_000,
        ),
        ("table, band 2, about 1,000,000,000", 2, 0, 1_000_000_000),
        ("table, band 2, about 100,000", 2, 0, 100_000),
    ];
    for (name, band, step, reference) in ladders {
        let auction = Auction {
            band,
            step,
            reference,
            percent: 28,
        };
        let book = full_book(reference);
        let (lines, used, next) = (&book.lines[..], book.used, book.next);
        report(
            &format!("price, 1,024 lines, {name}"),
            timed(
                || proved::price(black_box(lines), used, next, &auction),
                || plain::price(black_box(lines), used, next, &auction),
            ),
        );
        let found = proved::price(lines, used, next, &auction).expect("a sound book");
        let (price, shares) = (found.price, found.shares);
        let (mut ours, mut theirs) = (vec![NO_FILL; used], vec![NO_FILL; used]);
        report(
            &format!("fills, {shares} shares, {name}"),
            timed(
                || proved::fill(black_box(lines), used, next, price, shares, &mut ours),
                || plain::fill(black_box(lines), used, next, price, shares, &mut theirs),
            ),
        );
        assert_eq!(ours, theirs);
    }
}

fn main() {
    compare_all();
    time_all();
}
