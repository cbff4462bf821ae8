//! The same engine in plain Rust, written as one would without proofs.

use crate::types::{Auction, Fill, Found, Order, Refused};

const MAX_LINES: usize = 1024;
const MAX_PRICE: u32 = 1_000_000_000;

pub trait Ladder {
    fn at_or_above(&self, p: u32) -> Option<u32>;
    fn at_or_below(&self, p: u32) -> Option<u32>;
}

struct Flat {
    step: u32,
}

impl Ladder for Flat {
    fn at_or_above(&self, p: u32) -> Option<u32> {
        let rung = p.max(1).checked_next_multiple_of(self.step)?;
        (rung <= MAX_PRICE).then_some(rung)
    }

    fn at_or_below(&self, p: u32) -> Option<u32> {
        let top = p.min(MAX_PRICE);
        let rung = top - top % self.step;
        (rung > 0).then_some(rung)
    }
}

/// The tick table: the step of each of the 19 rows, and where the rows start.
struct Table {
    starts: [u32; 19],
    steps: [u32; 19],
}

/// 1, 2, 5, 10, 20, 50, ..
fn series(n: u32) -> u32 {
    [1, 2, 5][(n % 3) as usize] * 10u32.pow(n / 3)
}

impl Table {
    fn new(band: u32) -> Table {
        let mut table = Table {
            starts: [0; 19],
            steps: [0; 19],
        };
        for row in 0..19 {
            table.starts[row as usize] = if row == 0 { 0 } else { series(row + 8) };
            table.steps[row as usize] = series((row + 3).saturating_sub(band));
        }
        table
    }

    fn row(&self, p: u32) -> usize {
        self.starts
            .iter()
            .rposition(|&start| start <= p)
            .unwrap_or(0)
    }
}

impl Ladder for Table {
    fn at_or_above(&self, p: u32) -> Option<u32> {
        Flat {
            step: self.steps[self.row(p)],
        }
        .at_or_above(p)
    }

    fn at_or_below(&self, p: u32) -> Option<u32> {
        Flat {
            step: self.steps[self.row(p)],
        }
        .at_or_below(p)
    }
}

enum Either {
    Flat(Flat),
    Table(Table),
}

impl Ladder for Either {
    fn at_or_above(&self, p: u32) -> Option<u32> {
        match self {
            Either::Flat(flat) => flat.at_or_above(p),
            Either::Table(table) => table.at_or_above(p),
        }
    }

    fn at_or_below(&self, p: u32) -> Option<u32> {
        match self {
            Either::Flat(flat) => flat.at_or_below(p),
            Either::Table(table) => table.at_or_below(p),
        }
    }
}

struct Limit<L> {
    inner: L,
    low: u32,
    high: u32,
}

impl<L: Ladder> Ladder for Limit<L> {
    fn at_or_above(&self, p: u32) -> Option<u32> {
        let rung = self.inner.at_or_above(p.max(self.low))?;
        (rung <= self.high).then_some(rung)
    }

    fn at_or_below(&self, p: u32) -> Option<u32> {
        let rung = self.inner.at_or_below(p.min(self.high))?;
        (rung >= self.low).then_some(rung)
    }
}

fn ladder(auction: &Auction) -> Result<Limit<Either>, Refused> {
    let inner = match auction.band {
        0 if (1..=1_000_000).contains(&auction.step) => Either::Flat(Flat { step: auction.step }),
        band @ 1..=6 => Either::Table(Table::new(band)),
        _ => return Err(2),
    };
    if !(1..=MAX_PRICE).contains(&auction.reference) || auction.percent > 100 {
        return Err(2);
    }
    let reach = (u64::from(auction.percent) * u64::from(auction.reference) / 100) as u32;
    Ok(Limit {
        inner,
        low: auction.reference - reach,
        high: auction.reference + reach,
    })
}

fn is_date(n: u32) -> bool {
    let (year, month, day) = (n / 10_000, n / 100 % 100, n % 100);
    let leap = year.is_multiple_of(4) && (!year.is_multiple_of(100) || year.is_multiple_of(400));
    let days = match month {
        2 => 28 + u32::from(leap),
        4 | 6 | 9 | 11 => 30,
        _ => 31,
    };
    (2000..=2099).contains(&year) && (1..=12).contains(&month) && (1..=days).contains(&day)
}

fn in_range(line: &Order) -> bool {
    (1..=65_535).contains(&line.member)
        && (1..=2).contains(&line.side)
        && (1..=MAX_PRICE).contains(&line.limit)
        && (1..=100_000).contains(&line.entered)
        && (1..=line.entered).contains(&line.left)
        && is_date(line.last_day)
}

fn standing(lines: &[Order], used: usize, next: u64) -> Result<&[Order], Refused> {
    if lines.len() > MAX_LINES || used > lines.len() {
        return Err(4);
    }
    let mut last = 0;
    for line in &lines[..used] {
        if line.number <= last || u64::from(line.number) >= next || !in_range(line) {
            return Err(4);
        }
        last = line.number;
    }
    Ok(&lines[..used])
}

fn accepts(line: &Order, side: u32, price: u32) -> bool {
    line.side == side
        && if side == 1 {
            price <= line.limit
        } else {
            line.limit <= price
        }
}

pub fn depth(lines: &[Order], price: u32) -> (u32, u32) {
    let mut bid = 0;
    let mut offered = 0;
    for line in lines {
        if accepts(line, 1, price) {
            bid += line.left;
        }
        if accepts(line, 2, price) {
            offered += line.left;
        }
    }
    (bid, offered)
}

#[derive(Clone, Copy)]
pub struct Mark {
    pub found: Found,
    distance: u32,
}

impl Mark {
    pub fn at(lines: &[Order], reference: u32, price: u32) -> Mark {
        let (bid, offered) = depth(lines, price);
        Mark {
            found: Found {
                price,
                shares: bid.min(offered),
                surplus: bid.abs_diff(offered),
            },
            distance: price.abs_diff(reference),
        }
    }

    pub fn leads(&self, other: &Mark) -> bool {
        let (a, b) = (self.found, other.found);
        b.shares
            .cmp(&a.shares)
            .then(a.surplus.cmp(&b.surplus))
            .then(self.distance.cmp(&other.distance))
            .then(b.price.cmp(&a.price))
            .is_lt()
    }
}

/// The better of the best so far and a rung, if a share trades there.
pub fn improved(best: Option<Mark>, mark: Mark) -> Option<Mark> {
    match best {
        _ if mark.found.shares == 0 => best,
        Some(old) if !mark.leads(&old) => best,
        _ => Some(mark),
    }
}

pub fn price(lines: &[Order], used: usize, next: u64, auction: &Auction) -> Result<Found, Refused> {
    let lines = standing(lines, used, next)?;
    let ladder = ladder(auction)?;
    let reference = auction.reference;
    let mut best = None;
    let mut try_near = |low, high| {
        for rung in [ladder.at_or_below(low), ladder.at_or_above(high)]
            .into_iter()
            .flatten()
        {
            best = improved(best, Mark::at(lines, reference, rung));
        }
    };
    try_near(reference, reference);
    for line in lines {
        let turn = line.limit + u32::from(line.side == 1);
        try_near(turn.saturating_sub(1), turn);
    }
    Ok(best.map_or(Found::default(), |mark| mark.found))
}

fn comes_before(a: &Order, b: &Order) -> bool {
    if a.side != b.side {
        false
    } else if a.limit == b.limit {
        a.number < b.number
    } else if a.side == 1 {
        a.limit > b.limit
    } else {
        a.limit < b.limit
    }
}

fn fill_side(lines: &[Order], side: u32, price: u32, trading: u32, fills: &mut [Fill]) -> usize {
    let mut rest = trading;
    let mut last: Option<&Order> = None;
    let mut count = 0;
    while rest > 0 {
        let mut first: Option<&Order> = None;
        for line in lines {
            let leads = first.is_none_or(|best| comes_before(line, best));
            if leads
                && last.is_none_or(|served| comes_before(served, line))
                && accepts(line, side, price)
            {
                first = Some(line);
            }
        }
        let Some(line) = first else { break };
        let shares = rest.min(line.left);
        fills[count] = Fill {
            number: line.number,
            shares,
        };
        count += 1;
        rest -= shares;
        last = Some(line);
    }
    count
}

pub fn fill(
    lines: &[Order],
    used: usize,
    next: u64,
    price: u32,
    trading: u32,
    fills: &mut [Fill],
) -> Result<usize, Refused> {
    let lines = standing(lines, used, next)?;
    if fills.len() < lines.len() {
        return Err(7);
    }
    let bought = fill_side(lines, 1, price, trading, fills);
    let sold = fill_side(lines, 2, price, trading, &mut fills[bought..]);
    Ok(bought + sold)
}

/// The price by a walk over every rung near the reference, one by one: a check on both engines where the rungs are few.
pub fn walked(
    lines: &[Order],
    used: usize,
    next: u64,
    auction: &Auction,
) -> Result<Found, Refused> {
    let lines = standing(lines, used, next)?;
    let ladder = ladder(auction)?;
    let mut best = None;
    let mut p = 0;
    while let Some(rung) = ladder.at_or_above(p) {
        best = improved(best, Mark::at(lines, auction.reference, rung));
        p = rung + 1;
    }
    Ok(best.map_or(Found::default(), |mark| mark.found))
}
