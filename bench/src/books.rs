//! Random books, sound and damaged.

use crate::types::{Auction, Order};

/// A small generator of numbers (xorshift), so that every run has the same books.
pub struct Random(u64);

impl Random {
    pub fn new(seed: u64) -> Random {
        Random(seed.wrapping_mul(0x9E37_79B9_7F4A_7C15) | 1)
    }

    fn next(&mut self) -> u64 {
        self.0 ^= self.0 << 13;
        self.0 ^= self.0 >> 7;
        self.0 ^= self.0 << 17;
        self.0
    }

    pub fn below(&mut self, n: u32) -> u32 {
        (self.next() >> 16) as u32 % n.max(1)
    }

    /// From 1 to `n`.
    pub fn up_to(&mut self, n: u32) -> u32 {
        1 + self.below(n)
    }

    pub fn one_of(&mut self, choices: &[u32]) -> u32 {
        choices[self.below(choices.len() as u32) as usize]
    }

    /// A price up to a tenth away from another.
    pub fn near(&mut self, price: u32) -> u32 {
        let width = price / 10 + 3;
        (price.saturating_sub(width) + self.below(2 * width)).clamp(1, 1_000_000_000)
    }
}

pub struct Lines {
    pub lines: Vec<Order>,
    pub used: usize,
    pub next: u64,
}

const FREE: Order = Order {
    number: 0,
    member: 0,
    side: 0,
    limit: 0,
    entered: 0,
    left: 0,
    last_day: 0,
};

fn order(random: &mut Random, number: u32, limit: u32) -> Order {
    let most = random.one_of(&[3, 100, 100_000]);
    let entered = random.up_to(most);
    Order {
        number,
        member: random.up_to(65_535),
        side: random.up_to(2),
        limit,
        entered,
        left: random.up_to(entered),
        last_day: 20_260_000 + 100 * random.up_to(12) + random.up_to(28),
    }
}

fn book(random: &mut Random, limits: &[u32], spare: usize) -> Lines {
    let used = limits.len();
    let mut lines = Vec::new();
    let mut number = random.below(1000);
    for &limit in limits {
        number += random.up_to(3);
        lines.push(order(random, number, limit));
    }
    lines.resize(used + spare, FREE);
    Lines {
        lines,
        used,
        next: u64::from(number) + 1 + u64::from(random.below(2)),
    }
}

/// A few lines with limits about the reference.
pub fn random_book(random: &mut Random, reference: u32) -> Lines {
    let most = random.one_of(&[3, 12, 40]);
    let used = random.below(most);
    let limits: Vec<u32> = (0..used).map(|_| random.near(reference)).collect();
    let spare = random.below(4) as usize;
    book(random, &limits, spare)
}

/// 1,024 lines in use, with limits up to a fifth below the reference: the same book for each, but for its scale.
pub fn full_book(reference: u32) -> Lines {
    let mut random = Random::new(7);
    let limits: Vec<u32> = (0..1024)
        .map(|_| {
            reference - (u64::from(random.below(200_000)) * u64::from(reference) / 1_000_000) as u32
        })
        .collect();
    book(&mut random, &limits, 0)
}

/// Changes something that may make the lines unsound.
pub fn damaged_book(random: &mut Random, book: &mut Lines) {
    match random.below(12) {
        0 => book.used += random.below(3) as usize,
        1 => book.next = book.next.saturating_sub(u64::from(random.below(4))),
        2 => book.lines.resize(1020 + random.below(8) as usize, FREE),
        _ if book.lines.is_empty() => book.used = 1,
        damage => {
            let i = random.below(book.lines.len() as u32) as usize;
            let line = &mut book.lines[i];
            let value = random.one_of(&[0, 1, 2, 3, 65_536, 100_001, 1_000_000_001, u32::MAX]);
            match damage {
                3 => line.number = value,
                4 => line.member = value,
                5 => line.side = value,
                6 => line.limit = value,
                7 => line.entered = value,
                8 => line.left = value,
                9 => {
                    line.last_day = random.one_of(&[20_230_229, 20_240_229, 20_991_232, 21_000_101])
                }
                10 => *line = FREE,
                _ => book.lines.swap(i, 0),
            }
        }
    }
}

/// A flat or a table ladder about some price, now and then with a value out of range.
pub fn random_auction(random: &mut Random) -> Auction {
    let band = random.below(7);
    let step = random.one_of(&[1, 2, 7, 100, 5_000, 1_000_000]);
    let references = [
        5,
        300,
        2_000,
        20_000,
        100_250,
        7_654_321,
        999_999_999,
        1_000_000_000,
    ];
    let mut auction = Auction {
        band,
        step: if band == 0 { step } else { 0 },
        reference: random.one_of(&references),
        percent: random.below(29),
    };
    match random.below(200) {
        0 => auction.percent = 101,
        1 => auction.reference = 0,
        2 => auction.reference = 1_000_000_001,
        3 => (auction.band, auction.step) = (0, 0),
        4 => (auction.band, auction.step) = (0, 1_000_001),
        5 => auction.band = 7,
        _ => {}
    }
    auction
}
