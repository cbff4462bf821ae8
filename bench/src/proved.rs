//! The proved engine, through its static library.

use crate::types::{Auction, Fill, Found, Order, Refused};

unsafe extern "C" {
    fn zubryqan_price(
        lines: *const Order,
        len: usize,
        used: usize,
        next: u64,
        auction: &Auction,
        found: &mut Found,
    ) -> u32;

    fn zubryqan_fill(
        lines: *const Order,
        len: usize,
        used: usize,
        next: u64,
        price: u32,
        trading: u32,
        fills: *mut Fill,
        records: usize,
        written: &mut usize,
    ) -> u32;
}

pub fn price(lines: &[Order], used: usize, next: u64, auction: &Auction) -> Result<Found, Refused> {
    let mut found = Found::default();
    let code =
        unsafe { zubryqan_price(lines.as_ptr(), lines.len(), used, next, auction, &mut found) };
    if code == 0 { Ok(found) } else { Err(code) }
}

pub fn fill(
    lines: &[Order],
    used: usize,
    next: u64,
    price: u32,
    trading: u32,
    fills: &mut [Fill],
) -> Result<usize, Refused> {
    let mut written = 0;
    let code = unsafe {
        zubryqan_fill(
            lines.as_ptr(),
            lines.len(),
            used,
            next,
            price,
            trading,
            fills.as_mut_ptr(),
            fills.len(),
            &mut written,
        )
    };
    if code == 0 { Ok(written) } else { Err(code) }
}
