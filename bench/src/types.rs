//! What both engines take and answer, laid out as the proved engine has it.

#[repr(C)]
#[derive(Clone, Copy, Debug, PartialEq, Eq)]
pub struct Order {
    pub number: u32,
    pub member: u32,
    pub side: u32,
    pub limit: u32,
    pub entered: u32,
    pub left: u32,
    pub last_day: u32,
}

#[repr(C)]
#[derive(Clone, Copy, Debug, PartialEq, Eq)]
pub struct Fill {
    pub number: u32,
    pub shares: u32,
}

/// Band 0 is the flat ladder of the step, bands 1 to 6 are those of the tick table.
#[repr(C)]
#[derive(Clone, Copy, Debug)]
pub struct Auction {
    pub band: u32,
    pub step: u32,
    pub reference: u32,
    pub percent: u32,
}

/// All zeros where nothing trades.
#[repr(C)]
#[derive(Clone, Copy, Debug, Default, PartialEq, Eq)]
pub struct Found {
    pub price: u32,
    pub shares: u32,
    pub surplus: u32,
}

/// The number of a refusal.
pub type Refused = u32;
