// The books and runs of prices that are timed.

use published::orderbook::desk::{Desk, Holder, Settings, Stop};
use published::{Id, Side, Uuid};

pub struct Plan {
    pub stops: Vec<Stop>,
    pub prices: Vec<u64>,
}

const PRINTS: u64 = 4096;
const BASE: u64 = 1_000_000;

/// Identities of all three kinds, none in order.
fn identity(i: u64) -> Id {
    let bytes = (u128::from(i.wrapping_mul(0x9e37_79b9_7f4a_7c15)) << 64 | u128::from(i)).to_be_bytes();
    match i % 3 {
        0 => Id::Uuid(Uuid::from_bytes(bytes)),
        1 => Id::Ulid(bytes),
        _ => Id::Sequential(bytes),
    }
}

/// Seven holders that differ in their last word.
pub fn holder(i: u64) -> Holder {
    [u64::MAX, 1, 2, i % 7]
}

fn stop(i: u64, side: Side, watermark: u64, trail: u64) -> Stop {
    let stop = match side {
        Side::Sell => watermark - trail,
        Side::Buy => watermark + trail,
    };
    Stop { id: identity(i), side, stop, watermark, trail, quantity: 1 + i % 7, seq: 0, holder: holder(i) }
}

/// Every print moves every stop.
pub fn steady() -> Plan {
    Plan { stops: (0..500).map(|i| stop(i, Side::Sell, BASE, 100_000 + i)).collect(), prices: (1..=PRINTS).map(|k| BASE + k).collect() }
}

/// The prices pass one watermark after the other.
pub fn spread() -> Plan {
    Plan {
        stops: (0..500).map(|i| stop(i, Side::Sell, BASE + 10 * i, 100_000 + i % 50)).collect(),
        prices: (1..=PRINTS).map(|k| BASE + k * 5000 / PRINTS).collect(),
    }
}

pub fn mixed() -> Plan {
    let one = |i| if i % 2 == 0 { stop(i, Side::Sell, BASE, 100_000 + i) } else { stop(i, Side::Buy, BASE, 100_000 + i) };
    Plan { stops: (0..500).map(one).collect(), prices: (1..=PRINTS).map(|k| BASE + k).collect() }
}

/// Prices between every stop and every watermark.
pub fn idle() -> Plan {
    Plan { stops: (0..500).map(|i| stop(i, Side::Sell, BASE, 100_000 + i)).collect(), prices: (1..=PRINTS).map(|k| BASE - k).collect() }
}

/// Each price elects one stop.
pub fn falling() -> Plan {
    Plan { stops: (0..500).map(|i| stop(i, Side::Sell, BASE, 100_000 + i)).collect(), prices: (0..500).map(|k| BASE - 100_000 - k).collect() }
}

pub fn at_once() -> Plan {
    Plan { stops: (0..500).map(|i| stop(i, Side::Sell, BASE, 100_000 + i)).collect(), prices: vec![1] }
}

/// Sells and buys at many prices, with ties.
pub fn full(n: u64) -> Vec<Stop> {
    let one = |i| if i % 2 == 0 { stop(i, Side::Sell, BASE + i * 37 % 101, 1_000 + 5 * (i % 11)) } else { stop(i, Side::Buy, BASE - i * 37 % 101, 1_000 + 5 * (i % 11)) };
    (0..n).map(one).collect()
}

/// Prices across the stops of a full store, those of the buys and those of the sells in turn.
pub fn ladder(many: usize) -> Vec<u64> {
    (0..many as u64).map(|k| if k % 2 == 0 { BASE + 1_060 - 2 * k } else { BASE - 1_060 + 2 * k }).collect()
}

/// A run that turns after so many prices; for 0 it rises all the way.
pub fn sawtooth(stretch: u64) -> Vec<u64> {
    (0..PRINTS).map(|k| if stretch == 0 { BASE + k } else if k / stretch % 2 == 0 { BASE + k % stretch } else { BASE + stretch - k % stretch }).collect()
}

/// A run by chance, the same in every run of the bench.
pub fn restless() -> Vec<u64> {
    let mut state: u64 = 5;
    let mut step = || {
        state = state.wrapping_mul(6364136223846793005).wrapping_add(1442695040888963407);
        state >> 33
    };
    (0..PRINTS).map(|_| BASE + step() % 1_000).collect()
}

/// The published book with these stops, admitted in turn.
pub fn book_of(stops: &[Stop]) -> Desk {
    let settings = Settings { tick: 0, kill: false, collar: 5, namespace: Uuid::from_bytes([0; 16]), last_trade: None };
    let desk = Desk::new(settings).expect("a book");
    for stop in stops {
        desk.admit(*stop).expect("an answer").expect("admitted");
    }
    desk
}
