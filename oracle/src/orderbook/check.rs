// What must hold before a vector is worth anything: the published vectors of SHA-1 and of version 5 UUIDs, and document 01's examples
// and document 02's holders on the published code.

use super::desk::{Desk, Selector, Settings, Stop, terms};
use super::repricing::calculate_trailing_stop_price;
use super::stop_protection::StopProtection;
use crate::sha1::sha1;
use pricelevel::{Id, Side, Uuid};

const TOP: u64 = u64::MAX;

struct Checks {
    done: u64,
    failed: Vec<String>,
}

impl Checks {
    fn equal<A: PartialEq + std::fmt::Debug>(&mut self, what: &str, found: A, expected: A) {
        self.done += 1;
        if found != expected {
            self.failed.push(format!("{what}: {found:?}, not {expected:?}"));
        }
    }
}

pub fn run() -> Result<(), String> {
    let mut checks = Checks { done: 0, failed: Vec::new() };
    digests(&mut checks);
    leaves(&mut checks);
    segments(&mut checks)?;
    holders(&mut checks)?;
    if checks.failed.is_empty() {
        println!("{} checks passed", checks.done);
        Ok(())
    } else {
        Err(checks.failed.join("\n"))
    }
}

fn hex(bytes: &[u8]) -> String {
    bytes.iter().map(|byte| format!("{byte:02x}")).collect()
}

fn digests(checks: &mut Checks) {
    // The messages that NIST publishes for SHA-1.
    let million = vec![b'a'; 1_000_000];
    let messages: [(&[u8], &str); 5] = [
        (b"", "da39a3ee5e6b4b0d3255bfef95601890afd80709"),
        (b"abc", "a9993e364706816aba3e25717850c26c9cd0d89d"),
        (b"abcdbcdecdefdefgefghfghighijhijkijkljklmklmnlmnomnopnopq", "84983e441c3bd26ebaae4aa1f95129e5e54670f1"),
        (
            b"abcdefghbcdefghicdefghijdefghijkefghijklfghijklmghijklmnhijklmnoijklmnopjklmnopqklmnopqrlmnopqrsmnopqrstnopqrstu",
            "a49b2446a02c645bf419f995b67091253a04a259",
        ),
        (&million, "34aa973cd4c4daa4f61eeb2bdbad27316534016f"),
    ];
    for (message, digest) in messages {
        checks.equal("sha-1", hex(&sha1(message)), digest.to_string());
    }
    // RFC 9562, A.4: www.example.com in the DNS namespace.
    let dns = Uuid::from_bytes(0x6ba7b810_9dad_11d1_80b4_00c04fd430c8_u128.to_be_bytes());
    let made = Uuid::new_v5(&dns, b"www.example.com").into_bytes();
    checks.equal("uuid 5", hex(&made), "2ed6657de927568b95e12665a8aea6a2".to_string());
}

fn leaves(checks: &mut Checks) {
    use Side::{Buy, Sell};
    let trailed: [(Side, u64, u64, u64, u64, u64, u64); 6] = [
        (Sell, 90, 100, 10, 105, 95, 105),
        (Sell, 90, 100, 10, 100, 90, 100),
        (Sell, 90, 100, 200, 105, 90, 105),
        (Sell, 95, 100, 10, 101, 95, 101),
        (Buy, 110, 100, 10, 95, 105, 95),
        (Buy, TOP, TOP, 10, TOP - 2, TOP, TOP - 2),
    ];
    for (side, stop, watermark, trail, price, new_stop, new_watermark) in trailed {
        let found = terms(side, stop, watermark, trail).trailed(u128::from(price));
        checks.equal("trailed", found, terms(side, new_stop, new_watermark, trail));
    }
    for (side, stop, price, elects) in [(Sell, 95, 95, true), (Sell, 95, 96, false), (Buy, 105, 105, true), (Buy, 105, 104, false)] {
        checks.equal("elected_by", terms(side, stop, stop, 1).elected_by(price), elects);
    }
    // The last is the one that document 02 changes.
    let limits: [(Side, u64, u128, u128); 3] = [(Sell, 95, 5, 90), (Sell, 95, 100, 0), (Buy, TOP, 1, 1 << 64)];
    for (side, stop, collar, limit) in limits {
        let found = StopProtection::try_new(collar).map(|protection| protection.limit_for(side, u128::from(stop)));
        checks.equal("limit_for", found, Ok(limit));
    }
    checks.equal("preview", calculate_trailing_stop_price(Sell, 90, 10, 100, 105), Some((95, 105)));
    checks.equal("preview", calculate_trailing_stop_price(Sell, 95, 10, 100, 101), None);
}

/// Each stop is held by [low, 0, 0, 7].
fn desk(stops: &[(u64, Side, u64, u64, u64)]) -> Result<Desk, String> {
    let desk = Desk::new(Settings { tick: 0, kill: false, collar: 0, namespace: Uuid::from_bytes([0; 16]), last_trade: None })?;
    for &(low, side, stop, watermark, trail) in stops {
        desk.admit(Stop { id: Id::from_words(2, 0, low), side, stop, watermark, trail, quantity: 1, seq: 0, holder: [low, 0, 0, 7] })?
            .map_err(|number| format!("an example is refused: {number}"))?;
    }
    Ok(desk)
}

/// Low word and trigger price of each stop that a segment elects.
fn elected(desk: &Desk, prev: Option<u64>, first: u64, last: u64) -> Result<Vec<(u64, u64)>, String> {
    desk.print(prev, first, last);
    Ok(desk.run(&[])?.elected.iter().map(|elected| (elected.stop.id.words()[2], elected.trigger)).collect())
}

fn segments(checks: &mut Checks) -> Result<(), String> {
    use Side::{Buy, Sell};
    let both = [(1, Sell, 100, 100, 10), (2, Buy, 100, 100, 10)];
    checks.equal("rising: buys first", elected(&desk(&both)?, None, 100, 101)?, vec![(2, 100), (1, 100)]);
    checks.equal("level: sells first", elected(&desk(&both)?, None, 100, 100)?, vec![(1, 100), (2, 100)]);

    // The turning run 100, 110, 100, from its ends and print by print.
    let turning = [(1, Sell, 95, 100, 5)];
    checks.equal("turning, ends", elected(&desk(&turning)?, None, 100, 100)?, vec![]);
    let walked = desk(&turning)?;
    checks.equal("turning, first", elected(&walked, None, 100, 100)?, vec![]);
    checks.equal("turning, second", elected(&walked, Some(100), 110, 110)?, vec![]);
    checks.equal("turning, third", elected(&walked, Some(110), 100, 100)?, vec![(1, 100)]);

    // The example of `forecast`, from its ends and print by print.
    let two = [(7, Sell, 98, 100, 10), (9, Sell, 95, 100, 10)];
    checks.equal("forecast, ends", elected(&desk(&two)?, None, 100, 94)?, vec![(7, 94), (9, 94)]);
    let walked = desk(&two)?;
    checks.equal("forecast, first", elected(&walked, None, 100, 100)?, vec![]);
    checks.equal("forecast, second", elected(&walked, Some(100), 97, 97)?, vec![(7, 97)]);
    checks.equal("forecast, third", elected(&walked, Some(97), 94, 94)?, vec![(9, 94)]);
    Ok(())
}

/// Low words of the identities of what is collected.
fn collected(desk: &Desk, selector: Selector) -> Result<Vec<u64>, String> {
    Ok(desk.collect(selector)?.iter().map(|stop| stop.id.words()[2]).collect())
}

fn holders(checks: &mut Checks) -> Result<(), String> {
    use Side::{Buy, Sell};
    let desk = desk(&[(1, Sell, 95, 100, 5), (2, Buy, 105, 100, 5), (3, Sell, 94, 100, 5), (4, Sell, 95, 100, 5)])?;
    checks.equal("of a holder", collected(&desk, Selector::Holder([3, 0, 0, 7]))?, vec![3]);
    checks.equal("of no holder", collected(&desk, Selector::Holder([3, 0, 0, 8]))?, vec![]);
    checks.equal("of a side", collected(&desk, Selector::Side(Sell))?, vec![1, 3, 4]);
    checks.equal("closed at both ends", collected(&desk, Selector::Range(95, 105))?, vec![1, 2, 4]);
    checks.equal("lowest above highest", collected(&desk, Selector::Range(95, 94))?, vec![]);
    let cancelled = desk.mass_cancel(Selector::Range(95, 95))?;
    checks.equal("cancelled in turn", cancelled.iter().map(|stop| stop.holder).collect(), vec![[1, 0, 0, 7], [4, 0, 0, 7]]);
    checks.equal("left", collected(&desk, Selector::Range(0, TOP))?, vec![2, 3]);
    Ok(())
}
