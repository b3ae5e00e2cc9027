//! Tests of the Rust face over the static library: document 01's examples, each refusal once, and what the calls do to store and path.
//! Each check prints what differs; the exit status is 1 if any did.

#[path = "../rust/yubtomiq.rs"]
mod yubtomiq;

use std::fmt::Debug;
use yubtomiq::*;

const MAX: u64 = u64::MAX;

/// How many checks were made, and how many failed.
#[derive(Default)]
struct Checks {
    made: u32,
    failed: u32,
}

impl Checks {
    fn same<T: PartialEq + Debug>(&mut self, what: &str, got: T, expected: T) {
        self.made += 1;
        if got != expected {
            self.failed += 1;
            println!("{what}: got {got:?}, expected {expected:?}");
        }
    }

    fn refused<T: PartialEq + Debug>(&mut self, got: Result<T, Refusal>, expected: Refusal) {
        self.same(&format!("refusal {}", expected.number()), got, Err(expected));
    }
}

fn terms(side: Side, stop: u64, watermark: u64, trail: u64) -> StopTerms {
    StopTerms { side, stop, watermark, trail }
}

fn sell(stop: u64, watermark: u64, trail: u64) -> StopTerms {
    terms(Side::Sell, stop, watermark, trail)
}

fn buy(stop: u64, watermark: u64, trail: u64) -> StopTerms {
    terms(Side::Buy, stop, watermark, trail)
}

/// The holder of the stop with this number: even and odd ones differ in the last word.
fn holder(number: u64) -> Holder {
    Holder { words: [7, 8, 9, number % 2] }
}

/// A store of n records with these stops, sequential identities 1, 2, .., quantities 10, 20, .. and two holders.
fn store(n: u64, tick: u64, stops: &[StopTerms]) -> Store {
    let mut s = Store::new(n, tick).expect("a layout in range");
    for (i, &t) in stops.iter().enumerate() {
        let i = i as u64 + 1;
        let admitted = s.admit_trailing_stop(&mut PrintPath::default(), false, None, Id::sequential(i), t, 10 * i, holder(i));
        admitted.expect("an admission in order");
    }
    s
}

fn prints(prev: Option<u64>, first: u64, last: u64) -> Prints {
    Prints { prev, first, last }
}

fn names(elected: &[Elected]) -> Vec<(u64, u64)> {
    elected.iter().map(|e| (e.id.low, e.trigger)).collect()
}

// ---------------------------------------------------------------------
// Terms, limit and child

fn terms_examples(c: &mut Checks) {
    c.same("sell at 105", sell(90, 100, 10).trailed(105), sell(95, 105, 10));
    c.same("sell at 100", sell(90, 100, 10).trailed(100), sell(90, 100, 10));
    c.same("sell, trail 200, at 105", sell(90, 100, 200).trailed(105), sell(90, 105, 200));
    c.same("sell at 101", sell(95, 100, 10).trailed(101), sell(95, 101, 10));
    c.same("buy at 95", buy(110, 100, 10).trailed(95), buy(105, 95, 10));
    c.same("buy at the top", buy(MAX, MAX, 10).trailed(MAX - 2), buy(MAX, MAX - 2, 10));
    c.same("sell 95 at 95", sell(95, 100, 5).elected_by(95), true);
    c.same("sell 95 at 96", sell(95, 100, 5).elected_by(96), false);
    c.same("buy 105 at 105", buy(105, 100, 5).elected_by(105), true);
    c.same("buy 105 at 104", buy(105, 100, 5).elected_by(104), false);
    c.same("consistent", sell(95, 100, 5).inconsistency(), None);
    c.same("trail zero", buy(105, 100, 0).inconsistency(), Some(Refusal::ZeroTrail));
    c.same("buy below its watermark", buy(99, 100, 5).inconsistency(), Some(Refusal::StopBeyondWatermark));
}

fn limit_examples(c: &mut Checks) {
    c.same("preview", calculate_trailing_stop_price(Side::Sell, 90, 10, 100, 105), Some((95, 105)));
    c.same("no preview", calculate_trailing_stop_price(Side::Sell, 95, 10, 100, 101), None);
    c.same("sell 95 collar 5", limit_price(collar(5).ok(), Side::Sell, 95), Some(90));
    c.same("sell 95 collar 100", limit_price(collar(100).ok(), Side::Sell, 95), Some(0));
    c.same("buy at the top, collar 1", limit_price(collar(1).ok(), Side::Buy, MAX), Some(1 << 64));
    c.same("buy at the top, collar at the top", limit_price(collar(MAX).ok(), Side::Buy, MAX), Some(2 * u128::from(MAX)));
    c.same("buy up to the top", limit_price(collar(1).ok(), Side::Buy, MAX - 1), Some(u128::from(MAX)));
    c.same("no collar", limit_price(None, Side::Buy, 95), None);
    let five = collar(5).expect("a collar");
    c.same("tick 0", check_tick_size(five, 0), Ok(()));
    c.refused(collar(0), Refusal::ZeroCollar);
    c.refused(check_tick_size(five, 2), Refusal::CollarOffTick);
    let id = Id { kind: IdKind::Ulid, high: 0x0123_4567_89ab_cdef, low: 0xfedc_ba98_7654_3210 };
    let dns = Namespace { high: 0x6ba7_b810_9dad_11d1, low: 0x80b4_00c0_4fd4_30c8 };
    let child = stop_trigger_order_id(dns, id);
    // Worked out apart: SHA-1 of the namespace and the name, with version and variant put in.
    c.same("child", child, Id { kind: IdKind::Uuid, high: 0xb47b_8480_30fa_5d5f, low: 0x96a4_18cd_ea2a_d294 });
}

// ---------------------------------------------------------------------
// The store

fn refusals(c: &mut Checks) {
    let mut closed = PrintPath::default();
    let mut s = store(3, 5, &[sell(95, 100, 5), buy(105, 100, 5)]);
    let before = s.clone();
    let one = Id::sequential(1);
    let three = Id::sequential(3);
    let ok = sell(90, 100, 10);
    let mut admit = |s: &mut Store, kill, trade, id, t, q| s.admit_trailing_stop(&mut closed, kill, trade, id, t, q, holder(1));
    c.refused(Store::new(0, 0).map(|_| ()), Refusal::LayoutOutOfRange);
    c.refused(Store::new(MOST_RECORDS + 1, 0).map(|_| ()), Refusal::LayoutOutOfRange);
    c.same("the most records", Store::new(MOST_RECORDS, 0).is_ok(), true);
    c.refused(admit(&mut s, true, None, three, ok, 1), Refusal::KillSwitchActive);
    c.refused(admit(&mut s, false, None, three, ok, 0), Refusal::ZeroQuantity);
    c.refused(admit(&mut s, false, None, three, sell(90, 100, 0), 1), Refusal::ZeroTrail);
    c.refused(admit(&mut s, false, None, three, sell(101, 100, 5), 1), Refusal::StopBeyondWatermark);
    c.refused(admit(&mut s, false, Some(90), three, ok, 1), Refusal::StopWouldTrigger);
    c.refused(admit(&mut s, false, None, one, ok, 1), Refusal::DuplicateOrderId);
    c.refused(admit(&mut s, false, None, three, sell(90, 100, 12), 1), Refusal::TrailOffTick);
    c.refused(s.cancel_pending_stop(three), Refusal::OrderNotFound);
    c.refused(s.update_pending_stop(one, Update::Price(95), None), Refusal::SamePrice);
    c.refused(s.evaluate_pending_stops(Settings::default(), &[1, 0], prints(None, 100, 100)), Refusal::InvalidScript);
    c.refused(s.walk(Settings::default(), None, &[]), Refusal::PriceCountOutOfRange);
    c.refused(s.walk(Settings::default(), None, &[100; 4097]), Refusal::PriceCountOutOfRange);
    c.refused(s.ladder(&[]), Refusal::TrialPriceCountOutOfRange);
    c.refused(s.ladder(&[100; MOST_TRIAL_PRICES + 1]), Refusal::TrialPriceCountOutOfRange);
    c.same("a refused call alters nothing", &s, &before);
    c.same("the third admission", admit(&mut s, false, None, three, ok, 1), Ok(2));
    c.refused(admit(&mut s, false, None, Id::sequential(4), ok, 1), Refusal::NoFreeRecord);
    let mut words = store(3, 0, &[]).into_words();
    words[2] = MAX;
    let mut last = Store::from_words(words);
    c.refused(admit(&mut last, false, None, one, ok, 1), Refusal::SequenceExhausted);
}

fn damaged(c: &mut Checks) {
    let mut words = store(3, 0, &[sell(95, 100, 5)]).into_words();
    words[1] = 2;
    for words in [words, vec![], vec![MAX; 20]] {
        let mut s = Store::from_words(words.clone());
        let mut path = PrintPath { open: true, has_prev: true, prev: 7, first: 8 };
        let one = Id::sequential(1);
        let no = Refusal::StoreNotWellFormed;
        c.same("damaged", s.is_well_formed(), false);
        c.refused(s.admit_trailing_stop(&mut path, true, None, one, sell(0, 0, 0), 0, holder(1)), no);
        c.refused(s.update_pending_stop(one, Update::Quantity(0), None), no);
        c.refused(s.cancel_pending_stop(one), no);
        c.refused(s.pending_stop_order(one), no);
        c.refused(s.pending_stop_quantity(), no);
        c.refused(s.collect(Selector::BySide(Side::Sell)), no);
        c.refused(s.mass_cancel(Selector::BySide(Side::Sell)), no);
        c.refused(s.ladder(&[]), no);
        c.refused(s.clear(&mut path), no);
        c.refused(s.segment(Settings::default(), prints(None, 1, 1)), no);
        c.refused(s.step(Settings::default(), true, None, 1), no);
        c.refused(s.walk(Settings::default(), None, &[]), no);
        c.refused(s.evaluate_pending_stops(Settings::default(), &[2], prints(None, 1, 1)), no);
        c.refused(s.run_stop_triggers(&mut path, Settings::default(), &[2], None), no);
        c.same("its words", s.into_words(), words);
        c.same("the path", path, PrintPath { open: true, has_prev: true, prev: 7, first: 8 });
    }
}

fn changes(c: &mut Checks) {
    let mut s = store(4, 0, &[sell(95, 100, 5), buy(105, 100, 5)]);
    let one = Id::sequential(1);
    let at = |terms, quantity, seq| Stop { id: one, terms, quantity, seq, holder: holder(1) };
    c.same("find", s.pending_stop_order(one), Ok(Some(at(sell(95, 100, 5), 10, 0))));
    c.same("find none", s.pending_stop_order(Id::sequential(9)), Ok(None));
    c.same("totals", s.pending_stop_quantity(), Ok(Totals { sell: 10, buy: 20 }));
    c.same("quantity", s.update_pending_stop(one, Update::Quantity(MAX), None), Ok(at(sell(95, 100, 5), MAX, 0)));
    c.same("price", s.update_pending_stop(one, Update::Price(96), None), Ok(at(sell(96, 100, 5), MAX, 2)));
    let both = Update::PriceAndQuantity { price: 96, quantity: 7 };
    c.same("price and quantity", s.update_pending_stop(one, both, None), Ok(at(sell(96, 100, 5), 7, 3)));
    let replace = Update::Replace { side: Side::Buy, price: 104, quantity: MAX };
    c.same("replace", s.update_pending_stop(one, replace, None), Ok(at(buy(104, 100, 5), MAX, 4)));
    c.same("two words", s.pending_stop_quantity(), Ok(Totals { sell: 0, buy: MAX as u128 + 20 }));
    c.same("pending", s.pending(), 2);
    c.same("zero cancels", s.update_pending_stop(one, Update::Quantity(0), None), Ok(at(buy(104, 100, 5), MAX, 4)));
    c.same("one is left", s.pending(), 1);
    let mut path = PrintPath { open: true, has_prev: true, prev: 7, first: 8 };
    c.same("clear", s.clear(&mut path), Ok(()));
    c.same("cleared", &s, &store(4, 0, &[]));
    c.same("path closed", path, PrintPath { open: false, has_prev: true, prev: 7, first: 8 });
}

fn collects(c: &mut Checks) {
    let stops = [sell(95, 100, 5), buy(105, 100, 5), sell(94, 100, 5), sell(95, 100, 10), buy(95, 90, 5)];
    let mut s = store(6, 0, &stops);
    let numbers = |found: Result<Vec<Stop>, Refusal>| found.map(|stops| stops.iter().map(|s| s.id.low).collect::<Vec<u64>>());
    let range = |lowest, highest| Selector::ByPriceRange { lowest, highest };
    let first = Stop { id: Id::sequential(1), terms: sell(95, 100, 5), quantity: 10, seq: 0, holder: holder(1) };
    c.same("of a holder", numbers(s.collect(Selector::ByHolder(holder(1)))), Ok(vec![1, 3, 5]));
    c.same("of nobody", numbers(s.collect(Selector::ByHolder(Holder::default()))), Ok(vec![]));
    c.same("of a side", numbers(s.collect(Selector::BySide(Side::Buy))), Ok(vec![2, 5]));
    c.same("closed at both ends", numbers(s.collect(range(94, 95))), Ok(vec![1, 3, 4, 5]));
    c.same("one price", numbers(s.collect(range(105, 105))), Ok(vec![2]));
    c.same("all", numbers(s.collect(range(0, MAX))), Ok(vec![1, 2, 3, 4, 5]));
    c.same("lowest above highest", numbers(s.collect(range(95, 94))), Ok(vec![]));
    c.same("the stop as it is", s.collect(range(95, 95)).map(|stops| stops[0]), Ok(first));
    c.same("a change of price", s.update_pending_stop(Id::sequential(1), Update::Price(94), None).map(|s| s.seq), Ok(5));
    c.same("by rising sequence", numbers(s.collect(Selector::ByHolder(holder(1)))), Ok(vec![3, 5, 1]));
    let mut one_by_one = s.clone();
    for number in [3, 4, 1] {
        c.same("a cancel", one_by_one.cancel_pending_stop(Id::sequential(number)).is_ok(), true);
    }
    c.same("mass cancel", numbers(s.mass_cancel(Selector::BySide(Side::Sell))), Ok(vec![3, 4, 1]));
    c.same("the store of the cancels", &s, &one_by_one);
    c.same("the next record", s.words()[8], 1);
    c.same("left", numbers(s.collect(range(0, MAX))), Ok(vec![2, 5]));
    c.same("none to cancel", numbers(s.mass_cancel(Selector::BySide(Side::Sell))), Ok(vec![]));
    c.same("everything", numbers(s.mass_cancel(range(0, MAX))), Ok(vec![2, 5]));
    c.same("empty", numbers(s.mass_cancel(range(0, MAX))), Ok(vec![]));
    let bytes: [u8; 32] = std::array::from_fn(|i| i as u8);
    c.same("big-endian", Holder::from_bytes(bytes).words[3], 0x1819_1a1b_1c1d_1e1f);
    c.same("its bytes", Holder::from_bytes(bytes).to_bytes(), bytes);
}

/// The ladder on the store of the forecast and on both sides; and each bit against a walk over its price alone, on a copy.
fn ladders(c: &mut Checks) {
    let entry = |word, count, first| LadderEntry { word, count, first };
    let s = store(3, 0, &[sell(98, 100, 10), sell(95, 100, 10)]);
    c.same("ladder", s.ladder(&[94, 96, 98, 99]), Ok(vec![entry(7, 3, Some(0)), entry(1, 1, Some(0))]));
    let mut last = [99; MOST_TRIAL_PRICES];
    last[63] = 98;
    c.same("bit 63, and none", s.ladder(&last), Ok(vec![entry(1 << 63, 1, Some(63)), entry(0, 0, None)]));
    c.same("all", s.ladder(&[0; MOST_TRIAL_PRICES]), Ok(vec![entry(MAX, 64, Some(0)); 2]));
    c.same("no stop", store(3, 0, &[]).ladder(&[1]), Ok(vec![]));
    let mut s = store(5, 0, &[sell(95, 100, 5), buy(105, 100, 5), sell(0, 100, 5), buy(MAX, 100, 5)]);
    c.same("the first is listed last", s.update_pending_stop(Id::sequential(1), Update::Price(94), None).map(|s| s.seq), Ok(4));
    let before = s.clone();
    let prices = [94, 95, 0, MAX, 105, 104, 200];
    let entries = s.ladder(&prices).expect("a ladder");
    let ids: Vec<Id> = s.collect(Selector::ByPriceRange { lowest: 0, highest: MAX }).expect("stops").iter().map(|s| s.id).collect();
    for (j, &price) in prices.iter().enumerate() {
        let elected = s.clone().walk(Settings::default(), None, &[price]).expect("a walk").elected;
        for (id, e) in ids.iter().zip(&entries) {
            c.same("a bit and a walk", e.elected_by(j), elected.iter().any(|x| x.id == *id));
        }
    }
    c.same("beyond the prices", entries.iter().any(|e| (prices.len()..100).any(|j| e.elected_by(j))), false);
    c.same("the store stays", &s, &before);
}

// ---------------------------------------------------------------------
// Evaluation

fn forecast_example(c: &mut Checks) {
    let header = [2, 2, 2, 0, 1, 1, 0, 0, 0];
    let records = [[2, 0, 7, 1, 98, 100, 10, 1, 0, 2, 2, 0, 0, 0, 0], [2, 0, 9, 1, 95, 100, 10, 1, 1, 0, 0, 0, 0, 0, 0]];
    let words = [&header[..], records.as_flattened()].concat();
    let mut s = Store::from_words(words.clone());
    c.same("well formed", s.is_well_formed(), true);
    let walk = s.walk(Settings::default(), None, &[100, 97, 94]).expect("a walk");
    c.same("walk", names(&walk.elected), vec![(7, 97), (9, 94)]);
    let ends = Store::from_words(words).segment(Settings::default(), prints(None, 100, 94)).expect("a segment");
    c.same("ends", names(&ends.elected), vec![(7, 94), (9, 94)]);
    let stop = (ends.elected[0].stop, ends.elected[0].seq, ends.elected[1].stop, ends.elected[1].seq);
    c.same("stops and sequences", stop, (98, 0, 95, 1));
}

fn order_example(c: &mut Checks) {
    let both = [sell(100, 100, 10), buy(100, 100, 10)];
    for (last, order) in [(101, vec![(2, 100), (1, 100)]), (100, vec![(1, 100), (2, 100)])] {
        let done = store(2, 0, &both).segment(Settings::default(), prints(None, 100, last)).expect("a segment");
        c.same("which side first", names(&done.elected), order);
    }
}

fn turning_example(c: &mut Checks) {
    let mut s = store(1, 0, &[sell(95, 100, 5)]);
    let mut ends = s.clone();
    let walk = s.walk(Settings::default(), None, &[100, 110, 100]).expect("a walk");
    c.same("a turning run elects", names(&walk.elected), vec![(1, 100)]);
    c.same("its moves", walk.moves, 1);
    let ends = ends.segment(Settings::default(), prints(None, 100, 100)).expect("a segment");
    c.same("its ends do not", ends, Segment { moved: vec![], elected: vec![] });
}

fn run_and_ends(c: &mut Checks) {
    let stops = [sell(95, 100, 5), sell(97, 99, 3), buy(104, 101, 2), buy(102, 100, 2), sell(80, 100, 20), buy(106, 103, 3)];
    let settings = Settings { kill: false, collar: collar(2).ok(), namespace: Namespace { high: 1, low: 2 } };
    for run in [&[100, 98, 97, 96, 90][..], &[99, 101, 102, 107], &[100], &[104, 104, 103]] {
        let mut walked = store(8, 0, &stops);
        let mut ends = walked.clone();
        let walk = walked.walk(settings, Some(100), run).expect("a walk");
        let (first, last) = (run[0], run[run.len() - 1]);
        let segment = ends.segment(settings, prints(Some(100), first, last)).expect("a segment");
        let alike = |e: &[Elected]| e.iter().map(|e| Elected { trigger: 0, ..*e }).collect::<Vec<_>>();
        c.same("elected by the run and by its ends", alike(&walk.elected), alike(&segment.elected));
        c.same("the stores after them", &walked, &ends);
        c.same("well formed", walked.is_well_formed(), true);
        c.same("pending and elected", walked.pending() + walk.elected.len() as u64, 6);
        for e in &walk.elected {
            c.same("limit", e.limit, limit_price(settings.collar, e.side, e.stop));
            c.same("child", e.child, stop_trigger_order_id(settings.namespace, e.id));
            c.same("child pending", e.child_pending, false);
        }
    }
}

/// Asked, then committed: alike the segment with nothing between; after a change that does not touch the lists; and refused after one that does, under
/// another setting, and with any field of an entry, or the length of a list, other than asked.
fn asked_and_committed(c: &mut Checks) {
    let whole = store(4, 0, &[sell(95, 100, 5), sell(80, 100, 20), buy(104, 100, 4), sell(97, 99, 3)]);
    let settings = Settings { kill: false, collar: collar(2).ok(), namespace: Namespace { high: 1, low: 2 } };
    let run = prints(Some(100), 98, 94);
    let mut s = whole.clone();
    let asked = s.ask_segment(settings, run).expect("asking");
    c.same("asking leaves the store", &s, &whole);
    let mut done = whole.clone();
    c.same("asked as done", Ok(&asked), done.segment(settings, run).as_ref());
    c.same("asked: moved and elected", (asked.moved.len(), asked.elected.len()), (2, 2));
    let counts = Counts { moves: 2, elected: 2 };
    c.same("committed", s.commit_segment(settings, run, &asked.elected, &asked.moved), Ok(counts));
    c.same("as the segment leaves it", &s, &done);

    // a stop that lies aside comes and goes, and the lists stand; one more that is elected, and they do not
    let mut s = whole.clone();
    s.cancel_pending_stop(Id::sequential(2)).expect("a stop that is pending");
    c.same("committed after a cancel beside", s.commit_segment(settings, run, &asked.elected, &asked.moved), Ok(counts));
    let mut s = whole.clone();
    s.update_pending_stop(Id::sequential(2), Update::Price(96), None).expect("a stop that is pending");
    c.refused(s.commit_segment(settings, run, &asked.elected, &asked.moved), Refusal::ListsDiffer);

    let mut s = whole.clone();
    let e = asked.elected[0];
    let other = Id { kind: IdKind::Ulid, ..e.child };
    let mut lists: Vec<(Vec<Elected>, Vec<Moved>)> = [
        Elected { id: Id::sequential(9), ..e },
        Elected { side: Side::Buy, ..e },
        Elected { stop: e.stop + 1, ..e },
        Elected { quantity: e.quantity + 1, ..e },
        Elected { seq: e.seq + 1, ..e },
        Elected { trigger: e.trigger + 1, ..e },
        Elected { limit: None, ..e },
        Elected { limit: e.limit.map(|l| l + (1 << 64)), ..e },
        Elected { child: Id { high: e.child.high ^ 1, ..e.child }, ..e },
        Elected { child: Id { low: e.child.low ^ 1, ..e.child }, ..e },
        Elected { child: other, ..e },
        Elected { child_pending: true, ..e },
    ]
    .iter()
    .map(|first| (vec![*first, asked.elected[1]], asked.moved.clone()))
    .collect();
    let m = asked.moved[0];
    for first in [Moved { id: Id::sequential(9), ..m }, Moved { stop: m.stop + 1, ..m }] {
        lists.push((asked.elected.clone(), vec![first, asked.moved[1]]));
    }
    lists.push((asked.elected[..1].to_vec(), asked.moved.clone()));
    lists.push(([&asked.elected[..], &[e]].concat(), asked.moved.clone()));
    lists.push((asked.elected.clone(), asked.moved[1..].to_vec()));
    lists.push((asked.elected.clone(), [&asked.moved[..], &[m]].concat()));
    lists.push((vec![asked.elected[1], asked.elected[0]], asked.moved.clone()));
    lists.push((vec![], vec![]));
    for (elected, moved) in &lists {
        c.refused(s.commit_segment(settings, run, elected, moved), Refusal::ListsDiffer);
    }
    c.refused(s.commit_segment(Settings { kill: true, ..settings }, run, &asked.elected, &asked.moved), Refusal::ListsDiffer);
    c.refused(s.commit_segment(Settings { collar: None, ..settings }, run, &asked.elected, &asked.moved), Refusal::ListsDiffer);
    c.refused(s.commit_segment(settings, prints(Some(100), 98, 93), &asked.elected, &asked.moved), Refusal::ListsDiffer);
    c.same("refused commits alter nothing", &s, &whole);

    let mut damaged = Store::from_words(vec![1, 2, 3]);
    c.refused(damaged.ask_segment(settings, run), Refusal::StoreNotWellFormed);
    c.refused(damaged.commit_segment(settings, run, &[], &[]), Refusal::StoreNotWellFormed);
    let kill = Settings { kill: true, ..settings };
    let quiet = s.ask_segment(kill, prints(None, 98, 98)).expect("asking");
    c.same("under the kill switch", (quiet.moved.len(), quiet.elected.len()), (1, 0));
    c.same("committed under it", s.commit_segment(kill, prints(None, 98, 98), &[], &quiet.moved), Ok(Counts { moves: 1, elected: 0 }));
}

/// The steps along runs against the walk over each, on equal stores; and a tie, which a segment of one print elects the other way round.
fn steps_and_walk(c: &mut Checks) {
    let tied = [sell(100, 100, 5), buy(100, 100, 5)];
    for (falls, from, order) in [(false, None, [2, 1]), (true, None, [1, 2]), (false, Some(101), [1, 2]), (true, Some(99), [2, 1]), (false, Some(100), [2, 1])] {
        let done = store(2, 0, &tied).step(Settings::default(), falls, from, 100).expect("a step");
        c.same("which side first, in a step", names(&done.elected), order.map(|id| (id, 100)).to_vec());
    }
    let segment = store(2, 0, &tied).segment(Settings::default(), prints(None, 100, 100)).expect("a segment");
    c.same("one print counts as a fall", names(&segment.elected), vec![(1, 100), (2, 100)]);
    let stops = [sell(95, 100, 5), sell(97, 99, 3), buy(104, 101, 2), buy(102, 100, 2), sell(80, 100, 20), buy(MAX, 103, 3), sell(0, 3, 3)];
    for (kill, collar) in [(false, collar(2).ok()), (true, None)] {
        let settings = Settings { kill, collar, namespace: Namespace { high: 1, low: 2 } };
        for run in [&[100, 101][..], &[99, 101, 102, 107], &[100, 98, 97, 96, 90], &[100], &[104, 104, 103, 120, 96, 96], &[100, 0, MAX, MAX, 0]] {
            for prev in [None, Some(100), Some(run[0])] {
                let mut walked = store(8, 0, &stops);
                let mut stepped = walked.clone();
                let walk = walked.walk(settings, prev, run).expect("a walk");
                let (mut from, mut moves, mut elected) = (prev, 0, vec![]);
                for &price in run {
                    let step = stepped.step(settings, run[run.len() - 1] <= run[0], from, price).expect("a step");
                    moves += step.moved.len() as u64;
                    elected.extend(step.elected);
                    from = Some(price);
                }
                c.same("steps and walk", Walk { moves, elected }, walk);
                c.same("the stores after steps and walk", &stepped, &walked);
            }
        }
    }
    // the child of the first is the second stop: pending after the step that elects the first, and no more after the walk
    let child = stop_trigger_order_id(Namespace { high: 0, low: 0 }, Id::sequential(1));
    let mut walked = store(2, 0, &[sell(95, 100, 5)]);
    let admitted = walked.admit_trailing_stop(&mut PrintPath::default(), false, None, child, sell(90, 100, 10), 1, holder(1));
    c.same("the child's own stop", admitted, Ok(1));
    let mut stepped = walked.clone();
    let flags = |e: &[Elected]| e.iter().map(|e| e.child_pending).collect::<Vec<bool>>();
    let first = stepped.step(Settings::default(), true, None, 95).expect("a step");
    c.same("pending after the step", flags(&first.elected), vec![true]);
    let second = stepped.step(Settings::default(), true, Some(95), 90).expect("a step");
    c.same("the second has no pending child", flags(&second.elected), vec![false]);
    let walk = walked.walk(Settings::default(), None, &[95, 90]).expect("a walk");
    c.same("not pending after the walk", flags(&walk.elected), vec![false, false]);
    c.same("the stores are equal", &stepped, &walked);
}

fn limits_above_the_top(c: &mut Checks) {
    let whole = store(3, 0, &[buy(MAX - 4, 100, 5), buy(MAX, 100, 5)]);
    let settings = Settings { kill: false, collar: collar(4).ok(), namespace: Namespace { high: 0, low: 0 } };
    let limits = |e: &[Elected]| e.iter().map(|e| e.limit).collect::<Vec<_>>();
    let expected = vec![Some(u128::from(MAX)), Some((1 << 64) + 3)];
    let segment = whole.clone().segment(settings, prints(None, MAX - 5, MAX)).expect("a segment");
    c.same("limits at and above the top, by the ends", limits(&segment.elected), expected.clone());
    let walk = whole.clone().walk(settings, None, &[MAX - 5, MAX - 2, MAX]).expect("a walk");
    c.same("limits at and above the top, by the run", limits(&walk.elected), expected);
    c.same("no child is pending", walk.elected.iter().any(|e| e.child_pending), false);
}

fn moved_list(c: &mut Checks) {
    let mut s = store(3, 0, &[sell(90, 100, 10), sell(70, 95, 30)]);
    let done = s.segment(Settings { kill: true, ..Settings::default() }, prints(None, 105, 108)).expect("a segment");
    let moved: Vec<_> = done.moved.iter().map(|m| (m.id.low, m.stop)).collect();
    c.same("moved twice", moved, vec![(2, 75), (1, 95), (1, 98), (2, 78)]);
    c.same("under the kill switch", done.elected, vec![]);
}

fn passes(c: &mut Checks) {
    let stops = [sell(95, 100, 5), sell(90, 100, 10), buy(110, 100, 10)];
    let script = script_words(&[Some(prints(Some(95), 92, 90)), None]);
    let mut s = store(3, 0, &stops);
    let mut run = s.clone();
    let done = s.evaluate_pending_stops(Settings::default(), &script, prints(Some(100), 95, 95)).expect("a pass");
    c.same("the second stems from the first's prints", names(&done.elected), vec![(1, 95), (2, 90)]);
    c.same("used", done.used, 2);
    c.same("one is left", s.pending(), 1);

    let mut path = PrintPath::default();
    path.record_print(0, Some(100), 95);
    c.same("nothing pending", path, PrintPath::default());
    path.record_print(run.pending(), Some(100), 95);
    path.record_print(run.pending(), Some(95), 94);
    c.same("the first print stays", path, PrintPath { open: true, has_prev: true, prev: 100, first: 95 });
    let same = run.run_stop_triggers(&mut path, Settings::default(), &script, Some(95));
    c.same("the run passes", same, Ok(done));
    c.same("its store", &run, &s);
    c.same("its path", path, PrintPath { open: false, has_prev: true, prev: 100, first: 95 });
    let idle = run.run_stop_triggers(&mut path, Settings::default(), &[], Some(1));
    c.same("a closed path", idle, Ok(Pass { moves: 0, elected: vec![], used: 0 }));
    c.same("nothing done", &run, &s);
}

fn paths(c: &mut Checks) {
    let mut path = PrintPath::default();
    c.same("closed", path.take(Some(5)), None);
    path.record_print(1, None, 7);
    c.same("no last trade", path.take(None), Some(prints(None, 7, 7)));
    path.record_print(1, Some(6), 8);
    c.same("last trade", path.take(Some(9)), Some(prints(Some(6), 8, 9)));
    path.record_print(1, None, 3);
    path.reset();
    c.same("an absent prev is 0", path, PrintPath { open: false, has_prev: false, prev: 0, first: 3 });
}

/// A run that falls, both ways on two equal stores: the same stops in the same order, and equal stores after. Refusals one by one.
fn both_ways(c: &mut Checks) {
    let stops = [sell(95, 100, 5), sell(90, 100, 10), buy(110, 100, 10), sell(97, 100, 3)];
    let whole = store(4, 0, &stops);
    let (mut ends, mut run) = (whole.clone(), whole.clone());
    let both = evaluate_both_ways(&mut ends, &mut run, Settings::default(), None, &[99, 96, 94, 94, 80]);
    let (by_ends, by_run) = (both.ends.expect("a segment"), both.run.expect("a walk"));
    let ids = |elected: &[Elected]| elected.iter().map(|e| e.id.low).collect::<Vec<u64>>();
    c.same("both ways, elected", ids(&by_ends.elected), ids(&by_run.elected));
    c.same("both ways, how many", by_run.elected.len(), 3);
    c.same("both ways, trigger by the ends", by_ends.elected[0].trigger, 80);
    c.same("both ways, trigger by the run", by_run.elected[0].trigger, 96);
    c.same("both ways, stores", ends.words(), run.words());
    let (mut ends, mut run) = (whole.clone(), Store::from_words(vec![1, 2, 3]));
    let both = evaluate_both_ways(&mut ends, &mut run, Settings::default(), None, &[99]);
    c.same("both ways, one store damaged: the ends", both.ends.is_ok(), true);
    c.refused(both.run, Refusal::StoreNotWellFormed);
    let (mut ends, mut run) = (whole.clone(), whole.clone());
    let both = evaluate_both_ways(&mut ends, &mut run, Settings::default(), None, &[]);
    c.refused(both.ends, Refusal::PriceCountOutOfRange);
    c.refused(both.run, Refusal::PriceCountOutOfRange);
    c.same("both ways, refused: the ends' store", ends.words(), whole.words());
    c.same("both ways, refused: the run's store", run.words(), whole.words());
}

/// Turning points, and a run that turns on two equal stores, by them and by all prices: the same stops in the same order, and equal stores after.
fn both_runs(c: &mut Checks) {
    c.same("turning points", turning_points(&[3, 3, 1, 1, 1, 4, 4, 2, 2]), Ok(vec![3, 1, 4, 2]));
    c.same("turning points, level", turning_points(&[5, 5, 5]), Ok(vec![5, 5]));
    c.same("turning points, one price", turning_points(&[MAX]), Ok(vec![MAX]));
    c.same("turning points, both ends", turning_points(&[0, MAX, MAX, 0, 0]), Ok(vec![0, MAX, 0]));
    c.same("turning points, most", turning_points(&[7; MOST_PRICES]), Ok(vec![7, 7]));
    c.refused(turning_points(&[]), Refusal::PriceCountOutOfRange);
    c.refused(turning_points(&[7; MOST_PRICES + 1]), Refusal::PriceCountOutOfRange);
    let stops = [sell(95, 100, 5), sell(90, 100, 10), buy(110, 100, 10), sell(97, 100, 3)];
    let whole = store(4, 0, &stops);
    let (mut turned, mut run) = (whole.clone(), whole.clone());
    let both = evaluate_both_runs(&mut turned, &mut run, Settings::default(), Some(100), &[99, 102, 104, 104, 101, 98, 98, 105, 111]);
    let (by_turns, by_run) = (both.turns.expect("a walk"), both.run.expect("a walk"));
    let alike = |elected: &[Elected]| elected.iter().map(|e| Elected { trigger: 0, ..*e }).collect::<Vec<Elected>>();
    c.same("both runs, elected", alike(&by_turns.elected), alike(&by_run.elected));
    c.same("both runs, how many", by_run.elected.len(), 3);
    c.same("both runs, trigger by the turns", by_turns.elected[0].trigger, 98);
    c.same("both runs, trigger by the run", by_run.elected[0].trigger, 101);
    c.same("both runs, moves", (by_turns.moves, by_run.moves), (6, 10));
    c.same("both runs, stores", turned.words(), run.words());
    let (mut turned, mut run) = (whole.clone(), Store::from_words(vec![1, 2, 3]));
    let both = evaluate_both_runs(&mut turned, &mut run, Settings::default(), None, &[99]);
    c.same("both runs, one store damaged: the turns", both.turns.is_ok(), true);
    c.refused(both.run, Refusal::StoreNotWellFormed);
    let (mut turned, mut run) = (whole.clone(), whole.clone());
    let both = evaluate_both_runs(&mut turned, &mut run, Settings::default(), None, &[]);
    c.refused(both.turns, Refusal::PriceCountOutOfRange);
    c.refused(both.run, Refusal::PriceCountOutOfRange);
    c.same("both runs, refused: the stores", (turned.words(), run.words()), (whole.words(), whole.words()));
}

fn main() {
    let mut c = Checks::default();
    terms_examples(&mut c);
    limit_examples(&mut c);
    refusals(&mut c);
    damaged(&mut c);
    changes(&mut c);
    collects(&mut c);
    ladders(&mut c);
    forecast_example(&mut c);
    order_example(&mut c);
    turning_example(&mut c);
    run_and_ends(&mut c);
    asked_and_committed(&mut c);
    steps_and_walk(&mut c);
    both_ways(&mut c);
    both_runs(&mut c);
    limits_above_the_top(&mut c);
    moved_list(&mut c);
    passes(&mut c);
    paths(&mut c);
    println!("test.rs: {} checks, {} failed", c.made, c.failed);
    std::process::exit(if c.failed == 0 { 0 } else { 1 });
}
