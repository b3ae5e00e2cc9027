// Each call of a line on the compiled library, with its answers as the line has them.

use crate::words::Words;
use crate::yubtomiq::{
    Elected, HEADER_WORDS, HOLDER_WORDS, Holder, Id, IdKind, MOVED_WORDS, Namespace, PrintPath, Prints, RECORD_WORDS, Refusal, STOP_WORDS,
    Selector, Settings, Side, Stop, StopTerms, Store, Update, calculate_trailing_stop_price, check_tick_size, collar, limit_price,
    stop_trigger_order_id,
};
use std::num::NonZeroU64;

type Answer = Result<Vec<u64>, String>;

/// Where a record has its quantity, which is 0 where it is free, its sequence, its link by stop and its holder.
const QUANTITY: usize = 7;
const SEQUENCE: usize = 8;
const NEXT_BY_STOP: usize = 9;
const HOLDER: usize = RECORD_WORDS - HOLDER_WORDS;

/// The words of an elected entry of a line, and where its wide limit stands among them.
const ELECTED_WORDS: usize = 15;
const LIMIT: usize = 9;

pub fn replay(name: &str, w: &mut Words) -> Answer {
    match name {
        "trailed" => {
            let after = terms(w)?.trailed(w.next()?);
            Ok(vec![after.stop, after.watermark])
        }
        "elected_by" => Ok(vec![u64::from(terms(w)?.elected_by(w.next()?))]),
        "inconsistency" => Ok(vec![terms(w)?.inconsistency().map_or(0, Refusal::number)]),
        "limit_for" => {
            let collar = NonZeroU64::new(w.next()?);
            let limit = limit_price(collar, side(w)?, w.next()?).ok_or("no limit")?;
            Ok(wide_words(limit).to_vec())
        }
        "preview" => {
            let t = terms(w)?;
            let next = calculate_trailing_stop_price(t.side, t.stop, t.trail, t.watermark, w.next()?);
            Ok(next.map_or(vec![0, 0, 0], |(stop, reference)| vec![1, stop, reference]))
        }
        "child" => {
            let [high, low] = w.take()?;
            Ok(id_words(stop_trigger_order_id(Namespace { high, low }, id(w)?)))
        }
        "collar" => Ok(match collar(w.next()?) {
            Ok(units) => vec![0, units.get()],
            Err(refusal) => vec![refusal.number(), 0],
        }),
        "collar_tick" => {
            let units = NonZeroU64::new(w.next()?).ok_or("a collar of zero")?;
            Ok(vec![number(check_tick_size(units, w.next()?))])
        }
        "record" | "take" | "reset" => of_the_path(name, w),
        "admit" | "update" | "cancel" | "find" | "clear" => of_the_store(name, w),
        "collect" | "mass_cancel" => collected(name, w),
        "segment" | "pass" | "run" => evaluation(name, w),
        _ => Err(format!("no call {name}")),
    }
}

// ---------------------------------------------------------------------
// Values

fn side(w: &mut Words) -> Result<Side, String> {
    Ok(if w.flag()? { Side::Sell } else { Side::Buy })
}

fn terms(w: &mut Words) -> Result<StopTerms, String> {
    let side = side(w)?;
    let [stop, watermark, trail] = w.take()?;
    Ok(StopTerms { side, stop, watermark, trail })
}

fn id(w: &mut Words) -> Result<Id, String> {
    let [kind, high, low] = w.take()?;
    let kind = match kind {
        0 => IdKind::Uuid,
        1 => IdKind::Ulid,
        2 => IdKind::Sequential,
        _ => return Err("no such kind".to_string()),
    };
    Ok(Id { kind, high, low })
}

fn id_words(id: Id) -> Vec<u64> {
    vec![id.kind as u64, id.high, id.low]
}

fn stop_words(stop: Stop) -> Vec<u64> {
    let t = stop.terms;
    let mut words = id_words(stop.id);
    words.extend([t.side as u64, t.stop, t.watermark, t.trail, stop.quantity, stop.seq]);
    words.extend(stop.holder.words);
    words
}

fn holder(w: &mut Words) -> Result<Holder, String> {
    Ok(Holder { words: w.take()? })
}

fn number<T>(answer: Result<T, Refusal>) -> u64 {
    answer.err().map_or(0, Refusal::number)
}

fn path(w: &mut Words) -> Result<PrintPath, String> {
    Ok(PrintPath { open: w.flag()?, has_prev: w.flag()?, prev: w.next()?, first: w.next()? })
}

fn path_words(path: PrintPath) -> [u64; 4] {
    [u64::from(path.open), u64::from(path.has_prev), path.prev, path.first]
}

// ---------------------------------------------------------------------
// The store of a line, and what is pending in one

/// The words with another next sequence, as the line has it.
fn with_next(store: Store, next: u64) -> Store {
    let mut words = store.into_words();
    words[2] = next;
    Store::from_words(words)
}

/// An empty store whose free chain takes every second record, and then the others, downwards: so the stops that are admitted along it stand in
/// another order than that of their sequences.
fn out_of_order(store: Store) -> Store {
    let mut words = store.into_words();
    let n = words[0];
    let chain: Vec<u64> = (1..=n).step_by(2).chain((1..=n / 2).rev().map(|half| 2 * half)).collect();
    let mut link = 8;
    for record in chain {
        words[link] = record;
        link = HEADER_WORDS + RECORD_WORDS * (record as usize - 1) + NEXT_BY_STOP;
    }
    words[link] = 0;
    Store::from_words(words)
}

/// A store with the line's stops, each admitted at its sequence, and room for one more.
fn book(w: &mut Words) -> Result<Store, String> {
    let [tick, next, count] = w.take()?;
    let mut store = out_of_order(Store::new(count + 1, tick).map_err(|refusal| format!("layout: {refusal:?}"))?);
    for _ in 0..count {
        let (id, terms) = (id(w)?, terms(w)?);
        let [quantity, seq] = w.take()?;
        let holder = holder(w)?;
        store = with_next(store, seq);
        let admitted = store.admit_trailing_stop(&mut PrintPath::default(), false, None, id, terms, quantity, holder);
        if admitted != Ok(seq) {
            return Err(format!("a stop of the book is answered {admitted:?}"));
        }
    }
    Ok(with_next(store, next))
}

/// Next sequence, count, and the pending stops by rising sequence. The store is still well formed.
fn stops(store: &Store) -> Answer {
    if !store.is_well_formed() {
        return Err("the store is not well formed".to_string());
    }
    let words = store.words();
    let mut records: Vec<&[u64]> = words[HEADER_WORDS..].chunks_exact(RECORD_WORDS).filter(|record| record[QUANTITY] != 0).collect();
    records.sort_unstable_by_key(|record| record[SEQUENCE]);
    let mut all = vec![words[2], words[1]];
    all.extend(records.iter().flat_map(|record| record[..NEXT_BY_STOP].iter().chain(&record[HOLDER..])));
    Ok(all)
}

// ---------------------------------------------------------------------
// Calls

fn of_the_path(name: &str, w: &mut Words) -> Answer {
    let mut answers = Vec::new();
    let pending = if name == "record" { w.next()? } else { 0 };
    let mut path = path(w)?;
    match name {
        "record" => path.record_print(pending, w.maybe()?, w.next()?),
        "take" => match path.take(w.maybe()?) {
            Some(p) => answers.extend([1, u64::from(p.prev.is_some()), p.prev.unwrap_or(0), p.first, p.last]),
            None => answers.extend([0; 5]),
        },
        _ => path.reset(),
    }
    answers.extend(path_words(path));
    Ok(answers)
}

/// A number and a record, or zeros.
fn changed(answer: Result<Stop, Refusal>) -> Vec<u64> {
    let mut words = vec![number(answer)];
    words.extend(answer.map_or(vec![0; STOP_WORDS], stop_words));
    words
}

fn of_the_store(name: &str, w: &mut Words) -> Answer {
    let mut store = book(w)?;
    let mut answers;
    match name {
        "admit" => {
            let mut path = path(w)?;
            let (kill, trade, id, terms) = (w.flag()?, w.maybe()?, id(w)?, terms(w)?);
            let answer = store.admit_trailing_stop(&mut path, kill, trade, id, terms, w.next()?, holder(w)?);
            answers = vec![number(answer), answer.unwrap_or(0)];
            answers.extend(stops(&store)?);
            answers.extend(path_words(path));
            return Ok(answers);
        }
        "update" => {
            let (trade, id, kind, side) = (w.maybe()?, id(w)?, w.next()?, side(w)?);
            let [price, quantity] = w.take()?;
            let update = match kind {
                0 => Update::Quantity(quantity),
                1 => Update::Price(price),
                2 => Update::PriceAndQuantity { price, quantity },
                _ => Update::Replace { side, price, quantity },
            };
            answers = changed(store.update_pending_stop(id, update, trade));
        }
        "cancel" => answers = changed(store.cancel_pending_stop(id(w)?)),
        "find" => {
            let found = store.pending_stop_order(id(w)?).map_err(|refusal| format!("{refusal:?}"))?;
            answers = vec![u64::from(found.is_some())];
            answers.extend(found.map_or(vec![0; STOP_WORDS], stop_words));
            return Ok(answers);
        }
        _ => {
            let mut path = path(w)?;
            store.clear(&mut path).map_err(|refusal| format!("{refusal:?}"))?;
            answers = stops(&store)?;
            answers.extend(path_words(path));
            return Ok(answers);
        }
    }
    answers.extend(stops(&store)?);
    Ok(answers)
}

/// A selector; words that it leaves unused are passed over.
fn selector(w: &mut Words) -> Result<Selector, String> {
    let [kind, words @ ..]: [u64; 1 + HOLDER_WORDS] = w.take()?;
    Ok(match kind {
        0 => Selector::ByHolder(Holder { words }),
        1 => Selector::BySide(if words[0] == 0 { Side::Buy } else { Side::Sell }),
        _ => Selector::ByPriceRange { lowest: words[0], highest: words[1] },
    })
}

/// A mass cancel is held to the single cancels as well.
fn collected(name: &str, w: &mut Words) -> Answer {
    let refused = |refusal: Refusal| format!("{refusal:?}");
    let mut store = book(w)?;
    let selector = selector(w)?;
    let listed = store.collect(selector).map_err(refused)?;
    if name == "mass_cancel" {
        let mut one_by_one = store.clone();
        for stop in &listed {
            one_by_one.cancel_pending_stop(stop.id).map_err(refused)?;
        }
        if store.mass_cancel(selector).map_err(refused)? != listed || store != one_by_one {
            return Err("the mass cancel is not the cancels of what is collected".to_string());
        }
    }
    let mut answers = vec![listed.len() as u64];
    answers.extend(listed.into_iter().flat_map(stop_words));
    answers.extend(stops(&store)?);
    Ok(answers)
}

fn settings(w: &mut Words) -> Result<Settings, String> {
    let kill = w.flag()?;
    let [high, low, collar] = w.take()?;
    Ok(Settings { kill, collar: NonZeroU64::new(collar), namespace: Namespace { high, low } })
}

fn prints(w: &mut Words) -> Result<Prints, String> {
    Ok(Prints { prev: w.maybe()?, first: w.next()?, last: w.next()? })
}

/// A wide number's words, the high one first.
fn wide_words(wide: u128) -> [u64; 2] {
    [(wide >> 64) as u64, wide as u64]
}

fn elected_words(elected: &[Elected]) -> Vec<u64> {
    let one = |e: &Elected| {
        let mut words = id_words(e.id);
        words.extend([e.side as u64, e.stop, e.quantity, e.seq, e.trigger, u64::from(e.limit.is_some())]);
        words.extend(wide_words(e.limit.unwrap_or(0)));
        words.extend(id_words(e.child));
        words.push(u64::from(e.child_pending));
        words
    };
    elected.iter().flat_map(one).collect()
}

fn script(w: &mut Words) -> Answer {
    let entries = w.next()?;
    (0..5 * entries).map(|_| w.next()).collect()
}

fn evaluation(name: &str, w: &mut Words) -> Answer {
    let refused = |refusal: Refusal| format!("{refusal:?}");
    let mut store = book(w)?;
    let mut path = if name == "run" { path(w)? } else { PrintPath::default() };
    let settings = settings(w)?;
    let mut answers;
    if name == "segment" {
        let prints = prints(w)?;
        walked(&store, settings, prints)?;
        let done = store.segment(settings, prints).map_err(refused)?;
        answers = vec![done.moved.len() as u64, done.elected.len() as u64];
        for moved in &done.moved {
            answers.extend(id_words(moved.id));
            answers.push(moved.stop);
        }
        answers.extend(elected_words(&done.elected));
    } else {
        let done = if name == "pass" {
            let prints = prints(w)?;
            store.evaluate_pending_stops(settings, &script(w)?, prints)
        } else {
            let trade = w.maybe()?;
            store.run_stop_triggers(&mut path, settings, &script(w)?, trade)
        };
        let done = done.map_err(refused)?;
        answers = vec![done.moves, done.elected.len() as u64, done.used];
        answers.extend(elected_words(&done.elected));
    }
    answers.extend(stops(&store)?);
    if name == "run" {
        answers.extend(path_words(path));
    }
    Ok(answers)
}

/// The walk over the segment's prices is the segment: the Rust has no walk of its own.
fn walked(store: &Store, settings: Settings, prints: Prints) -> Result<(), String> {
    let prices: &[u64] = if prints.first == prints.last { &[prints.first] } else { &[prints.first, prints.last] };
    let (mut one, mut other) = (store.clone(), store.clone());
    let segment = one.segment(settings, prints);
    let walk = other.walk(settings, prints.prev, prices);
    let alike = match (&segment, &walk) {
        (Ok(segment), Ok(walk)) => segment.moved.len() as u64 == walk.moves && segment.elected == walk.elected,
        _ => false,
    };
    if alike && one.words() == other.words() { Ok(()) } else { Err(format!("segment {segment:?}, walk {walk:?}")) }
}

// ---------------------------------------------------------------------
// What is known to differ, and what is counted

/// Of a run whose children printed, the closed path's prices are left out.
pub fn without_kept(found: &mut Vec<u64>, expected: &mut Vec<u64>) -> Result<(), String> {
    let kept = expected.len().checked_sub(5).ok_or("no path")?;
    if expected.remove(kept) == 0 {
        expected.truncate(kept + 1);
        found.truncate(found.len() - 3);
    }
    Ok(())
}

/// The limits among the Rust's answers, high word and low.
pub fn limits(name: &str, expected: &[u64]) -> Vec<[u64; 2]> {
    let lists = match name {
        "limit_for" => return vec![[expected[0], expected[1]]],
        "segment" => 2 + MOVED_WORDS * expected[0] as usize,
        "pass" | "run" => 3,
        _ => return vec![],
    };
    let entries = expected[lists..].chunks(ELECTED_WORDS).take(expected[1] as usize);
    entries.filter(|e| e[LIMIT - 1] == 1).map(|e| [e[LIMIT], e[LIMIT + 1]]).collect()
}
