// Times the compiled library and the published Rust on the same inputs. README.md says what is timed and what stands in.

mod clock;
mod library;
mod stops;
// For its calls and sizes.
#[allow(dead_code)]
#[path = "../../hosts/rust/yubtomiq.rs"]
mod yubtomiq;

use library::Store;
use published::Side;
use published::orderbook::desk::{Desk, Selector};
use std::hint::black_box;
use std::time::Duration;
use stops::{Plan, book_of};

/// The records of a store.
const RECORDS: usize = yubtomiq::MOST_RECORDS as usize;

/// Repetitions of a timing; the middle one counts.
const TURNS: usize = 9;

/// The middle of the times of a piece of work, each on a new state.
fn median<S>(mut fresh: impl FnMut() -> S, mut work: impl FnMut(&mut S)) -> Duration {
    let mut times: Vec<Duration> = (0..TURNS)
        .map(|_| {
            let mut state = fresh();
            let start = clock::now();
            work(&mut state);
            clock::now() - start
        })
        .collect();
    times.sort_unstable();
    times[TURNS / 2]
}

fn nanoseconds(time: Duration, parts: usize) -> f64 {
    time.as_secs_f64() * 1e9 / parts as f64
}

fn row(name: &str, parts: usize, rust: Duration, ours: Duration, target: &str) {
    let (rust, ours) = (nanoseconds(rust, parts), nanoseconds(ours, parts));
    println!("| {name} | {parts} | {rust:.0} | {ours:.1} | {:.1} | {target} |", rust / ours);
}

/// A run of prices: one walk, and the published run_stop_triggers at each print.
fn run(name: &str, plan: &Plan, target: &str) {
    let (moved, elected) = agreed(plan);
    let rust = median(|| book_of(&plan.stops), |desk| {
        black_box(prints(desk, plan));
    });
    let store = Store::with(&plan.stops, RECORDS);
    let ours = median(|| store.clone(), |store| {
        black_box(store.walk(None, &plan.prices));
    });
    row(&format!("{name}: {moved} moves, {elected} elected"), plan.prices.len(), rust, ours, target);
}

/// The published code at each print in turn.
fn prints(desk: &Desk, plan: &Plan) -> (u64, u64) {
    let mut sums = (0, 0);
    let mut prev = None;
    for &price in &plan.prices {
        let (moved, elected) = desk.print_and_run(prev, price);
        sums = (sums.0 + moved as u64, sums.1 + elected as u64);
        prev = Some(price);
    }
    sums
}

/// Both give the same numbers, or the timing would compare different work.
fn agreed(plan: &Plan) -> (u64, u64) {
    let rust = prints(&book_of(&plan.stops), plan);
    let ours = Store::with(&plan.stops, RECORDS).walk(None, &plan.prices);
    assert_eq!(rust, ours, "moves and elected");
    rust
}

/// One admission into the last free record.
fn admission() {
    let stops = stops::full(RECORDS as u64);
    let (last, others) = (stops[RECORDS - 1], &stops[..RECORDS - 1]);
    let rust = median(|| book_of(others), |desk| {
        black_box(desk.admit(last)).expect("an answer").expect("room for it");
    });
    let store = Store::with(others, RECORDS);
    let ours = median(|| store.clone(), |store| {
        assert_eq!(black_box(store.admit(&last)), 0);
    });
    row("one admission, one record free", 1, rust, ours, "");
}

/// Collect and mass cancel on a full store. Both must find as many.
fn selected(name: &str, selector: Selector) {
    let stops = stops::full(RECORDS as u64);
    let (store, desk) = (Store::with(&stops, RECORDS), book_of(&stops));
    let found = desk.count_collected(selector);
    let mut counted = store.clone();
    assert_eq!(counted.collect(selector), found, "collected");
    assert_eq!(counted.mass_cancel(selector), found, "cancelled");
    let rust = median(|| (), |()| {
        black_box(desk.count_collected(selector));
    });
    let ours = median(|| store.clone(), |store| {
        black_box(store.collect(selector));
    });
    row(&format!("collect on a full store, {name}: {found} stops"), 1, rust, ours, "");
    let rust = median(|| book_of(&stops), |desk| {
        black_box(desk.count_cancelled(selector));
    });
    let ours = median(|| store.clone(), |store| {
        black_box(store.mass_cancel(selector));
    });
    row(&format!("mass cancel on a full store, {name}: {found} stops"), 1, rust, ours, "");
}

/// Calls that only read a full store, each against a plain copy of its words.
fn reading() {
    const TIMES: usize = 100;
    let store = Store::with(&stops::full(RECORDS as u64), RECORDS);
    let mut copy = store.clone();
    let copied = median(|| (), |()| {
        for _ in 0..TIMES {
            copy.words.copy_from_slice(black_box(&store.words));
            black_box(&copy.words);
        }
    });
    let checked = median(|| (), |()| {
        for _ in 0..TIMES {
            assert!(black_box(&store).well_formed());
        }
    });
    println!();
    println!("| work on a full store of {RECORDS} records | ns | copies |");
    println!("|---|---|---|");
    let row = |name: &str, time| println!("| {name} | {:.0} | {:.1} |", nanoseconds(time, TIMES), time.as_secs_f64() / copied.as_secs_f64());
    row(&format!("a plain copy of its {} words", store.words.len()), copied);
    row("the form check (target: within 10 copies)", checked);
    for many in [1, 8, yubtomiq::MOST_TRIAL_PRICES] {
        let prices = stops::ladder(many);
        let hits = copy.ladder(&prices);
        let tried = median(|| (), |()| {
            for _ in 0..TIMES {
                assert_eq!(copy.ladder(black_box(&prices)), hits);
            }
        });
        row(&format!("a ladder, number of prices: {many}; elections: {hits} of {}", many * RECORDS), tried);
    }
}

/// Turning points of the longest runs.
fn turning() {
    const TIMES: usize = 100;
    println!();
    println!("| turning points of a run of {} prices | how many | ns a price |", yubtomiq::MOST_PRICES);
    println!("|---|---|---|");
    let runs = [("rising", stops::sawtooth(0)), ("turning after 64 prices", stops::sawtooth(64)), ("turning at each price", stops::sawtooth(1)), ("by chance", stops::restless())];
    for (name, prices) in runs {
        let mut list = vec![0; prices.len()];
        let found = library::turning_points(&prices, &mut list);
        let time = median(|| (), |()| {
            for _ in 0..TIMES {
                assert_eq!(library::turning_points(black_box(&prices), &mut list), found);
            }
        });
        println!("| {name} | {found} | {:.2} |", nanoseconds(time, TIMES * prices.len()));
    }
}

fn main() {
    println!("| run, or call | prints | Rust, ns a print | Rattle, ns a print | ratio | target |");
    println!("|---|---|---|---|---|---|");
    run("rising, 500 sells that all trail", &stops::steady(), "40");
    run("rising through 500 watermarks spread ten apart", &stops::spread(), "40");
    run("rising, 250 sells that trail and 250 buys that do not", &stops::mixed(), "40");
    run("neither trails nor elects", &stops::idle(), "1");
    run("falling, elects 500 one by one", &stops::falling(), "");
    run("one print elects 500", &stops::at_once(), "10");
    admission();
    selected("one holder of seven", Selector::Holder(stops::holder(3)));
    selected("one side", Selector::Side(Side::Sell));
    selected("every price", Selector::Range(0, u64::MAX));
    reading();
    turning();
}
