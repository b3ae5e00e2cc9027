//! Trailing stops: a safe face for the static library `libyubtomiq.a`, with std only. What the calls do is said in
//! the specification ("document 01"); what is proved of them stands as their contracts in crates/yubtomiq/src/lib.rt.
//!
//! A refused call alters nothing. Whatever words a [`Store`] is made from, its calls are safe: a damaged store is refused.

use std::num::NonZeroU64;

/// The words of a store: those of its header and of each record, and the most records.
pub const HEADER_WORDS: usize = 9;
pub const RECORD_WORDS: usize = 15;
pub const MOST_RECORDS: u64 = 545;

/// The words of a holder.
pub const HOLDER_WORDS: usize = 4;

/// The words of a stop: a record without its two next indices.
pub const STOP_WORDS: usize = RECORD_WORDS - 2;

/// The words of an entry of a list: of the elected, of the moved, and of a ladder.
pub const ELECTED_WORDS: usize = 14;
pub const MOVED_WORDS: usize = 4;
pub const LADDER_WORDS: usize = 3;

/// The most prices of a run.
pub const MOST_PRICES: usize = 4096;

/// The most trial prices of a ladder.
pub const MOST_TRIAL_PRICES: usize = 64;

/// What a call reads or writes, as words.
pub type HolderWords = [u64; HOLDER_WORDS];
pub type SelectorWords = [u64; 1 + HOLDER_WORDS];
pub type StopWords = [u64; STOP_WORDS];
pub type FoundWords = [u64; 1 + STOP_WORDS];
pub type ElectedWords = [u64; ELECTED_WORDS];
pub type MovedWords = [u64; MOVED_WORDS];
pub type LadderWords = [u64; LADDER_WORDS];

/// The calls as the library has them, for a host that keeps buffers of its own. A slice is passed as a pointer and a count of elements;
/// the header says what each call asks of its caller.
pub mod library {
    use super::{ElectedWords, FoundWords, HolderWords, LadderWords, MovedWords, SelectorWords, StopWords};

    unsafe extern "C" {
        pub fn yubtomiq_layout_store(words: *mut u64, count: usize, n: u64, tick: u64) -> u64;
        pub fn yubtomiq_well_formed(words: *const u64, count: usize) -> u64;
        pub fn yubtomiq_admit_trailing_stop(
            words: *mut u64,
            count: usize,
            path: &mut [u64; 4],
            kill: u64,
            last_trade: &[u64; 2],
            id: &[u64; 3],
            terms: &[u64; 4],
            quantity: u64,
            holder: &HolderWords,
            answer: &mut [u64; 1],
        ) -> u64;
        pub fn yubtomiq_update_pending_stop(
            words: *mut u64,
            count: usize,
            id: &[u64; 3],
            update: &[u64; 4],
            last_trade: &[u64; 2],
            answer: &mut StopWords,
        ) -> u64;
        pub fn yubtomiq_cancel_pending_stop(words: *mut u64, count: usize, id: &[u64; 3], answer: &mut StopWords) -> u64;
        pub fn yubtomiq_pending_stop_order(words: *const u64, count: usize, id: &[u64; 3], answer: &mut FoundWords) -> u64;
        pub fn yubtomiq_pending_stop_quantity(words: *const u64, count: usize, answer: &mut [u64; 4]) -> u64;
        pub fn yubtomiq_collect(
            words: *const u64,
            count: usize,
            selector: &SelectorWords,
            list: *mut StopWords,
            list_count: usize,
            answer: &mut [u64; 1],
        ) -> u64;
        pub fn yubtomiq_mass_cancel(
            words: *mut u64,
            count: usize,
            selector: &SelectorWords,
            list: *mut StopWords,
            list_count: usize,
            answer: &mut [u64; 1],
        ) -> u64;
        pub fn yubtomiq_ladder(
            words: *const u64,
            count: usize,
            prices: *const u64,
            price_count: usize,
            list: *mut LadderWords,
            list_count: usize,
            answer: &mut [u64; 1],
        ) -> u64;
        pub fn yubtomiq_clear(words: *mut u64, count: usize, path: &mut [u64; 4]) -> u64;
        pub fn yubtomiq_record_print(path: &mut [u64; 4], pending: u64, prev: &[u64; 2], price: u64) -> u64;
        pub fn yubtomiq_take_path(path: &mut [u64; 4], last_trade: &[u64; 2], answer: &mut [u64; 5]) -> u64;
        pub fn yubtomiq_reset_path(path: &mut [u64; 4]) -> u64;
        pub fn yubtomiq_segment(
            words: *mut u64,
            count: usize,
            settings: &[u64; 4],
            prints: &[u64; 4],
            elected: *mut ElectedWords,
            elected_count: usize,
            moved: *mut MovedWords,
            moved_count: usize,
            answer: &mut [u64; 2],
        ) -> u64;
        pub fn yubtomiq_ask_segment(
            words: *const u64,
            count: usize,
            settings: &[u64; 4],
            prints: &[u64; 4],
            elected: *mut ElectedWords,
            elected_count: usize,
            moved: *mut MovedWords,
            moved_count: usize,
            answer: &mut [u64; 2],
        ) -> u64;
        pub fn yubtomiq_commit_segment(
            words: *mut u64,
            count: usize,
            settings: &[u64; 4],
            prints: &[u64; 4],
            elected: *const ElectedWords,
            elected_count: usize,
            moved: *const MovedWords,
            moved_count: usize,
            answer: &mut [u64; 2],
        ) -> u64;
        pub fn yubtomiq_step(
            words: *mut u64,
            count: usize,
            settings: &[u64; 4],
            falls: u64,
            from: &[u64; 2],
            price: u64,
            elected: *mut ElectedWords,
            elected_count: usize,
            moved: *mut MovedWords,
            moved_count: usize,
            answer: &mut [u64; 2],
        ) -> u64;
        pub fn yubtomiq_walk(
            words: *mut u64,
            count: usize,
            settings: &[u64; 4],
            prev: &[u64; 2],
            prices: *const u64,
            price_count: usize,
            elected: *mut ElectedWords,
            elected_count: usize,
            answer: &mut [u64; 2],
        ) -> u64;
        pub fn yubtomiq_evaluate_both_ways(
            ends: *mut u64,
            ends_count: usize,
            run: *mut u64,
            run_count: usize,
            settings: &[u64; 4],
            prev: &[u64; 2],
            prices: *const u64,
            price_count: usize,
            elected: *mut ElectedWords,
            elected_count: usize,
            moved: *mut MovedWords,
            moved_count: usize,
            listed: *mut ElectedWords,
            listed_count: usize,
            answer: &mut [u64; 6],
        );
        pub fn yubtomiq_turning_points(
            prices: *const u64,
            price_count: usize,
            list: *mut u64,
            list_count: usize,
            answer: &mut [u64; 1],
        ) -> u64;
        pub fn yubtomiq_evaluate_both_runs(
            turned: *mut u64,
            turned_count: usize,
            run: *mut u64,
            run_count: usize,
            settings: &[u64; 4],
            prev: &[u64; 2],
            prices: *const u64,
            price_count: usize,
            turns: *mut u64,
            turns_count: usize,
            elected: *mut ElectedWords,
            elected_count: usize,
            listed: *mut ElectedWords,
            listed_count: usize,
            answer: &mut [u64; 6],
        );
        pub fn yubtomiq_evaluate_pending_stops(
            words: *mut u64,
            count: usize,
            settings: &[u64; 4],
            script: *const u64,
            script_words: usize,
            prints: &[u64; 4],
            elected: *mut ElectedWords,
            elected_count: usize,
            answer: &mut [u64; 3],
        ) -> u64;
        pub fn yubtomiq_run_stop_triggers(
            words: *mut u64,
            count: usize,
            path: &mut [u64; 4],
            settings: &[u64; 4],
            script: *const u64,
            script_words: usize,
            last_trade: &[u64; 2],
            elected: *mut ElectedWords,
            elected_count: usize,
            answer: &mut [u64; 3],
        ) -> u64;
        pub fn yubtomiq_trailed(terms: &[u64; 4], price: u64, answer: &mut [u64; 4]) -> u64;
        pub fn yubtomiq_elected_by(terms: &[u64; 4], price: u64) -> u64;
        pub fn yubtomiq_inconsistency(terms: &[u64; 4]) -> u64;
        pub fn yubtomiq_calculate_trailing_stop_price(
            side: u64,
            current_stop_price: u64,
            trail_amount: u64,
            last_reference_price: u64,
            current_market_price: u64,
            answer: &mut [u64; 3],
        ) -> u64;
        pub fn yubtomiq_limit_price(collar: u64, side: u64, stop_price: u64, answer: &mut [u64; 3]) -> u64;
        pub fn yubtomiq_check_collar(collar: u64) -> u64;
        pub fn yubtomiq_check_tick_size(collar: u64, tick_size: u64) -> u64;
        pub fn yubtomiq_stop_trigger_order_id(namespace: &[u64; 2], id: &[u64; 3], answer: &mut [u64; 3]) -> u64;
    }
}

// ---------------------------------------------------------------------
// Values

/// Why a call was refused: the first of document 01's questions that was answered no.
#[derive(Clone, Copy, Debug, PartialEq, Eq)]
#[repr(u64)]
pub enum Refusal {
    StoreNotWellFormed = 1,
    LayoutOutOfRange = 2,
    KillSwitchActive = 3,
    ZeroQuantity = 4,
    ZeroTrail = 5,
    StopBeyondWatermark = 6,
    StopWouldTrigger = 7,
    DuplicateOrderId = 8,
    TrailOffTick = 9,
    NoFreeRecord = 10,
    SequenceExhausted = 11,
    OrderNotFound = 12,
    SamePrice = 13,
    ListTooShort = 14,
    InvalidScript = 15,
    PriceCountOutOfRange = 16,
    ZeroCollar = 17,
    CollarOffTick = 18,
    TrialPriceCountOutOfRange = 19,
    ListsDiffer = 20,
}

const REFUSALS: [Refusal; 20] = [
    Refusal::StoreNotWellFormed,
    Refusal::LayoutOutOfRange,
    Refusal::KillSwitchActive,
    Refusal::ZeroQuantity,
    Refusal::ZeroTrail,
    Refusal::StopBeyondWatermark,
    Refusal::StopWouldTrigger,
    Refusal::DuplicateOrderId,
    Refusal::TrailOffTick,
    Refusal::NoFreeRecord,
    Refusal::SequenceExhausted,
    Refusal::OrderNotFound,
    Refusal::SamePrice,
    Refusal::ListTooShort,
    Refusal::InvalidScript,
    Refusal::PriceCountOutOfRange,
    Refusal::ZeroCollar,
    Refusal::CollarOffTick,
    Refusal::TrialPriceCountOutOfRange,
    Refusal::ListsDiffer,
];

impl Refusal {
    /// Document 01's number.
    pub fn number(self) -> u64 {
        self as u64
    }

    /// A number that the contracts exclude here (255: every value that this module passes is a known one) panics.
    fn of(number: u64) -> Refusal {
        REFUSALS[number as usize - 1]
    }
}

/// What a call that returned this number comes to.
fn done<T>(number: u64, answer: T) -> Result<T, Refusal> {
    if number == 0 {
        Ok(answer)
    } else {
        Err(Refusal::of(number))
    }
}

#[derive(Clone, Copy, Debug, PartialEq, Eq)]
pub enum Side {
    Buy,
    Sell,
}

impl Side {
    fn of(word: u64) -> Side {
        if word == 0 {
            Side::Buy
        } else {
            Side::Sell
        }
    }
}

#[derive(Clone, Copy, Debug, PartialEq, Eq)]
pub enum IdKind {
    Uuid,
    Ulid,
    Sequential,
}

impl IdKind {
    fn of(word: u64) -> IdKind {
        match word {
            0 => IdKind::Uuid,
            1 => IdKind::Ulid,
            _ => IdKind::Sequential,
        }
    }
}

/// An identity: its kind, and its sixteen bytes as two big-endian words.
#[derive(Clone, Copy, Debug, PartialEq, Eq)]
pub struct Id {
    pub kind: IdKind,
    pub high: u64,
    pub low: u64,
}

impl Id {
    pub fn sequential(number: u64) -> Id {
        Id { kind: IdKind::Sequential, high: 0, low: number }
    }

    fn words(self) -> [u64; 3] {
        [self.kind as u64, self.high, self.low]
    }

    fn of(w: &[u64]) -> Id {
        Id { kind: IdKind::of(w[0]), high: w[1], low: w[2] }
    }
}

/// The holder of a stop: 32 bytes, as four big-endian words.
#[derive(Clone, Copy, Debug, Default, PartialEq, Eq)]
pub struct Holder {
    pub words: [u64; HOLDER_WORDS],
}

impl Holder {
    fn of(w: &[u64]) -> Holder {
        Holder { words: std::array::from_fn(|k| w[k]) }
    }

    pub fn from_bytes(bytes: [u8; 8 * HOLDER_WORDS]) -> Holder {
        let word = |k: usize| u64::from_be_bytes(std::array::from_fn(|i| bytes[8 * k + i]));
        Holder { words: std::array::from_fn(word) }
    }

    pub fn to_bytes(self) -> [u8; 8 * HOLDER_WORDS] {
        std::array::from_fn(|i| self.words[i / 8].to_be_bytes()[i % 8])
    }
}

/// The namespace of child identities.
#[derive(Clone, Copy, Debug, Default, PartialEq, Eq)]
pub struct Namespace {
    pub high: u64,
    pub low: u64,
}

fn price_words(price: Option<u64>) -> [u64; 2] {
    [price.is_some() as u64, price.unwrap_or(0)]
}

fn present<T>(flag: u64, value: T) -> Option<T> {
    if flag == 0 {
        None
    } else {
        Some(value)
    }
}

/// The number of two words.
fn wide(high: u64, low: u64) -> u128 {
    (high as u128) << 64 | low as u128
}

/// The trailing parameters of a stop.
#[derive(Clone, Copy, Debug, PartialEq, Eq)]
pub struct StopTerms {
    pub side: Side,
    pub stop: u64,
    pub watermark: u64,
    pub trail: u64,
}

impl StopTerms {
    fn words(self) -> [u64; 4] {
        [self.side as u64, self.stop, self.watermark, self.trail]
    }

    fn of(w: &[u64]) -> StopTerms {
        StopTerms { side: Side::of(w[0]), stop: w[1], watermark: w[2], trail: w[3] }
    }

    /// The terms after a trade at a price.
    pub fn trailed(self, price: u64) -> StopTerms {
        let mut after = [0; 4];
        unsafe { library::yubtomiq_trailed(&self.words(), price, &mut after) };
        StopTerms::of(&after)
    }

    /// Whether a trade at a price elects the stop.
    pub fn elected_by(self, price: u64) -> bool {
        unsafe { library::yubtomiq_elected_by(&self.words(), price) == 1 }
    }

    /// The question that inconsistent terms answer no: a trail of zero, or a stop beyond its watermark.
    pub fn inconsistency(self) -> Option<Refusal> {
        done(unsafe { library::yubtomiq_inconsistency(&self.words()) }, ()).err()
    }
}

/// A pending stop.
#[derive(Clone, Copy, Debug, PartialEq, Eq)]
pub struct Stop {
    pub id: Id,
    pub terms: StopTerms,
    pub quantity: u64,
    pub seq: u64,
    pub holder: Holder,
}

impl Stop {
    fn of(w: &[u64]) -> Stop {
        Stop { id: Id::of(w), terms: StopTerms::of(&w[3..]), quantity: w[7], seq: w[8], holder: Holder::of(&w[9..]) }
    }
}

/// Which pending stops to collect.
#[derive(Clone, Copy, Debug, PartialEq, Eq)]
pub enum Selector {
    ByHolder(Holder),
    BySide(Side),
    /// Of stop prices, both included; a lowest above the highest selects none.
    ByPriceRange {
        lowest: u64,
        highest: u64,
    },
}

impl Selector {
    fn words(self) -> SelectorWords {
        match self {
            Selector::ByHolder(Holder { words: [a, b, c, d] }) => [0, a, b, c, d],
            Selector::BySide(side) => [1, side as u64, 0, 0, 0],
            Selector::ByPriceRange { lowest, highest } => [2, lowest, highest, 0, 0],
        }
    }
}

/// Which prices of a ladder elect a stop.
#[derive(Clone, Copy, Debug, PartialEq, Eq)]
pub struct LadderEntry {
    /// Bit j says that price j does.
    pub word: u64,
    /// How many do.
    pub count: u64,
    /// The place of the first that does, counted from 0.
    pub first: Option<u64>,
}

impl LadderEntry {
    fn of(&[word, count, first]: &LadderWords) -> LadderEntry {
        LadderEntry { word, count, first: (count > 0).then_some(first) }
    }

    /// Whether the price at a place elects the stop.
    pub fn elected_by(&self, place: usize) -> bool {
        place < MOST_TRIAL_PRICES && self.word >> place & 1 == 1
    }
}

/// A change of a pending stop. Its watermark, trail and holder stay.
#[derive(Clone, Copy, Debug, PartialEq, Eq)]
pub enum Update {
    /// Zero cancels.
    Quantity(u64),
    Price(u64),
    PriceAndQuantity {
        price: u64,
        quantity: u64,
    },
    Replace {
        side: Side,
        price: u64,
        quantity: u64,
    },
}

impl Update {
    fn words(self) -> [u64; 4] {
        match self {
            Update::Quantity(quantity) => [0, 0, 0, quantity],
            Update::Price(price) => [1, 0, price, 0],
            Update::PriceAndQuantity { price, quantity } => [2, 0, price, quantity],
            Update::Replace { side, price, quantity } => [3, side as u64, price, quantity],
        }
    }
}

/// One sweep's prints: the price before it, its first print and its last.
#[derive(Clone, Copy, Debug, PartialEq, Eq)]
pub struct Prints {
    pub prev: Option<u64>,
    pub first: u64,
    pub last: u64,
}

impl Prints {
    fn words(self) -> [u64; 4] {
        let [has_prev, prev] = price_words(self.prev);
        [has_prev, prev, self.first, self.last]
    }
}

/// A script as the words that a pass and a run read: for each elected stop whose child identity is free, what its execution printed.
pub fn script_words(entries: &[Option<Prints>]) -> Vec<u64> {
    let mut words = Vec::with_capacity(5 * entries.len());
    for entry in entries {
        words.push(entry.is_some() as u64);
        words.extend(entry.map_or([0; 4], Prints::words));
    }
    words
}

/// The recorder of the current sweep's first print. The default is a closed one.
#[derive(Clone, Copy, Debug, Default, PartialEq, Eq)]
pub struct PrintPath {
    pub open: bool,
    pub has_prev: bool,
    pub prev: u64,
    pub first: u64,
}

impl PrintPath {
    fn words(self) -> [u64; 4] {
        [self.open as u64, self.has_prev as u64, self.prev, self.first]
    }

    fn of(w: [u64; 4]) -> PrintPath {
        PrintPath { open: w[0] != 0, has_prev: w[1] != 0, prev: w[2], first: w[3] }
    }

    /// Lends the path's words to a call, and takes them back.
    fn lend<T>(&mut self, call: impl FnOnce(&mut [u64; 4]) -> T) -> T {
        let mut words = self.words();
        let answer = call(&mut words);
        *self = PrintPath::of(words);
        answer
    }

    /// Records a print, given how many stops are pending: a sweep's first print opens the path, if there are any.
    pub fn record_print(&mut self, pending: u64, prev: Option<u64>, price: u64) {
        self.lend(|w| unsafe { library::yubtomiq_record_print(w, pending, &price_words(prev), price) });
    }

    /// Takes the path's segment, up to the last trade, if the path was open, and closes it.
    pub fn take(&mut self, last_trade: Option<u64>) -> Option<Prints> {
        let mut a = [0; 5];
        self.lend(|w| unsafe { library::yubtomiq_take_path(w, &price_words(last_trade), &mut a) });
        if a[0] == 0 {
            return None;
        }
        Some(Prints { prev: present(a[1], a[2]), first: a[3], last: a[4] })
    }

    /// Closes the path.
    pub fn reset(&mut self) {
        self.lend(|w| unsafe { library::yubtomiq_reset_path(w) });
    }
}

/// The settings of an evaluation. Under the kill switch stops trail and none is elected.
#[derive(Clone, Copy, Debug, Default, PartialEq, Eq)]
pub struct Settings {
    pub kill: bool,
    pub collar: Option<NonZeroU64>,
    pub namespace: Namespace,
}

fn collar_word(collar: Option<NonZeroU64>) -> u64 {
    collar.map_or(0, NonZeroU64::get)
}

impl Settings {
    fn words(self) -> [u64; 4] {
        [self.kill as u64, collar_word(self.collar), self.namespace.high, self.namespace.low]
    }
}

/// A stop that a print elected.
#[derive(Clone, Copy, Debug, PartialEq, Eq)]
pub struct Elected {
    pub id: Id,
    pub side: Side,
    pub stop: u64,
    pub quantity: u64,
    pub seq: u64,
    pub trigger: u64,
    pub limit: Option<u128>,
    pub child: Id,
    pub child_pending: bool,
}

impl Elected {
    fn of(w: &ElectedWords) -> Elected {
        Elected {
            id: Id::of(w),
            side: Side::of(w[3]),
            stop: w[4],
            quantity: w[5],
            seq: w[6],
            trigger: w[7],
            limit: present(w[8], wide(w[9], w[10])),
            child: Id { kind: IdKind::Uuid, high: w[11], low: w[12] },
            child_pending: w[13] != 0,
        }
    }

    /// The words of an entry; a child that is no UUID, which no call lists, has none of an entry's: its last word is above 1.
    fn words(&self) -> ElectedWords {
        let limit = self.limit.unwrap_or(0);
        let [kind, high, low] = self.id.words();
        [
            kind,
            high,
            low,
            self.side as u64,
            self.stop,
            self.quantity,
            self.seq,
            self.trigger,
            self.limit.is_some() as u64,
            (limit >> 64) as u64,
            limit as u64,
            self.child.high,
            self.child.low,
            self.child_pending as u64 + 2 * self.child.kind as u64,
        ]
    }
}

/// A stop that a print moved, with its new stop price.
#[derive(Clone, Copy, Debug, PartialEq, Eq)]
pub struct Moved {
    pub id: Id,
    pub stop: u64,
}

impl Moved {
    fn of(w: &MovedWords) -> Moved {
        Moved { id: Id::of(w), stop: w[3] }
    }

    fn words(&self) -> MovedWords {
        let [kind, high, low] = self.id.words();
        [kind, high, low, self.stop]
    }
}

/// The pending quantity of each side.
#[derive(Clone, Copy, Debug, PartialEq, Eq)]
pub struct Totals {
    pub sell: u128,
    pub buy: u128,
}

/// What a segment or a step did, or a segment would do.
#[derive(Clone, Debug, PartialEq, Eq)]
pub struct Segment {
    pub moved: Vec<Moved>,
    pub elected: Vec<Elected>,
}

impl Segment {
    fn of(moved: &[MovedWords], elected: &[ElectedWords]) -> Segment {
        Segment {
            moved: moved.iter().map(Moved::of).collect(),
            elected: elected.iter().map(Elected::of).collect(),
        }
    }
}

/// How many moves and elected an evaluation had.
#[derive(Clone, Copy, Debug, PartialEq, Eq)]
pub struct Counts {
    pub moves: u64,
    pub elected: u64,
}

/// What a walk did; moves counts each stop changed, once per price.
#[derive(Clone, Debug, PartialEq, Eq)]
pub struct Walk {
    pub moves: u64,
    pub elected: Vec<Elected>,
}

impl Walk {
    fn of(moves: u64, elected: &[ElectedWords]) -> Walk {
        Walk { moves, elected: elected.iter().map(Elected::of).collect() }
    }
}

/// What a run of prices gives both ways: by a segment over its ends, and by a walk.
#[derive(Clone, Debug, PartialEq, Eq)]
pub struct BothWays {
    pub ends: Result<Segment, Refusal>,
    pub run: Result<Walk, Refusal>,
}

/// What a run of prices gives by a walk over its turning points, and by a walk over the run.
#[derive(Clone, Debug, PartialEq, Eq)]
pub struct BothRuns {
    pub turns: Result<Walk, Refusal>,
    pub run: Result<Walk, Refusal>,
}

/// What a pass did, and how many script entries it used.
#[derive(Clone, Debug, PartialEq, Eq)]
pub struct Pass {
    pub moves: u64,
    pub elected: Vec<Elected>,
    pub used: u64,
}

// ---------------------------------------------------------------------
// The store

/// A store of pending stops: its words, which a host may keep and hand back as they are.
#[derive(Clone, Debug, PartialEq, Eq)]
pub struct Store {
    words: Vec<u64>,
}

impl Store {
    /// An empty store of n records; a tick of 0 is none. Refused: [`Refusal::LayoutOutOfRange`].
    pub fn new(n: u64, tick: u64) -> Result<Store, Refusal> {
        let mut words = vec![0; HEADER_WORDS + RECORD_WORDS * n.min(MOST_RECORDS) as usize];
        let number = unsafe { library::yubtomiq_layout_store(words.as_mut_ptr(), words.len(), n, tick) };
        done(number, Store { words })
    }

    /// A store from words that were kept, whatever they are. Words beyond the records stay.
    pub fn from_words(words: Vec<u64>) -> Store {
        Store { words }
    }

    pub fn words(&self) -> &[u64] {
        &self.words
    }

    pub fn into_words(self) -> Vec<u64> {
        self.words
    }

    pub fn is_well_formed(&self) -> bool {
        unsafe { library::yubtomiq_well_formed(self.words.as_ptr(), self.words.len()) == 1 }
    }

    /// How many stops are pending, as the store's own word says; at most as many as a store can hold.
    pub fn pending(&self) -> u64 {
        self.words.get(1).map_or(0, |&count| count.min(MOST_RECORDS))
    }

    /// Admits a stop for its holder, and answers its sequence. Into an empty store it closes the path.
    #[allow(clippy::too_many_arguments)]
    pub fn admit_trailing_stop(
        &mut self,
        path: &mut PrintPath,
        kill: bool,
        last_trade: Option<u64>,
        id: Id,
        terms: StopTerms,
        quantity: u64,
        holder: Holder,
    ) -> Result<u64, Refusal> {
        let mut answer = [0; 1];
        let (words, count) = (self.words.as_mut_ptr(), self.words.len());
        let number = path.lend(|path| unsafe {
            library::yubtomiq_admit_trailing_stop(
                words,
                count,
                path,
                kill as u64,
                &price_words(last_trade),
                &id.words(),
                &terms.words(),
                quantity,
                &holder.words,
                &mut answer,
            )
        });
        done(number, answer[0])
    }

    /// Changes a pending stop, and answers it after the change; a quantity of zero cancels, and answers it as it was.
    pub fn update_pending_stop(&mut self, id: Id, update: Update, last_trade: Option<u64>) -> Result<Stop, Refusal> {
        let mut answer = [0; STOP_WORDS];
        let number = unsafe {
            library::yubtomiq_update_pending_stop(
                self.words.as_mut_ptr(),
                self.words.len(),
                &id.words(),
                &update.words(),
                &price_words(last_trade),
                &mut answer,
            )
        };
        done(number, answer).map(|w| Stop::of(&w))
    }

    /// Takes a pending stop out, and answers it as it was.
    pub fn cancel_pending_stop(&mut self, id: Id) -> Result<Stop, Refusal> {
        let mut answer = [0; STOP_WORDS];
        let (words, count) = (self.words.as_mut_ptr(), self.words.len());
        let number = unsafe { library::yubtomiq_cancel_pending_stop(words, count, &id.words(), &mut answer) };
        done(number, answer).map(|w| Stop::of(&w))
    }

    /// The pending stop of an identity, if there is one.
    pub fn pending_stop_order(&self, id: Id) -> Result<Option<Stop>, Refusal> {
        let mut answer = [0; 1 + STOP_WORDS];
        let (words, count) = (self.words.as_ptr(), self.words.len());
        let number = unsafe { library::yubtomiq_pending_stop_order(words, count, &id.words(), &mut answer) };
        done(number, answer).map(|w| if w[0] == 0 { None } else { Some(Stop::of(&w[1..])) })
    }

    /// The pending quantity of each side.
    pub fn pending_stop_quantity(&self) -> Result<Totals, Refusal> {
        let mut answer = [0; 4];
        let (words, count) = (self.words.as_ptr(), self.words.len());
        let number = unsafe { library::yubtomiq_pending_stop_quantity(words, count, &mut answer) };
        done(number, answer).map(|w| Totals { sell: wide(w[0], w[1]), buy: wide(w[2], w[3]) })
    }

    /// The selected stops by rising sequence.
    pub fn collect(&self, selector: Selector) -> Result<Vec<Stop>, Refusal> {
        let mut list = self.list();
        let mut answer = [0; 1];
        let (words, count) = (self.words.as_ptr(), self.words.len());
        let number = unsafe {
            library::yubtomiq_collect(words, count, &selector.words(), list.as_mut_ptr(), list.len(), &mut answer)
        };
        done(number, answer).map(|[listed]| stops(&list[..listed as usize]))
    }

    /// Takes the selected stops out, by rising sequence, and answers them as they were.
    pub fn mass_cancel(&mut self, selector: Selector) -> Result<Vec<Stop>, Refusal> {
        let mut list = self.list();
        let mut answer = [0; 1];
        let (words, count) = (self.words.as_mut_ptr(), self.words.len());
        let number = unsafe {
            library::yubtomiq_mass_cancel(words, count, &selector.words(), list.as_mut_ptr(), list.len(), &mut answer)
        };
        done(number, answer).map(|[listed]| stops(&list[..listed as usize]))
    }

    /// Which of 1 to 64 prices elect each pending stop, by rising sequence. The stops are taken as they stand and do not trail: a price is said to elect a
    /// stop exactly if a walk over it alone, with the kill switch off, elects that stop.
    pub fn ladder(&self, prices: &[u64]) -> Result<Vec<LadderEntry>, Refusal> {
        let mut list = self.list();
        let mut answer = [0; 1];
        let (words, count) = (self.words.as_ptr(), self.words.len());
        let number = unsafe {
            library::yubtomiq_ladder(words, count, prices.as_ptr(), prices.len(), list.as_mut_ptr(), list.len(), &mut answer)
        };
        done(number, answer).map(|[listed]| list[..listed as usize].iter().map(LadderEntry::of).collect())
    }

    /// Empties the store, with the same number of records and tick, and closes the path.
    pub fn clear(&mut self, path: &mut PrintPath) -> Result<(), Refusal> {
        let (words, count) = (self.words.as_mut_ptr(), self.words.len());
        let number = path.lend(|path| unsafe { library::yubtomiq_clear(words, count, path) });
        done(number, ())
    }

    // -----------------------------------------------------------------
    // Evaluation

    /// A list with an entry for every pending stop.
    fn list<const N: usize>(&self) -> Vec<[u64; N]> {
        vec![[0; N]; self.pending() as usize]
    }

    /// A segment: a point at the first print and one at the last.
    pub fn segment(&mut self, settings: Settings, prints: Prints) -> Result<Segment, Refusal> {
        let mut elected = self.list();
        let mut moved = vec![[0; MOVED_WORDS]; 2 * elected.len()];
        let mut answer = [0; 2];
        let number = unsafe {
            library::yubtomiq_segment(
                self.words.as_mut_ptr(),
                self.words.len(),
                &settings.words(),
                &prints.words(),
                elected.as_mut_ptr(),
                elected.len(),
                moved.as_mut_ptr(),
                moved.len(),
                &mut answer,
            )
        };
        done(number, answer).map(|[moves, count]| Segment::of(&moved[..moves as usize], &elected[..count as usize]))
    }

    /// What a segment would do; the store stays.
    pub fn ask_segment(&self, settings: Settings, prints: Prints) -> Result<Segment, Refusal> {
        let mut elected = self.list();
        let mut moved = vec![[0; MOVED_WORDS]; 2 * elected.len()];
        let mut answer = [0; 2];
        let number = unsafe {
            library::yubtomiq_ask_segment(
                self.words.as_ptr(),
                self.words.len(),
                &settings.words(),
                &prints.words(),
                elected.as_mut_ptr(),
                elected.len(),
                moved.as_mut_ptr(),
                moved.len(),
                &mut answer,
            )
        };
        done(number, answer).map(|[moves, count]| Segment::of(&moved[..moves as usize], &elected[..count as usize]))
    }

    /// Does the segment that was asked, if the store of this moment gives these very lists; else [`Refusal::ListsDiffer`], and nothing is altered. Asking
    /// and then committing, with no call between, is the segment.
    pub fn commit_segment(&mut self, settings: Settings, prints: Prints, elected: &[Elected], moved: &[Moved]) -> Result<Counts, Refusal> {
        let elected: Vec<ElectedWords> = elected.iter().map(Elected::words).collect();
        let moved: Vec<MovedWords> = moved.iter().map(Moved::words).collect();
        let mut answer = [0; 2];
        let number = unsafe {
            library::yubtomiq_commit_segment(
                self.words.as_mut_ptr(),
                self.words.len(),
                &settings.words(),
                &prints.words(),
                elected.as_ptr(),
                elected.len(),
                moved.as_ptr(),
                moved.len(),
                &mut answer,
            )
        };
        done(number, answer).map(|[moves, elected]| Counts { moves, elected })
    }

    /// A step of a walk: a point at one price, arrived from another, of a run that falls as a whole (its last price is its first or below it) or does
    /// not. Along a run, each from the price before it, the steps list in turn what the walk lists, but that `child_pending` is decided after each
    /// step; moves and elected add up to the walk's, and the last step leaves the walk's store.
    pub fn step(&mut self, settings: Settings, falls: bool, from: Option<u64>, price: u64) -> Result<Segment, Refusal> {
        let mut elected = self.list();
        let mut moved = vec![[0; MOVED_WORDS]; elected.len()];
        let mut answer = [0; 2];
        let number = unsafe {
            library::yubtomiq_step(
                self.words.as_mut_ptr(),
                self.words.len(),
                &settings.words(),
                u64::from(falls),
                &price_words(from),
                price,
                elected.as_mut_ptr(),
                elected.len(),
                moved.as_mut_ptr(),
                moved.len(),
                &mut answer,
            )
        };
        done(number, answer).map(|[moves, count]| Segment::of(&moved[..moves as usize], &elected[..count as usize]))
    }

    /// A walk: a point at each price in turn.
    pub fn walk(&mut self, settings: Settings, prev: Option<u64>, prices: &[u64]) -> Result<Walk, Refusal> {
        let mut elected = self.list();
        let mut answer = [0; 2];
        let number = unsafe {
            library::yubtomiq_walk(
                self.words.as_mut_ptr(),
                self.words.len(),
                &settings.words(),
                &price_words(prev),
                prices.as_ptr(),
                prices.len(),
                elected.as_mut_ptr(),
                elected.len(),
                &mut answer,
            )
        };
        done(number, answer).map(|[moves, count]| Walk::of(moves, &elected[..count as usize]))
    }

    /// A pass: segments from a queue, at first this one. See [`script_words`].
    pub fn evaluate_pending_stops(&mut self, settings: Settings, script: &[u64], prints: Prints) -> Result<Pass, Refusal> {
        let mut elected = self.list();
        let mut answer = [0; 3];
        let number = unsafe {
            library::yubtomiq_evaluate_pending_stops(
                self.words.as_mut_ptr(),
                self.words.len(),
                &settings.words(),
                script.as_ptr(),
                script.len(),
                &prints.words(),
                elected.as_mut_ptr(),
                elected.len(),
                &mut answer,
            )
        };
        done(number, answer).map(|w| passed(w, &elected))
    }

    /// A run: a pass over the path's segment, up to the last trade, and the path closed; nothing where no stop is pending or the path is
    /// closed.
    pub fn run_stop_triggers(
        &mut self,
        path: &mut PrintPath,
        settings: Settings,
        script: &[u64],
        last_trade: Option<u64>,
    ) -> Result<Pass, Refusal> {
        let mut elected = self.list();
        let mut answer = [0; 3];
        let (words, count) = (self.words.as_mut_ptr(), self.words.len());
        let number = path.lend(|path| unsafe {
            library::yubtomiq_run_stop_triggers(
                words,
                count,
                path,
                &settings.words(),
                script.as_ptr(),
                script.len(),
                &price_words(last_trade),
                elected.as_mut_ptr(),
                elected.len(),
                &mut answer,
            )
        });
        done(number, answer).map(|w| passed(w, &elected))
    }
}

fn stops(list: &[StopWords]) -> Vec<Stop> {
    list.iter().map(|w| Stop::of(w)).collect()
}

fn passed([moves, count, used]: [u64; 3], elected: &[ElectedWords]) -> Pass {
    Pass { moves, elected: elected[..count as usize].iter().map(Elected::of).collect(), used }
}

// ---------------------------------------------------------------------
// Preview, limit and child

/// A run of prices on two stores: on `ends` by a segment from its first price to its last, on `run` by a walk. Of two equal stores a run that
/// never rises, or never falls, elects the same stops both ways, in the same order, and leaves the stores equal.
pub fn evaluate_both_ways(
    ends: &mut Store,
    run: &mut Store,
    settings: Settings,
    prev: Option<u64>,
    prices: &[u64],
) -> BothWays {
    let mut elected = ends.list();
    let mut moved = vec![[0; MOVED_WORDS]; 2 * elected.len()];
    let mut listed = run.list();
    let mut answer = [0; 6];
    unsafe {
        library::yubtomiq_evaluate_both_ways(
            ends.words.as_mut_ptr(),
            ends.words.len(),
            run.words.as_mut_ptr(),
            run.words.len(),
            &settings.words(),
            &price_words(prev),
            prices.as_ptr(),
            prices.len(),
            elected.as_mut_ptr(),
            elected.len(),
            moved.as_mut_ptr(),
            moved.len(),
            listed.as_mut_ptr(),
            listed.len(),
            &mut answer,
        )
    };
    let [number, moves, count, walked, steps, listed_count] = answer;
    BothWays {
        ends: done(number, ()).map(|()| Segment::of(&moved[..moves as usize], &elected[..count as usize])),
        run: done(walked, ()).map(|()| Walk::of(steps, &listed[..listed_count as usize])),
    }
}

/// The turning points of a run of 1 to 4,096 prices: its first price, each high and low at which its direction changes, one for a level stretch, and its
/// last; of a run of one price, that price. A walk over them elects what the walk over the run elects, and leaves the same store.
pub fn turning_points(prices: &[u64]) -> Result<Vec<u64>, Refusal> {
    let mut list = vec![0; prices.len()];
    let mut answer = [0; 1];
    let number = unsafe {
        library::yubtomiq_turning_points(prices.as_ptr(), prices.len(), list.as_mut_ptr(), list.len(), &mut answer)
    };
    done(number, answer).map(|[listed]| {
        list.truncate(listed as usize);
        list
    })
}

/// A run of prices on two stores: on `turned` by a walk over its turning points, on `run` by a walk over the run. Of two equal stores both elect the
/// same stops, in the same order, and leave the stores equal.
pub fn evaluate_both_runs(
    turned: &mut Store,
    run: &mut Store,
    settings: Settings,
    prev: Option<u64>,
    prices: &[u64],
) -> BothRuns {
    let mut turns = vec![0; prices.len()];
    let mut elected = turned.list();
    let mut listed = run.list();
    let mut answer = [0; 6];
    unsafe {
        library::yubtomiq_evaluate_both_runs(
            turned.words.as_mut_ptr(),
            turned.words.len(),
            run.words.as_mut_ptr(),
            run.words.len(),
            &settings.words(),
            &price_words(prev),
            prices.as_ptr(),
            prices.len(),
            turns.as_mut_ptr(),
            turns.len(),
            elected.as_mut_ptr(),
            elected.len(),
            listed.as_mut_ptr(),
            listed.len(),
            &mut answer,
        )
    };
    let [number, moves, count, walked, steps, listed_count] = answer;
    BothRuns {
        turns: done(number, ()).map(|()| Walk::of(moves, &elected[..count as usize])),
        run: done(walked, ()).map(|()| Walk::of(steps, &listed[..listed_count as usize])),
    }
}

/// New stop and reference, if the price is past the reference and the stop improves. A panel that starts from a stop's
/// terms, takes both over and keeps its own where there are none has after each price the stop that `StopTerms::trailed`
/// gives, and that a store evaluated at these prices has; its reference may lag behind their watermark.
pub fn calculate_trailing_stop_price(
    side: Side,
    current_stop_price: u64,
    trail_amount: u64,
    last_reference_price: u64,
    current_market_price: u64,
) -> Option<(u64, u64)> {
    let mut a = [0; 3];
    unsafe {
        library::yubtomiq_calculate_trailing_stop_price(
            side as u64,
            current_stop_price,
            trail_amount,
            last_reference_price,
            current_market_price,
            &mut a,
        )
    };
    if a[0] == 0 {
        None
    } else {
        Some((a[1], a[2]))
    }
}

/// The limit of a stop's order: no collar, no limit. A buy's goes on above the highest price.
pub fn limit_price(collar: Option<NonZeroU64>, side: Side, stop_price: u64) -> Option<u128> {
    let mut a = [0; 3];
    unsafe { library::yubtomiq_limit_price(collar_word(collar), side as u64, stop_price, &mut a) };
    present(a[0], wide(a[1], a[2]))
}

/// A collar of so many price units. Refused: [`Refusal::ZeroCollar`].
pub fn collar(units: u64) -> Result<NonZeroU64, Refusal> {
    let number = unsafe { library::yubtomiq_check_collar(units) };
    done(number, units).map(|u| NonZeroU64::new(u).expect("a collar that is accepted is not zero"))
}

/// Whether a collar lies on a tick; a tick of 0 is none. Refused: [`Refusal::CollarOffTick`].
pub fn check_tick_size(collar: NonZeroU64, tick_size: u64) -> Result<(), Refusal> {
    done(unsafe { library::yubtomiq_check_tick_size(collar.get(), tick_size) }, ())
}

/// The identity of the order that an elected stop executes as.
pub fn stop_trigger_order_id(namespace: Namespace, id: Id) -> Id {
    let mut a = [0; 3];
    unsafe { library::yubtomiq_stop_trigger_order_id(&[namespace.high, namespace.low], &id.words(), &mut a) };
    Id::of(&a)
}
