// A book on which the published functions run, seen with document 01's eyes: stops with their sequences, the print path, and what an
// evaluation elected. Whatever the published code keeps to itself is read from its log of calls or from its own Debug text.

use super::book::{Event, OrderBook, Printed};
use super::order_state::{CancelReason, OrderStatus};
use super::reject_reason::RejectReason;
use super::stop_orders::{StopEntry, StopTerms};
use super::stop_protection::StopProtection;
use pricelevel::{Hash32, Id, OrderType, OrderUpdate, Price, Quantity, Side, TimeInForce, Uuid};

/// The words of a holder: the Rust's user identity, big-endian.
pub const HOLDER_WORDS: usize = 4;

pub type Holder = [u64; HOLDER_WORDS];

fn user_of(holder: Holder) -> Hash32 {
    let mut bytes = [0; 32];
    for (part, word) in bytes.chunks_exact_mut(8).zip(holder) {
        part.copy_from_slice(&word.to_be_bytes());
    }
    Hash32(bytes)
}

fn holder_of(user: Hash32) -> Holder {
    let mut words = [0; HOLDER_WORDS];
    for (word, part) in words.iter_mut().zip(user.0.as_chunks().0) {
        *word = u64::from_be_bytes(*part);
    }
    words
}

/// A pending stop.
#[derive(Debug, Clone, Copy, PartialEq, Eq)]
pub struct Stop {
    pub id: Id,
    pub side: Side,
    pub stop: u64,
    pub watermark: u64,
    pub trail: u64,
    pub quantity: u64,
    pub seq: u64,
    pub holder: Holder,
}

/// Which stops to collect.
#[derive(Debug, Clone, Copy, PartialEq, Eq)]
pub enum Selector {
    Holder(Holder),
    Side(Side),
    /// Stop prices from the lowest to the highest.
    Range(u64, u64),
}

impl Selector {
    fn keeps(self, order: &OrderType<()>) -> bool {
        match self {
            Self::Holder(holder) => order.user_id() == user_of(holder),
            Self::Side(side) => order.side() == side,
            Self::Range(lowest, highest) => (u128::from(lowest)..=u128::from(highest)).contains(&order.price().as_u128()),
        }
    }
}

/// The print path's four fields.
#[derive(Debug, Clone, Copy, PartialEq, Eq)]
pub struct Path {
    pub open: bool,
    pub has_prev: bool,
    pub prev: u64,
    pub first: u64,
}

#[derive(Debug, Clone, Copy, PartialEq, Eq)]
pub struct Elected {
    /// The stop as it left.
    pub stop: Stop,
    pub trigger: u64,
    pub limit: Option<u128>,
    pub child: Id,
    /// The child identity was pending, so no child ran.
    pub pending: bool,
}

#[derive(Debug, Clone, PartialEq, Eq)]
pub struct Evaluated {
    pub moved: Vec<(Id, u64)>,
    pub elected: Vec<Elected>,
    pub used: u64,
    /// A child's print was recorded over the path.
    pub recorded: bool,
}

/// Everything but what is pending and the path.
#[derive(Debug, Clone, Copy)]
pub struct Settings {
    pub tick: u64,
    pub kill: bool,
    pub collar: u64,
    pub namespace: Uuid,
    pub last_trade: Option<u64>,
}

pub struct Desk {
    pub book: OrderBook<()>,
}

pub fn narrow(wide: u128) -> Result<u64, String> {
    u64::try_from(wide).map_err(|_| format!("{wide} is beyond 64 bits"))
}

pub(super) fn terms(side: Side, stop: u64, watermark: u64, trail: u64) -> StopTerms {
    StopTerms { side, stop: u128::from(stop), watermark: u128::from(watermark), trail: u128::from(trail) }
}

/// The order for a stop; its sequence is no part of it.
pub fn order(stop: Stop) -> OrderType<()> {
    OrderType::TrailingStop {
        id: stop.id,
        price: Price::new(u128::from(stop.stop)),
        quantity: Quantity::new(stop.quantity),
        side: stop.side,
        user_id: user_of(stop.holder),
        time_in_force: TimeInForce::Gtc,
        trail_amount: Quantity::new(stop.trail),
        last_reference_price: Price::new(u128::from(stop.watermark)),
        extra_fields: (),
    }
}

/// The stop of an order, with a sequence from elsewhere.
fn stop_of(order: &OrderType<()>, seq: u64) -> Result<Stop, String> {
    let terms = StopTerms::of(order).ok_or("a pending order is no trailing stop")?;
    Ok(Stop {
        id: order.id(),
        side: terms.side,
        stop: narrow(terms.stop)?,
        watermark: narrow(terms.watermark)?,
        trail: narrow(terms.trail)?,
        quantity: order.visible_quantity().as_u64(),
        seq,
        holder: holder_of(order.user_id()),
    })
}

fn stop_of_entry(entry: &StopEntry) -> Result<Stop, String> {
    stop_of(&entry.order, entry.seq)
}

impl Desk {
    pub fn new(settings: Settings) -> Result<Self, String> {
        // Tick 0 is none; both of the Rust's ways to say so are used.
        let tick = match settings.tick {
            0 if settings.namespace.into_bytes()[0] % 2 == 0 => None,
            tick => Some(u128::from(tick)),
        };
        let mut desk = Self { book: OrderBook::new(tick, settings.namespace) };
        desk.set_collar(settings.collar)?;
        desk.book.kill.set(settings.kill);
        desk.book.last_trade.set(settings.last_trade);
        Ok(desk)
    }

    /// A collar of 0 is none.
    pub fn set_collar(&mut self, collar: u64) -> Result<(), String> {
        self.book.stop_protection = match collar {
            0 => None,
            _ => Some(StopProtection::try_new(u128::from(collar)).map_err(|error| format!("{error:?}"))?),
        };
        Ok(())
    }

    pub fn settings(&self) -> Result<Settings, String> {
        Ok(Settings {
            tick: narrow(self.book.tick_size.unwrap_or(0))?,
            kill: self.book.kill.get(),
            collar: narrow(self.book.stop_protection.map_or(0, |protection| protection.collar()))?,
            namespace: self.book.transaction_id_generator.namespace(),
            last_trade: self.book.last_trade.get(),
        })
    }

    /// The pending stops by rising sequence.
    pub fn stops(&self) -> Result<Vec<Stop>, String> {
        self.book.pending_stops.collect(|_| true).iter().map(stop_of_entry).collect()
    }

    pub fn find(&self, id: Id) -> Result<Option<Stop>, String> {
        self.book.pending_stops.get(id).as_ref().map(stop_of_entry).transpose()
    }

    /// The next sequence, which the published store keeps to itself: from its Debug text.
    pub fn next_seq(&self) -> Result<u64, String> {
        let text = format!("{:?}", self.book.pending_stops);
        match field(&text, "next_seq") {
            None => Ok(0),
            Some(word) => word.parse().map_err(|_| format!("next_seq is {word:?}")),
        }
    }

    /// The print path, from the Debug text too.
    pub fn path(&self) -> Result<Path, String> {
        let text = format!("{:?}", self.book.pending_stops);
        let word = |name| field(&text, name).ok_or(format!("no field {name} in {text}"));
        let price = |name| word(name)?.parse().map_err(|_| format!("{name} is no 64-bit number"));
        Ok(Path { open: word("open")? == "true", has_prev: word("has_prev")? == "true", prev: price("prev")?, first: price("first")? })
    }

    /// The published skip lists hold exactly the keys of the pending stops.
    pub fn check_indices(&self) -> Result<(), String> {
        let stops = self.stops()?;
        if stops.len() != self.book.pending_stops.len() {
            return Err("the pending count is not that of the stops".to_string());
        }
        let keys = |side: Side, price: fn(&Stop) -> u64| {
            let mut keys: Vec<(u64, u64)> = stops.iter().filter(|s| s.side == side).map(|s| (price(s), s.seq)).collect();
            keys.sort_unstable();
            keys
        };
        let index = |side| {
            let (by_stop, by_watermark) = (keys(side, |s| s.stop), keys(side, |s| s.watermark));
            format!("SideIndex {{ by_stop: {by_stop:?}, by_watermark: {by_watermark:?} }}")
        };
        let expected = format!("sell: {}, buy: {}", index(Side::Sell), index(Side::Buy));
        let text = format!("{:?}", self.book.pending_stops);
        if text.contains("StopStore") && !text.contains(&expected) {
            return Err(format!("the indices are not those of the stops: {text}, not {expected}"));
        }
        Ok(())
    }

    /// The sequence, or the number of the refusal.
    pub fn admit(&self, stop: Stop) -> Result<Result<u64, u64>, String> {
        self.book.log.borrow_mut().clear();
        match self.book.admit_trailing_stop(order(stop), true) {
            Err(error) => Ok(Err(error.number()?)),
            Ok(_) => {
                let entry = self.find(stop.id)?.ok_or("an admitted stop is not pending")?;
                Ok(Ok(entry.seq))
            }
        }
    }

    /// The record after a change, before a cancel, or the number of the refusal.
    pub fn update(&self, update: OrderUpdate, id: Id) -> Result<Result<Stop, u64>, String> {
        let before = self.find(id)?;
        match self.book.update_pending_stop(update) {
            Err(error) => Ok(Err(error.number()?)),
            // The Rust answers nothing where no such stop is pending: document 01's 12.
            Ok(None) => Ok(Err(12)),
            Ok(Some(answer)) => {
                // The Rust's answer has no sequence: that of the record after a change, or of the one that a cancel took out.
                let entry = self.find(id)?.or(before).ok_or("a changed stop was not pending")?;
                Ok(Ok(stop_of(&answer, entry.seq)?))
            }
        }
    }

    pub fn cancel(&self, id: Id) -> Result<Result<Stop, u64>, String> {
        let before = self.find(id)?;
        match (self.book.cancel_pending_stop(id, CancelReason::UserRequested), before) {
            (None, _) => Ok(Err(12)),
            (Some(answer), Some(before)) => Ok(Ok(stop_of(&answer, before.seq)?)),
            (Some(_), None) => Err("a cancelled stop was not pending".to_string()),
        }
    }

    /// The collected stops, by rising sequence.
    pub fn collect(&self, selector: Selector) -> Result<Vec<Stop>, String> {
        self.book.pending_stops.collect(|order| selector.keeps(order)).iter().map(stop_of_entry).collect()
    }

    /// Cancels what the Rust collects, by its list of identities, one after the other, as its mass cancels do. Answers what was cancelled.
    pub fn mass_cancel(&self, selector: Selector) -> Result<Vec<Stop>, String> {
        let path = self.path()?;
        let mut cancelled = Vec::new();
        for id in self.book.pending_stop_ids(|order| selector.keeps(order)) {
            cancelled.push(self.cancel(id)?.map_err(|_| "a collected stop is not pending")?);
        }
        if self.path()? != path {
            return Err("a mass cancel altered the path".to_string());
        }
        Ok(cancelled)
    }

    /// Opens the path at a sweep's first print and sets the last trade to its last, as matching does.
    pub fn print(&self, prev: Option<u64>, first: u64, last: u64) {
        self.book.pending_stops.reset_path();
        self.book.pending_stops.record_print(prev.map(u128::from), u128::from(first));
        self.book.last_trade.set(Some(last));
    }

    /// One print, and run_stop_triggers over it, as a book without a script of children does: how many moved and how many were elected. For
    /// timing, so nothing is read back.
    pub fn print_and_run(&self, prev: Option<u64>, price: u64) -> (usize, usize) {
        self.book.log.borrow_mut().clear();
        self.print(prev, price, price);
        let pass = self.book.run_stop_triggers();
        (pass.trailed, pass.elected)
    }

    /// How many a collect finds. For timing.
    pub fn count_collected(&self, selector: Selector) -> usize {
        self.book.pending_stops.collect(|order| selector.keeps(order)).len()
    }

    /// How many a mass cancel takes out. For timing.
    pub fn count_cancelled(&self, selector: Selector) -> usize {
        let ids = self.book.pending_stop_ids(|order| selector.keeps(order));
        ids.into_iter().filter(|id| self.book.cancel_pending_stop(*id, CancelReason::UserRequested).is_some()).count()
    }

    /// run_stop_triggers over the path and the last trade as they stand, with a script for the children.
    pub fn run(&self, script: &[Printed]) -> Result<Evaluated, String> {
        let (before, next, path, settings) = (self.stops()?, self.next_seq()?, self.path()?, self.settings()?);
        let mut done = self.run_once(&before, script)?;
        if done.elected.iter().any(|elected| elected.pending) {
            // The published code says no trigger price for a stop whose child identity is pending. A second book with the same stops
            // and another namespace has no such stop; there it runs a child that prints nothing, which is the same to all others.
            let other = Settings { namespace: Uuid::from_bytes(settings.namespace.into_bytes().map(|byte| !byte)), ..settings };
            let twin = Self::restored(other, &before, next)?;
            twin.print(path.has_prev.then_some(path.prev), path.first, 0);
            twin.book.last_trade.set(settings.last_trade);
            let mut entries = script.iter().copied();
            let nothing = Printed { printed: false, prev: None, first: 0, last: 0 };
            let script: Vec<Printed> =
                done.elected.iter().map(|elected| if elected.pending { nothing } else { entries.next().unwrap_or(nothing) }).collect();
            let full = twin.run_once(&before, &script)?;
            if done.moved != full.moved || done.elected.len() != full.elected.len() || self.stops()? != twin.stops()? {
                return Err("the second book went another way".to_string());
            }
            for (elected, known) in done.elected.iter_mut().zip(full.elected) {
                if elected.pending {
                    (elected.trigger, elected.limit) = (known.trigger, known.limit);
                }
                if (Elected { child: elected.child, pending: elected.pending, ..known }) != *elected {
                    return Err("the second book elected otherwise".to_string());
                }
            }
        }
        Ok(done)
    }

    /// A book with these stops, by the published restore path.
    fn restored(settings: Settings, stops: &[Stop], next: u64) -> Result<Self, String> {
        let desk = Self::new(settings)?;
        for stop in stops {
            desk.book.pending_stops.insert_at(order(*stop), stop.seq).map_err(|error| format!("{error:?}"))?;
        }
        desk.book.pending_stops.set_next_seq(next);
        Ok(desk)
    }

    fn run_once(&self, before: &[Stop], script: &[Printed]) -> Result<Evaluated, String> {
        self.book.log.borrow_mut().clear();
        *self.book.script.borrow_mut() = script.iter().copied().collect();
        self.book.used.set(0);
        self.book.recorded.set(false);
        let pass = self.book.run_stop_triggers();
        let log = self.book.log.take();
        let mut done = Evaluated { moved: Vec::new(), elected: Vec::new(), used: self.book.used.get(), recorded: self.book.recorded.get() };
        let mut events = log.into_iter();
        while let Some(event) = events.next() {
            match event {
                Event::Moved { id, stop } => done.moved.push((id, narrow(stop)?)),
                Event::Released { id } => {
                    let elected = self.elected(id, before, &done.moved, &mut events)?;
                    done.elected.push(elected);
                }
                _ => return Err(format!("{event:?} comes out of turn")),
            }
        }
        if pass.trailed != done.moved.len() || pass.elected != done.elected.len() {
            return Err(format!("{pass:?} does not count {done:?}"));
        }
        Ok(done)
    }

    /// One elected stop, from what the published code tells after it has released the reservation. The stop price is that of its
    /// last move, or as it was before the pass: a stop moves no more once it has left.
    fn elected(&self, id: Id, before: &[Stop], moved: &[(Id, u64)], events: &mut impl Iterator<Item = Event>) -> Result<Elected, String> {
        let mut stop = *before.iter().find(|stop| stop.id == id).ok_or("an elected stop was not pending")?;
        if let Some((_, price)) = moved.iter().rev().find(|(mover, _)| *mover == id) {
            stop.stop = *price;
        }
        let child = self.book.stop_trigger_order_id(id);
        match events.next() {
            Some(Event::State { id: told, status: OrderStatus::Rejected { reason: RejectReason::DuplicateOrderId } }) if told == id => {
                Ok(Elected { stop, trigger: 0, limit: None, child, pending: true })
            }
            Some(Event::State { id: told, status: OrderStatus::Triggered { child_id, trigger_price, limit_price } })
                if told == id && child_id == child =>
            {
                let runs = Event::Child { id: child, side: stop.side, quantity: stop.quantity, limit: limit_price, user: user_of(stop.holder) };
                if events.next() != Some(runs) {
                    return Err(format!("the child of {stop:?} does not run as told"));
                }
                match events.next() {
                    Some(Event::State { id: told, status: OrderStatus::Filled { .. } | OrderStatus::Cancelled { .. } }) if told == id => {}
                    event => return Err(format!("{stop:?} ends in {event:?}")),
                }
                Ok(Elected { stop, trigger: narrow(trigger_price)?, limit: limit_price, child, pending: false })
            }
            event => Err(format!("{stop:?} is elected and told {event:?}")),
        }
    }
}

/// The last field of this name in a Debug text.
fn field<'a>(text: &'a str, name: &str) -> Option<&'a str> {
    let start = text.rfind(&format!(" {name}: "))? + name.len() + 3;
    let rest = &text[start..];
    rest.split([',', ' ', '}', ')']).next()
}
