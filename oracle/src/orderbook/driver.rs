// The generator: books and calls from a seed, and one line for each call. README.md has the format.

use super::book::Printed;
use super::desk::{Desk, Elected, Evaluated, HOLDER_WORDS, Holder, Path, Selector, Settings, Stop, narrow, terms};
use super::error::inconsistency_number;
use super::repricing::calculate_trailing_stop_price;
use super::stop_orders::stop_trigger_order_id;
use super::stop_protection::StopProtection;
use crate::identity::{bytes_of, words_of};
use crate::random::Random;
use pricelevel::{Id, OrderUpdate, Price, Quantity, Side, Uuid};
use std::io::{BufWriter, Write};

const TOP: u64 = u64::MAX;

/// The words of a stop: identity, terms, quantity, sequence and holder.
const STOP_WORDS: usize = 9 + HOLDER_WORDS;

pub fn run(seed: u64, count: u64) -> Result<(), String> {
    let mut out = BufWriter::new(std::io::stdout().lock());
    let mut random = Random::new(seed);
    let mut left = count;
    while left > 0 {
        let lines = left.min(30 + random.below(60));
        let mut session = Session::new(&mut random)?;
        for _ in 0..lines {
            let line = session.line()?;
            // A reader that has seen enough may close the pipe.
            if writeln!(out, "{line}").is_err() {
                return Ok(());
            }
        }
        left -= lines;
    }
    let _ = out.flush();
    Ok(())
}

/// A line in the making: words with spaces between them.
struct Line(String);

impl Line {
    fn new(name: &str) -> Self {
        Self(name.to_string())
    }

    fn word(&mut self, word: u64) {
        self.0.push_str(&format!(" {word}"));
    }

    fn words(&mut self, words: &[u64]) {
        for word in words {
            self.word(*word);
        }
    }

    fn flag(&mut self, flag: bool) {
        self.word(u64::from(flag));
    }

    /// A flag, and the price or 0.
    fn maybe(&mut self, price: Option<u64>) {
        self.flag(price.is_some());
        self.word(price.unwrap_or(0));
    }

    /// What follows is answers.
    fn answers(&mut self) {
        self.0.push_str(" =");
    }

    fn side(&mut self, side: Side) {
        self.flag(side == Side::Sell);
    }

    fn id(&mut self, id: Id) {
        self.words(&id.words());
    }

    fn uuid(&mut self, uuid: Uuid) {
        self.words(&words_of(uuid.into_bytes()));
    }

    fn stop(&mut self, stop: &Stop) {
        self.id(stop.id);
        self.side(stop.side);
        self.words(&[stop.stop, stop.watermark, stop.trail, stop.quantity, stop.seq]);
        self.words(&stop.holder);
    }

    /// How many there are, and each.
    fn list(&mut self, stops: &[Stop]) {
        self.word(stops.len() as u64);
        for stop in stops {
            self.stop(stop);
        }
    }

    fn stops(&mut self, desk: &Desk) -> Result<(), String> {
        self.word(desk.next_seq()?);
        self.list(&desk.stops()?);
        Ok(())
    }

    fn book(&mut self, desk: &Desk) -> Result<(), String> {
        self.word(desk.settings()?.tick);
        self.stops(desk)
    }

    fn path(&mut self, path: Path) {
        self.flag(path.open);
        self.flag(path.has_prev);
        self.words(&[path.prev, path.first]);
    }

    /// Number 0 and the record, or the number of the refusal and zeros.
    fn answer(&mut self, answer: Result<Stop, u64>) {
        match answer {
            Ok(stop) => {
                self.word(0);
                self.stop(&stop);
            }
            Err(number) => {
                self.word(number);
                self.words(&[0; STOP_WORDS]);
            }
        }
    }

    fn wide(&mut self, wide: u128) {
        self.words(&[(wide >> 64) as u64, wide as u64]);
    }

    fn elected(&mut self, elected: &Elected) {
        let stop = &elected.stop;
        self.id(stop.id);
        self.side(stop.side);
        self.words(&[stop.stop, stop.quantity, stop.seq, elected.trigger]);
        self.flag(elected.limit.is_some());
        self.wide(elected.limit.unwrap_or(0));
        self.id(elected.child);
        self.flag(elected.pending);
    }

    fn all_elected(&mut self, done: &Evaluated) {
        for elected in &done.elected {
            self.elected(elected);
        }
    }
}

/// Where a session's prices lie: `span` of them from `base`, or at both ends of the range.
#[derive(Clone, Copy)]
struct Scale {
    base: u64,
    span: u64,
    ends: bool,
}

// Few prices, so that ties and elections are frequent; some where a signed or a 32-bit comparison would go wrong.
const SCALES: [Scale; 7] = [
    Scale { base: 95, span: 12, ends: false },
    Scale { base: 80, span: 40, ends: false },
    Scale { base: 0, span: 8, ends: false },
    Scale { base: TOP - 7, span: 8, ends: false },
    Scale { base: (1 << 63) - 4, span: 8, ends: false },
    Scale { base: (1 << 32) - 4, span: 8, ends: false },
    Scale { base: 0, span: 5, ends: true },
];

/// One book and the calls on it.
struct Session<'a> {
    random: &'a mut Random,
    desk: Desk,
    scale: Scale,
    /// Identities in use, among them children of others, so that a child's identity is at times pending.
    ids: Vec<Id>,
    /// Holders in use, of which many differ in one word only.
    holders: Vec<Holder>,
    /// About how many stops are kept pending.
    target: u64,
}

impl<'a> Session<'a> {
    fn new(random: &'a mut Random) -> Result<Self, String> {
        let scale = random.pick(&SCALES);
        let tick = random.pick(&[0, 0, 0, 1, 2, 5]);
        let namespace = Uuid::from_bytes(bytes_of(random.word(), random.word()));
        let target = random.pick(&[1, 2, 3, 5, 8, 12, 20]);
        let mut ids: Vec<Id> = Vec::new();
        while (ids.len() as u64) < target + 4 {
            // Many differ in their kind, or in one of their words, only.
            let (any, other) = (random.word(), random.word());
            let id = Id::from_words(random.below(3), random.pick(&[0, 0, 1, TOP, any]), random.pick(&[0, 1, 2, 3, TOP, other]));
            if !ids.contains(&id) {
                ids.push(id);
            }
            let parent = random.pick(&ids);
            let child = stop_trigger_order_id(namespace, parent);
            if random.chance(40) && !ids.contains(&child) {
                ids.push(child);
            }
        }
        let any = random.word();
        let mut holders: Vec<Holder> = vec![std::array::from_fn(|_| random.pick(&[0, 0, 1, TOP, any]))];
        while (holders.len() as u64) < 2 + target / 2 {
            let mut holder = random.pick(&holders);
            let bit = random.below(64);
            holder[random.below(HOLDER_WORDS as u64) as usize] ^= random.pick(&[1, 1, 2, 1 << bit]);
            if !holders.contains(&holder) {
                holders.push(holder);
            }
        }
        let desk = Desk::new(Settings { tick, kill: false, collar: 0, namespace, last_trade: None })?;
        let last_sequences = [TOP, 1 << 63, 1 << 32];
        if random.chance(15) {
            // A book that has come far: the counter near its end, or near a place where a narrower one would wrap.
            let next = random.pick(&last_sequences) - random.below(2 * target + 4);
            desk.book.pending_stops.set_next_seq(next);
        }
        Ok(Self { random, desk, scale, ids, holders, target })
    }

    fn price(&mut self) -> u64 {
        if self.random.chance(2) {
            let any = self.random.word();
            return self.random.pick(&[0, 1, TOP - 1, TOP, any]);
        }
        let offset = self.random.below(self.scale.span);
        if self.scale.ends && self.random.chance(50) { TOP - offset } else { self.scale.base + offset }
    }

    fn side(&mut self) -> Side {
        self.random.pick(&[Side::Buy, Side::Sell])
    }

    fn trail(&mut self) -> u64 {
        let tick = narrow(self.desk.book.tick_size.unwrap_or(0)).unwrap_or(0);
        let unit = if tick > 0 && self.random.chance(80) { tick } else { 1 };
        match self.random.below(100) {
            0..75 => unit * (1 + self.random.below(4)),
            75..88 => unit * (1 + self.random.below(2 * self.scale.span)),
            88..94 => {
                let price = self.price();
                self.random.pick(&[price, 1 << 63, TOP, TOP - 1])
            }
            94..97 => self.random.word(),
            _ => 0,
        }
    }

    fn quantity(&mut self) -> u64 {
        match self.random.below(100) {
            0..6 => 0,
            6..10 => TOP,
            10..13 => self.random.word(),
            _ => 1 + self.random.below(9),
        }
    }

    /// Zero is none. Some reach from a price to the top, or past it.
    fn collar(&mut self) -> u64 {
        match self.random.below(100) {
            0..30 => 0,
            30..80 => 1 + self.random.below(6),
            80..90 => {
                let price = self.price();
                let space = TOP - price;
                self.random.pick(&[price, space, space.saturating_add(1)])
            }
            _ => self.random.pick(&[1, 1 << 63, TOP - 1, TOP]),
        }
    }

    fn id(&mut self) -> Id {
        self.random.pick(&self.ids)
    }

    fn pending_id(&mut self) -> Result<Id, String> {
        let stops = self.desk.stops()?;
        Ok(if stops.is_empty() || self.random.chance(8) { self.id() } else { stops[self.random.below(stops.len() as u64) as usize].id })
    }

    fn free_id(&mut self) -> Id {
        let mut id = self.id();
        for _ in 0..8 {
            if !self.desk.book.pending_stops.contains(id) {
                break;
            }
            id = self.id();
        }
        id
    }

    /// A stop that is most likely to be accepted if `good`, else any.
    fn stop(&mut self, good: bool) -> Stop {
        let id = if good { self.free_id() } else { self.id() };
        let mut stop = Stop {
            id,
            side: self.side(),
            stop: self.price(),
            watermark: self.price(),
            trail: self.trail(),
            quantity: self.quantity(),
            seq: 0,
            holder: self.random.pick(&self.holders),
        };
        for _ in 0..20 {
            let made = terms(stop.side, stop.stop, stop.watermark, stop.trail);
            let crossed = self.desk.book.last_trade_price().is_some_and(|price| made.elected_by(price));
            if !good || made.inconsistency().is_none() && !crossed {
                break;
            }
            (stop.side, stop.stop, stop.watermark, stop.trail) = (self.side(), self.price(), self.price(), self.trail());
        }
        if good && stop.quantity == 0 {
            stop.quantity = 1;
        }
        stop
    }

    /// Between two lines the settings change, which the lines that use them show.
    fn stir(&mut self) -> Result<(), String> {
        let kill = self.random.chance(10);
        self.desk.book.kill.set(kill);
        if self.random.chance(25) {
            let trade = if self.random.chance(20) { None } else { Some(self.price()) };
            self.desk.book.last_trade.set(trade);
        }
        if self.random.chance(25) {
            let collar = self.collar();
            self.desk.set_collar(collar)?;
        }
        Ok(())
    }

    /// Fills the book up, by admissions that give no line. Without a last trade both sides may be such that one print elects them.
    fn fill(&mut self) -> Result<(), String> {
        let kill = self.desk.book.kill.replace(false);
        let trade = self.desk.book.last_trade.get();
        if self.random.chance(40) {
            self.desk.book.last_trade.set(None);
        }
        for _ in 0..2 * self.target {
            if self.desk.book.pending_stops.len() as u64 >= self.target {
                break;
            }
            let stop = self.stop(true);
            let _ = self.desk.admit(stop)?;
        }
        self.desk.book.kill.set(kill);
        self.desk.book.last_trade.set(trade);
        Ok(())
    }

    fn line(&mut self) -> Result<String, String> {
        self.stir()?;
        let line = match self.random.below(100) {
            0..20 => self.admit(),
            20..32 => self.update(),
            32..36 => self.cancel(),
            36..38 => self.find(),
            38..42 => self.collect(),
            42..45 => self.mass_cancel(),
            45..55 => self.segment(),
            55..67 => self.pass(),
            67..78 => self.run(),
            78..83 => self.one_of_the_path(),
            83..84 => self.clear(),
            84..88 => self.trailed(),
            88..90 => self.elected_by(),
            90..92 => self.inconsistency(),
            92..94 => self.limit_for(),
            94..97 => self.preview(),
            97..98 => self.child(),
            98..99 => self.new_collar(),
            _ => self.collar_tick(),
        }?;
        self.desk.check_indices()?;
        Ok(line.0)
    }

    fn admit(&mut self) -> Result<Line, String> {
        let good = self.random.chance(70);
        let stop = self.stop(good);
        let mut line = Line::new("admit");
        line.book(&self.desk)?;
        line.path(self.desk.path()?);
        line.flag(self.desk.book.kill.get());
        line.maybe(self.desk.book.last_trade.get());
        line.id(stop.id);
        line.side(stop.side);
        line.words(&[stop.stop, stop.watermark, stop.trail, stop.quantity]);
        line.words(&stop.holder);
        let answer = self.desk.admit(stop)?;
        line.answers();
        line.word(answer.err().unwrap_or(0));
        line.word(answer.unwrap_or(0));
        line.stops(&self.desk)?;
        line.path(self.desk.path()?);
        Ok(line)
    }

    fn update(&mut self) -> Result<Line, String> {
        if self.random.chance(50) {
            self.fill()?;
        }
        let id = self.pending_id()?;
        // At times with the last sequence, or none, left to give.
        let exhausted = self.random.chance(6);
        if exhausted {
            let next = self.desk.next_seq()?.max(TOP - self.random.below(2));
            self.desk.book.pending_stops.set_next_seq(next);
        }
        let kind = self.random.below(4);
        let (mut side, mut price, mut quantity) = (self.side(), self.price(), self.quantity());
        if let Some(stop) = self.desk.find(id)?
            && self.random.chance(60)
        {
            // Near what it was: the same side and a stop that its watermark allows; at times the very same price.
            side = stop.side;
            for _ in 0..8 {
                if terms(side, price, stop.watermark, stop.trail).inconsistency().is_none() {
                    break;
                }
                price = self.price();
            }
            if self.random.chance(15) {
                price = stop.stop;
            }
        }
        let (new_price, new_quantity) = (Price::new(u128::from(price)), Quantity::new(quantity));
        let update = match kind {
            0 => OrderUpdate::UpdateQuantity { order_id: id, new_quantity },
            1 => OrderUpdate::UpdatePrice { order_id: id, new_price },
            2 => OrderUpdate::UpdatePriceAndQuantity { order_id: id, new_price, new_quantity },
            _ => OrderUpdate::Replace { order_id: id, price: new_price, quantity: new_quantity, side },
        };
        // A change shows only what it has.
        if kind == 0 {
            price = 0;
        }
        if kind == 1 {
            quantity = 0;
        }
        if kind != 3 {
            side = Side::Buy;
        }
        let mut line = Line::new("update");
        line.book(&self.desk)?;
        line.maybe(self.desk.book.last_trade.get());
        line.id(id);
        line.word(kind);
        line.side(side);
        line.words(&[price, quantity]);
        let answer = self.desk.update(update, id)?;
        line.answers();
        line.answer(answer);
        line.stops(&self.desk)?;
        if exhausted {
            self.desk.book.pending_stops.clear();
        }
        Ok(line)
    }

    fn cancel(&mut self) -> Result<Line, String> {
        if self.random.chance(50) {
            self.fill()?;
        }
        let id = self.pending_id()?;
        let mut line = Line::new("cancel");
        line.book(&self.desk)?;
        line.id(id);
        // The Rust has two ways to cancel, with one result.
        let answer =
            if self.random.chance(50) { self.desk.cancel(id)? } else { self.desk.update(OrderUpdate::Cancel { order_id: id }, id)? };
        line.answers();
        line.answer(answer);
        line.stops(&self.desk)?;
        Ok(line)
    }

    fn find(&mut self) -> Result<Line, String> {
        let id = if self.random.chance(60) { self.pending_id()? } else { self.id() };
        let mut line = Line::new("find");
        line.book(&self.desk)?;
        line.id(id);
        line.answers();
        match self.desk.find(id)? {
            Some(stop) => {
                line.word(1);
                line.stop(&stop);
            }
            None => line.words(&[0; 1 + STOP_WORDS]),
        }
        Ok(line)
    }

    /// A selector that is likely to find some, and not all.
    fn selector(&mut self) -> Result<Selector, String> {
        let stops = self.desk.stops()?;
        let kind = self.random.below(3);
        if kind == 1 {
            return Ok(Selector::Side(self.side()));
        }
        if kind == 0 {
            return Ok(Selector::Holder(self.random.pick(&self.holders)));
        }
        // The ends are often the very price of some stop.
        let mut end = || match stops.len() {
            0 => self.price(),
            _ if self.random.chance(40) => self.price(),
            many => stops[self.random.below(many as u64) as usize].stop,
        };
        let (one, other) = (end(), end());
        // At times lowest above highest, at times the whole range.
        Ok(match self.random.below(100) {
            0..10 => Selector::Range(one.max(other), one.min(other)),
            10..15 => Selector::Range(0, TOP),
            15..30 => Selector::Range(one, one),
            _ => Selector::Range(one.min(other), one.max(other)),
        })
    }

    /// The kind of a selector and four words; those that it leaves unused hold anything.
    fn select(&mut self, line: &mut Line, selector: Selector) {
        let any = self.random.word();
        match selector {
            Selector::Holder(holder) => {
                line.word(0);
                line.words(&holder);
            }
            Selector::Side(side) => {
                line.word(1);
                line.side(side);
                line.words(&[any, 0, any]);
            }
            Selector::Range(lowest, highest) => line.words(&[2, lowest, highest, 0, any]),
        }
    }

    fn collect(&mut self) -> Result<Line, String> {
        if self.random.chance(75) {
            self.fill()?;
        }
        let selector = self.selector()?;
        let mut line = Line::new("collect");
        line.book(&self.desk)?;
        self.select(&mut line, selector);
        let collected = self.desk.collect(selector)?;
        line.answers();
        line.list(&collected);
        line.stops(&self.desk)?;
        Ok(line)
    }

    fn mass_cancel(&mut self) -> Result<Line, String> {
        if self.random.chance(75) {
            self.fill()?;
        }
        let selector = self.selector()?;
        let mut line = Line::new("mass_cancel");
        line.book(&self.desk)?;
        self.select(&mut line, selector);
        let collected = self.desk.collect(selector)?;
        let cancelled = self.desk.mass_cancel(selector)?;
        if cancelled != collected {
            return Err("what was cancelled is not what was collected".to_string());
        }
        line.answers();
        line.list(&cancelled);
        line.stops(&self.desk)?;
        Ok(line)
    }

    fn clear(&mut self) -> Result<Line, String> {
        let mut line = Line::new("clear");
        line.book(&self.desk)?;
        line.path(self.desk.path()?);
        self.desk.book.pending_stops.clear();
        line.answers();
        line.stops(&self.desk)?;
        line.path(self.desk.path()?);
        Ok(line)
    }

    /// Kill switch, namespace, collar.
    fn settings(&self, line: &mut Line) -> Result<(), String> {
        let settings = self.desk.settings()?;
        line.flag(settings.kill);
        line.uuid(settings.namespace);
        line.word(settings.collar);
        Ok(())
    }

    /// The prints of a sweep: where it came from, its first and its last.
    fn sweep(&mut self) -> (Option<u64>, u64, u64) {
        let prev = match self.random.below(100) {
            0..15 => None,
            15..65 => self.desk.book.last_trade.get(),
            _ => Some(self.price()),
        };
        let first = self.price();
        let last = if self.random.chance(25) { first } else { self.price() };
        (prev, first, last)
    }

    /// The words of a script, and what its entries say. Words that a flag leaves unused hold anything.
    fn script(&mut self) -> (Vec<[u64; 5]>, Vec<Printed>) {
        let entries = self.random.below(self.target.min(7) + 2);
        let words: Vec<[u64; 5]> = (0..entries)
            .map(|_| {
                let (printed, present) = (self.random.chance(80), self.random.chance(80));
                let prev = self.price();
                let first = self.price();
                let last = if self.random.chance(25) { first } else { self.price() };
                [u64::from(printed), u64::from(present), prev, first, last]
            })
            .collect();
        let entries = words
            .iter()
            .map(|&[printed, present, prev, first, last]| {
                let prev = (present == 1).then_some(prev);
                Printed { printed: printed == 1, prev, first, last }
            })
            .collect();
        (words, entries)
    }

    fn segment(&mut self) -> Result<Line, String> {
        if self.random.chance(75) {
            self.fill()?;
        }
        let (prev, first, last) = self.sweep();
        let mut line = Line::new("segment");
        line.book(&self.desk)?;
        self.settings(&mut line)?;
        line.maybe(prev);
        line.words(&[first, last]);
        self.desk.print(prev, first, last);
        // Children that print nothing leave one segment.
        let done = self.desk.run(&[])?;
        line.answers();
        line.words(&[done.moved.len() as u64, done.elected.len() as u64]);
        for (id, stop) in &done.moved {
            line.id(*id);
            line.word(*stop);
        }
        line.all_elected(&done);
        line.stops(&self.desk)?;
        Ok(line)
    }

    fn pass(&mut self) -> Result<Line, String> {
        if self.random.chance(80) {
            self.fill()?;
        }
        let (prev, first, last) = self.sweep();
        let (words, script) = self.script();
        let mut line = Line::new("pass");
        line.book(&self.desk)?;
        self.settings(&mut line)?;
        line.maybe(prev);
        line.words(&[first, last]);
        line.word(words.len() as u64);
        line.words(words.as_flattened());
        self.desk.print(prev, first, last);
        let done = self.desk.run(&script)?;
        line.answers();
        line.words(&[done.moved.len() as u64, done.elected.len() as u64, done.used]);
        line.all_elected(&done);
        line.stops(&self.desk)?;
        Ok(line)
    }

    fn run(&mut self) -> Result<Line, String> {
        if self.random.chance(70) {
            self.fill()?;
        }
        if self.random.chance(85) {
            let (prev, first, last) = self.sweep();
            self.desk.print(prev, first, last);
        }
        if self.random.chance(10) {
            self.desk.book.last_trade.set(None);
        }
        let (words, script) = self.script();
        let mut line = Line::new("run");
        line.book(&self.desk)?;
        line.path(self.desk.path()?);
        self.settings(&mut line)?;
        line.maybe(self.desk.book.last_trade.get());
        line.word(words.len() as u64);
        line.words(words.as_flattened());
        let done = self.desk.run(&script)?;
        line.answers();
        line.words(&[done.moved.len() as u64, done.elected.len() as u64, done.used]);
        line.all_elected(&done);
        line.stops(&self.desk)?;
        line.flag(!done.recorded);
        line.path(self.desk.path()?);
        Ok(line)
    }

    fn one_of_the_path(&mut self) -> Result<Line, String> {
        if self.random.chance(50) {
            let (prev, first, last) = self.sweep();
            self.desk.print(prev, first, last);
        }
        if self.random.chance(15) {
            self.desk.book.last_trade.set(None);
        }
        let stops = &self.desk.book.pending_stops;
        let before = self.desk.path()?;
        match self.random.below(5) {
            0..2 => {
                let (prev, first, _) = self.sweep();
                let stops = &self.desk.book.pending_stops;
                let mut line = Line::new("record");
                line.word(stops.len() as u64);
                line.path(before);
                line.maybe(prev);
                line.word(first);
                stops.record_print(prev.map(u128::from), u128::from(first));
                line.answers();
                line.path(self.desk.path()?);
                Ok(line)
            }
            2..4 => {
                let mut line = Line::new("take");
                line.path(before);
                line.maybe(self.desk.book.last_trade.get());
                let taken = stops.take_path(self.desk.book.last_trade_price());
                line.answers();
                line.flag(taken.is_some());
                match taken {
                    Some(segment) => {
                        line.maybe(segment.prev.map(narrow).transpose()?);
                        line.words(&[narrow(segment.first)?, narrow(segment.last)?]);
                    }
                    None => line.words(&[0; 4]),
                }
                line.path(self.desk.path()?);
                Ok(line)
            }
            _ => {
                let mut line = Line::new("reset");
                line.path(before);
                stops.reset_path();
                line.answers();
                line.path(self.desk.path()?);
                Ok(line)
            }
        }
    }

    /// A side, a stop, a watermark and a trail, consistent or not.
    fn terms(&mut self, line: &mut Line) -> (Side, u64, u64, u64) {
        let good = self.random.chance(60);
        let stop = self.stop(good);
        line.side(stop.side);
        line.words(&[stop.stop, stop.watermark, stop.trail]);
        (stop.side, stop.stop, stop.watermark, stop.trail)
    }

    fn trailed(&mut self) -> Result<Line, String> {
        let mut line = Line::new("trailed");
        let (side, stop, watermark, trail) = self.terms(&mut line);
        let price = self.price();
        line.word(price);
        let after = terms(side, stop, watermark, trail).trailed(u128::from(price));
        line.answers();
        line.words(&[narrow(after.stop)?, narrow(after.watermark)?]);
        Ok(line)
    }

    fn elected_by(&mut self) -> Result<Line, String> {
        let mut line = Line::new("elected_by");
        let (side, stop, watermark, trail) = self.terms(&mut line);
        let price = self.price();
        line.word(price);
        line.answers();
        line.flag(terms(side, stop, watermark, trail).elected_by(u128::from(price)));
        Ok(line)
    }

    fn inconsistency(&mut self) -> Result<Line, String> {
        let mut line = Line::new("inconsistency");
        let (side, stop, watermark, trail) = self.terms(&mut line);
        line.answers();
        line.word(terms(side, stop, watermark, trail).inconsistency().map_or(Ok(0), inconsistency_number)?);
        Ok(line)
    }

    fn limit_for(&mut self) -> Result<Line, String> {
        let (collar, side, stop) = (self.collar().max(1), self.side(), self.price());
        let protection = StopProtection::try_new(u128::from(collar)).map_err(|error| format!("{error:?}"))?;
        let mut line = Line::new("limit_for");
        line.word(collar);
        line.side(side);
        line.word(stop);
        line.answers();
        line.wide(protection.limit_for(side, u128::from(stop)));
        Ok(line)
    }

    fn preview(&mut self) -> Result<Line, String> {
        let mut line = Line::new("preview");
        let (side, stop, watermark, trail) = self.terms(&mut line);
        let price = self.price();
        line.word(price);
        line.answers();
        match calculate_trailing_stop_price(side, u128::from(stop), trail, u128::from(watermark), u128::from(price)) {
            Some((stop, watermark)) => line.words(&[1, narrow(stop)?, narrow(watermark)?]),
            None => line.words(&[0; 3]),
        }
        Ok(line)
    }

    fn child(&mut self) -> Result<Line, String> {
        let namespace = Uuid::from_bytes(bytes_of(self.random.word(), self.random.word()));
        let id = self.id();
        let mut line = Line::new("child");
        line.uuid(namespace);
        line.id(id);
        line.answers();
        line.id(stop_trigger_order_id(namespace, id));
        Ok(line)
    }

    fn new_collar(&mut self) -> Result<Line, String> {
        let collar = self.collar();
        let mut line = Line::new("collar");
        line.word(collar);
        line.answers();
        match StopProtection::try_new(u128::from(collar)) {
            Ok(protection) => line.words(&[0, narrow(protection.collar())?]),
            Err(error) => line.words(&[error.number()?, 0]),
        }
        Ok(line)
    }

    fn collar_tick(&mut self) -> Result<Line, String> {
        let collar = self.collar().max(1);
        let any = self.random.word();
        let tick = self.random.pick(&[0, 1, 2, 3, 5, collar, any]);
        let given = if tick == 0 && self.random.chance(50) { None } else { Some(u128::from(tick)) };
        let protection = StopProtection::try_new(u128::from(collar)).map_err(|error| format!("{error:?}"))?;
        let mut line = Line::new("collar_tick");
        line.words(&[collar, tick]);
        line.answers();
        // The error is that of a tick, 9 at admission; held against a collar it is 18.
        line.word(match protection.check_tick_size(given) {
            Ok(()) => 0,
            Err(error) if error.number()? == 9 => 18,
            Err(error) => return Err(format!("{error:?}")),
        });
        Ok(line)
    }
}
