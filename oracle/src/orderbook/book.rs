// Stand-in for book.rs and for the parts of matching.rs and risk.rs that the published files call. Risk and shape checks agree to
// everything; matching follows a script; what the published code tells them is kept in a log for the driver.

use super::error::OrderBookError;
use super::matching::SweepReservation;
use super::order_state::OrderStatus;
use super::stop_orders::PendingStops;
use super::stop_protection::StopProtection;
use pricelevel::{DashMap, Hash32, Id, OrderType, Quantity, Side, TakerKind, Uuid};
use std::cell::{Cell, RefCell};
use std::collections::VecDeque;
use std::marker::PhantomData;
use std::rc::Rc;

/// What the published code told a stand-in, in the order of the calls.
#[derive(Debug, Clone, PartialEq, Eq)]
pub enum Event {
    /// risk_state.rebook_price: a stop moved to a new stop price.
    Moved { id: Id, stop: u128 },
    /// risk_state.on_cancel: an elected or cancelled stop gives its reservation back.
    Released { id: Id },
    /// track_state.
    State { id: Id, status: OrderStatus },
    /// match_order_with_user_outcome: a child runs.
    Child { id: Id, side: Side, quantity: u64, limit: Option<u128>, user: Hash32 },
}

type Log = Rc<RefCell<Vec<Event>>>;

/// One entry of the script: what a child prints. `prev` is the price before its first print, as the script has it.
#[derive(Debug, Clone, Copy, PartialEq, Eq)]
pub struct Printed {
    pub printed: bool,
    pub prev: Option<u64>,
    pub first: u64,
    pub last: u64,
}

pub struct Reservation;

/// Every check agrees and nothing is booked: the port leaves risk to the host.
pub struct RiskState(Log);

impl RiskState {
    pub fn check_limit_admission(&self, _: Hash32, _: u128, _: u64, _: Option<u128>) -> Result<(), OrderBookError> {
        Ok(())
    }

    pub fn check_modify_admission(&self, _: Id, _: Hash32, _: u128, _: u64, _: Option<u128>) -> Result<(), OrderBookError> {
        Ok(())
    }

    pub fn on_admission(&self, _: Id, _: Hash32, _: u128, _: u64) -> Result<Reservation, OrderBookError> {
        Ok(Reservation)
    }

    pub fn release_reservation(&self, _: Reservation) {}

    pub fn rebook_order(&self, _: Id, _: u128, _: u64) -> Result<(), OrderBookError> {
        Ok(())
    }

    pub fn rebook_price(&self, id: Id, stop: u128) {
        self.0.borrow_mut().push(Event::Moved { id, stop });
    }

    pub fn on_cancel(&self, id: Id) {
        self.0.borrow_mut().push(Event::Released { id });
    }
}

pub struct TransactionIds(pub Uuid);

impl TransactionIds {
    pub fn namespace(&self) -> Uuid {
        self.0
    }
}

/// The arithmetic preflight's token.
pub struct Verified;

pub struct MatchResult(Quantity);

impl MatchResult {
    pub fn remaining_quantity(&self) -> Quantity {
        self.0
    }
}

pub struct MatchOutcome {
    pub result: MatchResult,
    pub taker_stp_cancelled: bool,
}

pub struct OrderBook<T> {
    pub(super) pending_stops: PendingStops,
    pub risk_state: RiskState,
    /// The resting orders' identities. Always empty: the port leaves them to the host.
    pub order_locations: DashMap<Id, ()>,
    pub tick_size: Option<u128>,
    pub stop_protection: Option<StopProtection>,
    pub transaction_id_generator: TransactionIds,
    pub last_trade: Cell<Option<u64>>,
    pub kill: Cell<bool>,
    pub script: RefCell<VecDeque<Printed>>,
    /// Script entries used since the script was set.
    pub used: Cell<u64>,
    /// A child's print was recorded over the path since the script was set.
    pub recorded: Cell<bool>,
    pub log: Log,
    extra: PhantomData<T>,
}

impl<T: Clone + Send + Sync + Default + 'static> OrderBook<T> {
    pub fn new(tick: Option<u128>, namespace: Uuid) -> Self {
        let log = Log::default();
        Self {
            pending_stops: PendingStops::new(),
            risk_state: RiskState(log.clone()),
            order_locations: DashMap::with_shard_amount(2),
            tick_size: tick,
            stop_protection: None,
            transaction_id_generator: TransactionIds(namespace),
            last_trade: Cell::new(None),
            kill: Cell::new(false),
            script: RefCell::new(VecDeque::new()),
            used: Cell::new(0),
            recorded: Cell::new(false),
            log,
            extra: PhantomData,
        }
    }

    pub fn last_trade_price(&self) -> Option<u128> {
        self.last_trade.get().map(u128::from)
    }

    pub fn is_kill_switch_engaged(&self) -> bool {
        self.kill.get()
    }

    pub fn check_kill_switch_or_reject(&self, _: Id) -> Result<(), OrderBookError> {
        if self.kill.get() { Err(OrderBookError::KillSwitchActive) } else { Ok(()) }
    }

    pub fn track_state(&self, id: Id, status: OrderStatus) {
        self.log.borrow_mut().push(Event::State { id, status });
    }

    /// The shape of an order is the host's business.
    pub fn validate_order_shape(&self, _: &OrderType<T>) -> Result<(), OrderBookError> {
        Ok(())
    }

    pub fn record_shape_rejection(&self, _: &OrderType<T>, _: &OrderBookError) {}

    pub fn reject_with_risk(&self, _: Id, _: &OrderBookError) {}

    pub fn convert_to_unit_type(&self, order: &OrderType<T>) -> OrderType<()> {
        order.with_extra(())
    }

    pub fn convert_from_unit_type(&self, order: &OrderType<()>) -> OrderType<T> {
        order.with_extra(T::default())
    }

    pub fn check_trade_id_headroom(&self, _: Id, _: Side, _: Option<u128>) -> Result<(), OrderBookError> {
        Ok(())
    }

    pub fn check_trade_arithmetic_or_reject(&self, _: Id, _: Side, _: u64, _: Option<u128>) -> Result<Verified, OrderBookError> {
        Ok(Verified)
    }

    /// Takes the next entry of the script. An entry that prints does what matching.rs does at a matched level: it hands the first
    /// print to the published record_print, and then the last trade is the entry's last.
    pub fn match_order_with_user_outcome(
        &self,
        id: Id,
        side: Side,
        quantity: u64,
        limit: Option<u128>,
        user: Hash32,
        _: TakerKind,
        _: SweepReservation,
        _: Verified,
    ) -> Result<MatchOutcome, OrderBookError> {
        self.log.borrow_mut().push(Event::Child { id, side, quantity, limit, user });
        let next = self.script.borrow_mut().pop_front();
        if next.is_some() {
            self.used.set(self.used.get() + 1);
        }
        match next {
            Some(Printed { printed: true, prev, first, last }) => {
                if !self.pending_stops.is_empty() {
                    self.recorded.set(true);
                }
                self.pending_stops.record_print(prev.map(u128::from), u128::from(first));
                self.last_trade.set(Some(last));
                Ok(MatchOutcome { result: MatchResult(Quantity::new(0)), taker_stp_cancelled: false })
            }
            _ => Err(OrderBookError::InsufficientLiquidity { requested: quantity }),
        }
    }

    pub fn publish_match_outcome_from(&self, _: MatchOutcome, _: bool, _: Option<Id>) -> Result<(), OrderBookError> {
        Ok(())
    }

    /// There is no resting book, so a remainder is never beyond a band.
    pub fn best_bid(&self) -> Option<u128> {
        None
    }

    pub fn best_ask(&self) -> Option<u128> {
        None
    }
}
