// The module that the published files live in. Their inner items are visible here and below, so the driver lives here too.

// What logging alone would have used, and what the driver does not call, is unused.
#[allow(dead_code, unused_variables)]
#[path = "../../target/published/repricing.rs"]
pub mod repricing;
#[allow(dead_code, unused_variables)]
#[path = "../../target/published/stop_orders.rs"]
pub mod stop_orders;
#[allow(dead_code, unused_variables)]
#[path = "../../target/published/stop_protection.rs"]
pub mod stop_protection;

pub mod book;
pub mod check;
pub mod desk;
pub mod driver;
pub mod error;

pub mod matching {
    #[derive(Debug, Clone, Copy)]
    pub struct SweepReservation;

    impl SweepReservation {
        pub const NONE: Self = Self;
    }
}

pub mod metrics {
    use super::reject_reason::RejectReason;

    pub fn record_reject(_: RejectReason) {}
}

pub mod modifications {
    use super::error::OrderBookError;
    use pricelevel::OrderType;

    pub trait OrderQuantity {
        fn total_quantity(&self) -> Result<u64, OrderBookError>;
    }

    /// A trailing stop shows all of its quantity, so the total never overflows.
    impl<T> OrderQuantity for OrderType<T> {
        fn total_quantity(&self) -> Result<u64, OrderBookError> {
            Ok(self.visible_quantity().as_u64())
        }
    }
}

pub mod order_state {
    use super::reject_reason::RejectReason;
    use pricelevel::Id;

    #[derive(Debug, Clone, Copy, PartialEq, Eq)]
    pub enum CancelReason {
        UserRequested,
        SelfTradePrevention,
        InsufficientLiquidity,
        MatchAborted,
        StopProtectionBand,
    }

    #[derive(Debug, Clone, PartialEq, Eq)]
    pub enum OrderStatus {
        Open,
        Filled { filled_quantity: u64 },
        Cancelled { filled_quantity: u64, reason: CancelReason },
        Rejected { reason: RejectReason },
        Triggered { child_id: Id, trigger_price: u128, limit_price: Option<u128> },
    }
}

pub mod reject_reason {
    use super::error::OrderBookError;

    #[derive(Debug, Clone, Copy, PartialEq, Eq)]
    pub enum RejectReason {
        KillSwitchActive,
        DuplicateOrderId,
        Other,
    }

    impl From<&OrderBookError> for RejectReason {
        fn from(error: &OrderBookError) -> Self {
            match error {
                OrderBookError::KillSwitchActive => Self::KillSwitchActive,
                OrderBookError::DuplicateOrderId { .. } => Self::DuplicateOrderId,
                _ => Self::Other,
            }
        }
    }
}
