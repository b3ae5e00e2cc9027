// Stand-in for error.rs: the errors that the published files make or look at.

use pricelevel::Id;

#[derive(Debug, Clone, PartialEq, Eq)]
pub enum OrderBookError {
    KillSwitchActive,
    InvalidStopTerms { order_id: Id, reason: &'static str },
    StopWouldTrigger { order_id: Id, stop_price: u128, last_trade_price: u128 },
    DuplicateOrderId { order_id: Id },
    InvalidTickSize { price: u128, tick_size: u128 },
    ArithmeticOverflow { operation: &'static str },
    OrderNotFound(String),
    InvalidOperation { message: String },
    InvalidStopProtection { collar: u128, reason: &'static str },
    InsufficientLiquidity { requested: u64 },
    // No script entry asks for it; the published code looks for it.
    #[allow(dead_code)]
    SelfTradePrevented { user: u64 },
}

impl OrderBookError {
    /// Document 01's number of the question that this error answers no. An error without one is none that the driver can provoke.
    pub fn number(&self) -> Result<u64, String> {
        Ok(match self {
            Self::KillSwitchActive => 3,
            Self::InvalidStopTerms { reason: "quantity is zero", .. } => 4,
            Self::InvalidStopTerms { reason, .. } => inconsistency_number(reason)?,
            Self::StopWouldTrigger { .. } => 7,
            Self::DuplicateOrderId { .. } => 8,
            Self::InvalidTickSize { .. } => 9,
            Self::ArithmeticOverflow { operation: "pending stop admission sequence" } => 11,
            Self::OrderNotFound(_) => 12,
            Self::InvalidOperation { message } if message == "Cannot update price to the same value" => 13,
            Self::InvalidStopProtection { .. } => 17,
            _ => return Err(format!("no number for {self:?}")),
        })
    }
}

/// The number for a reason that StopTerms::inconsistency gives.
pub fn inconsistency_number(reason: &str) -> Result<u64, String> {
    match reason {
        "trail amount is zero" => Ok(5),
        "sell stop price is above its watermark (last_reference_price)"
        | "buy stop price is below its watermark (last_reference_price)" => Ok(6),
        _ => Err(format!("no number for the reason {reason:?}")),
    }
}
