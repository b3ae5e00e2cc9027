// Stand-ins for the crate pricelevel: the values that the published files name, with what they ask of them.

use crate::Id;

#[derive(Debug, Clone, Copy, PartialEq, Eq)]
pub struct Price(u128);

impl Price {
    pub const fn new(price: u128) -> Self {
        Self(price)
    }

    pub const fn as_u128(self) -> u128 {
        self.0
    }
}

#[derive(Debug, Clone, Copy, PartialEq, Eq)]
pub struct Quantity(u64);

impl Quantity {
    pub const fn new(quantity: u64) -> Self {
        Self(quantity)
    }

    pub const fn as_u64(self) -> u64 {
        self.0
    }
}

#[derive(Debug, Clone, Copy, PartialEq, Eq)]
pub enum Side {
    Buy,
    Sell,
}

#[derive(Debug, Clone, Copy, PartialEq, Eq)]
pub struct Hash32(pub [u8; 32]);

#[derive(Debug, Clone, Copy, PartialEq, Eq)]
pub enum TimeInForce {
    Gtc,
    Ioc,
    Fok,
}

#[derive(Debug, Clone, Copy, PartialEq, Eq)]
pub enum TakerKind {
    Standard,
}

#[derive(Debug, Clone, Copy, PartialEq, Eq)]
pub enum PegReferenceType {
    BestBid,
    BestAsk,
    MidPrice,
    LastTrade,
}

/// Of the order types only the trailing stop matters; the other one is there so that an order can be none.
#[derive(Debug, Clone, PartialEq, Eq)]
pub enum OrderType<T> {
    Standard {
        id: Id,
        price: Price,
        quantity: Quantity,
        side: Side,
        user_id: Hash32,
        time_in_force: TimeInForce,
        extra_fields: T,
    },
    TrailingStop {
        id: Id,
        price: Price,
        quantity: Quantity,
        side: Side,
        user_id: Hash32,
        time_in_force: TimeInForce,
        trail_amount: Quantity,
        last_reference_price: Price,
        extra_fields: T,
    },
}

impl<T> OrderType<T> {
    pub fn id(&self) -> Id {
        match self {
            Self::Standard { id, .. } | Self::TrailingStop { id, .. } => *id,
        }
    }

    pub fn price(&self) -> Price {
        match self {
            Self::Standard { price, .. } | Self::TrailingStop { price, .. } => *price,
        }
    }

    pub fn visible_quantity(&self) -> Quantity {
        match self {
            Self::Standard { quantity, .. } | Self::TrailingStop { quantity, .. } => *quantity,
        }
    }

    pub fn side(&self) -> Side {
        match self {
            Self::Standard { side, .. } | Self::TrailingStop { side, .. } => *side,
        }
    }

    pub fn user_id(&self) -> Hash32 {
        match self {
            Self::Standard { user_id, .. } | Self::TrailingStop { user_id, .. } => *user_id,
        }
    }

    pub fn time_in_force(&self) -> TimeInForce {
        match self {
            Self::Standard { time_in_force, .. } | Self::TrailingStop { time_in_force, .. } => *time_in_force,
        }
    }

    /// The same order with other extra fields.
    pub fn with_extra<U>(&self, extra: U) -> OrderType<U> {
        match *self {
            Self::Standard { id, price, quantity, side, user_id, time_in_force, .. } => {
                OrderType::Standard { id, price, quantity, side, user_id, time_in_force, extra_fields: extra }
            }
            Self::TrailingStop {
                id,
                price,
                quantity,
                side,
                user_id,
                time_in_force,
                trail_amount,
                last_reference_price,
                ..
            } => OrderType::TrailingStop {
                id,
                price,
                quantity,
                side,
                user_id,
                time_in_force,
                trail_amount,
                last_reference_price,
                extra_fields: extra,
            },
        }
    }
}

#[derive(Debug, Clone, Copy, PartialEq, Eq)]
pub enum OrderUpdate {
    UpdatePrice { order_id: Id, new_price: Price },
    UpdateQuantity { order_id: Id, new_quantity: Quantity },
    UpdatePriceAndQuantity { order_id: Id, new_price: Price, new_quantity: Quantity },
    Cancel { order_id: Id },
    Replace { order_id: Id, price: Price, quantity: Quantity, side: Side },
}
