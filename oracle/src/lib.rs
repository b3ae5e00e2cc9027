// Three published files of orderbook-rs 0.15.3, compiled unchanged over plain stand-ins, and a driver that calls their functions. README.md
// says what runs of the published code and what a stand-in decides.

// The published files reach their crates by these names. Each is this crate, whose root holds the stand-ins.
extern crate self as crossbeam;
extern crate self as crossbeam_skiplist;
extern crate self as dashmap;
extern crate self as pricelevel;
extern crate self as serde;
extern crate self as tracing;
extern crate self as uuid;

mod identity;
mod levels;
mod maps;
pub mod orderbook;
mod random;
mod sha1;

pub use identity::{Id, Uuid};
pub use levels::{Hash32, OrderType, OrderUpdate, PegReferenceType, Price, Quantity, Side, TakerKind, TimeInForce};
pub use maps::{DashMap, DashSet, Entry, SkipMap};

// crossbeam::atomic::AtomicCell
pub mod atomic {
    pub use crate::maps::AtomicCell;
}

// A derive needs a derive macro, and a crate that is no proc-macro crate has only the standard ones. StopProtection derives neither
// ordering, so these two can go by serde's names. Nothing here writes or reads a StopProtection as text.
pub use std::cmp::{Ord as Deserialize, PartialOrd as Serialize};

// Logging is dropped: the macros take anything and do nothing.
#[macro_export]
macro_rules! trace {
    ($($any:tt)*) => {{}};
}
#[macro_export]
macro_rules! debug {
    ($($any:tt)*) => {{}};
}
#[macro_export]
macro_rules! warn {
    ($($any:tt)*) => {{}};
}
#[macro_export]
macro_rules! error {
    ($($any:tt)*) => {{}};
}
