// The compiled library, called by its plain names.

use crate::yubtomiq::library::{
    yubtomiq_admit_trailing_stop, yubtomiq_collect, yubtomiq_ladder, yubtomiq_layout_store, yubtomiq_mass_cancel, yubtomiq_turning_points, yubtomiq_walk,
    yubtomiq_well_formed,
};
use crate::yubtomiq::{
    ELECTED_WORDS, ElectedWords, HEADER_WORDS, LADDER_WORDS, LadderWords, RECORD_WORDS, STOP_WORDS, SelectorWords, StopWords,
};
use published::Side;
use published::orderbook::desk::{Selector, Stop};

/// Kill switch off, collar 5, namespace zero.
const SETTINGS: [u64; 4] = [0, 5, 0, 0];

#[derive(Clone)]
pub struct Store {
    pub words: Vec<u64>,
    elected: Vec<ElectedWords>,
    collected: Vec<StopWords>,
    tried: Vec<LadderWords>,
}

/// The words of a selector.
fn words_of(selector: Selector) -> SelectorWords {
    match selector {
        Selector::Holder([a, b, c, d]) => [0, a, b, c, d],
        Selector::Side(side) => [1, u64::from(side == Side::Sell), 0, 0, 0],
        Selector::Range(lowest, highest) => [2, lowest, highest, 0, 0],
    }
}

impl Store {
    pub fn with(stops: &[Stop], n: usize) -> Self {
        let words = vec![0; HEADER_WORDS + RECORD_WORDS * n];
        let mut store =
            Self { words, elected: vec![[0; ELECTED_WORDS]; n], collected: vec![[0; STOP_WORDS]; n], tried: vec![[0; LADDER_WORDS]; n] };
        let refused = unsafe { yubtomiq_layout_store(store.words.as_mut_ptr(), store.words.len(), n as u64, 0) };
        assert_eq!(refused, 0, "layout");
        for stop in stops {
            assert_eq!(store.admit(stop), 0, "admission");
        }
        store
    }

    pub fn admit(&mut self, stop: &Stop) -> u64 {
        let (mut path, mut answer) = ([0; 4], [0; 1]);
        let terms = [u64::from(stop.side == Side::Sell), stop.stop, stop.watermark, stop.trail];
        let (words, len) = (self.words.as_mut_ptr(), self.words.len());
        unsafe {
            yubtomiq_admit_trailing_stop(
                words,
                len,
                &mut path,
                0,
                &[0; 2],
                &stop.id.words(),
                &terms,
                stop.quantity,
                &stop.holder,
                &mut answer,
            )
        }
    }

    /// How many a collect lists.
    pub fn collect(&mut self, selector: Selector) -> usize {
        let mut answer = [0; 1];
        let (words, len) = (self.words.as_ptr(), self.words.len());
        let (list, room) = (self.collected.as_mut_ptr(), self.collected.len());
        let refused = unsafe { yubtomiq_collect(words, len, &words_of(selector), list, room, &mut answer) };
        assert_eq!(refused, 0, "collect");
        answer[0] as usize
    }

    /// How many a mass cancel takes out.
    pub fn mass_cancel(&mut self, selector: Selector) -> usize {
        let mut answer = [0; 1];
        let (words, len) = (self.words.as_mut_ptr(), self.words.len());
        let (list, room) = (self.collected.as_mut_ptr(), self.collected.len());
        let refused = unsafe { yubtomiq_mass_cancel(words, len, &words_of(selector), list, room, &mut answer) };
        assert_eq!(refused, 0, "mass cancel");
        answer[0] as usize
    }

    /// How many prices elect stops, counted once a stop.
    pub fn ladder(&mut self, prices: &[u64]) -> u64 {
        let mut answer = [0; 1];
        let (words, len) = (self.words.as_ptr(), self.words.len());
        let (list, room) = (self.tried.as_mut_ptr(), self.tried.len());
        let refused = unsafe { yubtomiq_ladder(words, len, prices.as_ptr(), prices.len(), list, room, &mut answer) };
        assert_eq!(refused, 0, "ladder");
        self.tried[..answer[0] as usize].iter().map(|entry| entry[1]).sum()
    }

    /// How many moved and how many were elected.
    pub fn walk(&mut self, prev: Option<u64>, prices: &[u64]) -> (u64, u64) {
        let prev = [u64::from(prev.is_some()), prev.unwrap_or(0)];
        let mut answer = [0; 2];
        let (words, len) = (self.words.as_mut_ptr(), self.words.len());
        let (elected, room) = (self.elected.as_mut_ptr(), self.elected.len());
        let refused = unsafe { yubtomiq_walk(words, len, &SETTINGS, &prev, prices.as_ptr(), prices.len(), elected, room, &mut answer) };
        assert_eq!(refused, 0, "walk");
        (answer[0], answer[1])
    }

    pub fn well_formed(&self) -> bool {
        unsafe { yubtomiq_well_formed(self.words.as_ptr(), self.words.len()) == 1 }
    }
}

/// How many turning points a run has; they are written from the start of the list.
pub fn turning_points(prices: &[u64], list: &mut [u64]) -> usize {
    let mut answer = [0; 1];
    let refused = unsafe { yubtomiq_turning_points(prices.as_ptr(), prices.len(), list.as_mut_ptr(), list.len(), &mut answer) };
    assert_eq!(refused, 0, "turning points");
    answer[0] as usize
}
