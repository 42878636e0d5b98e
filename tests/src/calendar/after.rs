//! What is said of a transaction beside its window.

use super::rule::Swap;
use super::words::{height, payees_name, Names};
use crate::model::heights::NEVER;

/// A swap with its names, and the height before block 1.
pub struct After<'a> {
    pub swap: Swap<'a>,
    pub names: &'a Names,
    pub open: &'a [[u8; 4]],
    pub base: u32,
}

impl After<'_> {
    pub fn height(&self, block: u32) -> String {
        height(self.base, block)
    }

    /// "else timeout, pays Bob, from 589".
    pub fn otherwise(&self, t: u8) -> String {
        let rival = self.swap.later_rival(t).expect("a deadline");
        let name = self.names.transaction(rival);
        let pays = payees_name(self.swap.sheet, self.swap.can_pay(rival));
        let from = self.height(self.swap.soonest_deadline(t) + 1);
        format!("else {name}, pays {pays}, from {from}")
    }

    /// ", if revoke is confirmed in 289", after some words.
    pub fn hangs_on(&self, words: &str, t: u8) -> String {
        if self.swap.soonest_deadline(t) == self.swap.deadline(t) {
            return String::new();
        }
        let parent = self.swap.sheet.transaction(t).parent.expect("a parent");
        let block = self.height(self.swap.soonest_block(parent));
        let name = self.names.transaction(parent);
        format!("{words}, if {name} is confirmed in {block}")
    }

    /// What can be confirmed after the soonest deadline, and on what that hangs; nothing where there is none, or where it is
    /// passed and no hand-in is left.
    pub fn otherwise_if_any(&self, t: u8) -> Option<String> {
        let (deadline, mined) = (self.swap.soonest_deadline(t), self.swap.position.mined);
        let otherwise = || self.otherwise(t) + &self.hangs_on("", t);
        match (deadline, deadline <= mined, self.swap.setup.stealth) {
            (NEVER, ..) | (_, true, false) => None,
            (_, true, true) => Some(format!("passed, a hand-in may save it, {}", otherwise())),
            _ => Some(otherwise()),
        }
    }

    /// "; rival success can be sent".
    pub fn in_the_way(&self, t: u8, side: u8) -> String {
        let rivals = self.swap.in_the_way(self.open, t, side);
        let words = rivals.into_iter().map(|(rival, sent)| {
            let verb = if sent { "is sent" } else { "can be sent" };
            format!("; rival {} {verb}", self.names.transaction(rival))
        });
        words.collect()
    }
}
