//! Estimated times of blocks: n blocks take the Erlang distribution of n, in blocks on average.

use std::cell::RefCell;
use std::collections::HashMap;

/// When the real chain stood at which height, the minutes of a block on average, and the local time's distance from UTC.
#[derive(Clone, Copy, Debug, PartialEq, Eq)]
pub struct Clock {
    pub height: u32,
    /// In minutes since 1970, UTC.
    pub at: i64,
    pub minutes: u32,
    /// In minutes.
    pub zone: i64,
}

/// The parts of a time in minutes since 1970: year, month, day, hour, minute.
fn parts(time: i64) -> [i64; 5] {
    let (mut days, minutes) = (time.div_euclid(1440), time.rem_euclid(1440));
    let is_leap = |year: i64| year % 4 == 0 && (year % 100 != 0 || year % 400 == 0);
    let mut year = 1970;
    while days >= 365 + i64::from(is_leap(year)) {
        days -= 365 + i64::from(is_leap(year));
        year += 1;
    }
    let february = 28 + i64::from(is_leap(year));
    let lengths = [31, february, 31, 30, 31, 30, 31, 31, 30, 31, 30, 31];
    let mut month = 0;
    while days >= lengths[month] {
        days -= lengths[month];
        month += 1;
    }
    [year, month as i64 + 1, days + 1, minutes / 60, minutes % 60]
}

/// "2026-11-17T14:30Z"
pub fn iso(time: i64) -> String {
    let [year, month, day, hour, minute] = parts(time);
    format!("{year:04}-{month:02}-{day:02}T{hour:02}:{minute:02}Z")
}

/// RFC 5545's "date with UTC time": "20261117T143000Z".
pub fn utc(time: i64) -> String {
    let [year, month, day, hour, minute] = parts(time);
    format!("{year:04}{month:02}{day:02}T{hour:02}{minute:02}00Z")
}

/// The chance of fewer than n blocks in the time of x blocks: the Poisson terms below n.
fn chance_of_fewer(n: u64, x: f64) -> f64 {
    let mut logarithm = -x;
    let mut sum = 0.0;
    for k in 0..n {
        sum += logarithm.exp();
        logarithm += x.ln() - ((k + 1) as f64).ln();
    }
    sum
}

/// The time, in blocks on average, before which n blocks come in so many of 100 cases.
fn quantile(n: u64, percent: u32) -> f64 {
    thread_local! { static KNOWN: RefCell<HashMap<(u64, u32), f64>> = RefCell::default(); }
    if n == 0 {
        return 0.0;
    }
    if let Some(known) = KNOWN.with(|known| known.borrow().get(&(n, percent)).copied()) {
        return known;
    }
    let spread = 10.0 * (n as f64).sqrt();
    let (mut low, mut high) = (f64::max(0.0, n as f64 - spread), n as f64 + spread);
    for _ in 0..60 {
        let middle = (low + high) / 2.0;
        match 1.0 - chance_of_fewer(n, middle) < f64::from(percent) / 100.0 {
            true => low = middle,
            false => high = middle,
        }
    }
    KNOWN.with(|known| known.borrow_mut().insert((n, percent), high));
    high
}

impl Clock {
    fn local(&self, time: i64) -> String {
        iso(time + self.zone).replace('T', " ").replace('Z', "")
    }

    /// On average.
    pub fn mean(&self, blocks: u64) -> i64 {
        self.at + blocks as i64 * i64::from(self.minutes)
    }

    /// In so many of 100 cases, to the minute.
    pub fn within(&self, blocks: u64, percent: u32) -> i64 {
        self.at + (quantile(blocks, percent) * f64::from(self.minutes)).round() as i64
    }

    /// " ~2026-11-18 14:30 (20.8 to 27.4 h)"
    pub fn estimate(&self, blocks: u64) -> String {
        let hours = |percent| quantile(blocks, percent) * f64::from(self.minutes) / 60.0;
        let about = self.local(self.mean(blocks));
        format!(" ~{about} ({:.1} to {:.1} h)", hours(5), hours(95))
    }

    /// What is said of it in the first line.
    pub fn words(&self) -> String {
        let (height, at, minutes) = (self.height, self.local(self.at), self.minutes);
        format!(
            "; height {height} at {at}, ~ is an estimate by {minutes} minutes a block, \
             with the hours of 5 and 95 in 100 cases"
        )
    }
}

/// Nothing where there is no clock.
pub fn estimate(clock: Option<Clock>, blocks: u64) -> String {
    clock.map_or(String::new(), |clock| clock.estimate(blocks))
}
