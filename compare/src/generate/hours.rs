//! Hours behind the calls of a list that insert (02, slip 8): open, shut, at the ends of windows, on closed dates, at the ends of months and
//! on 29 February, and each way to break question 10, alone and with others.

use super::Random;
use crate::hours::{FIRST_YEAR, LAST_YEAR, MAX_CLOSED, MAX_WINDOWS, weekday};
use crate::layout::RECORDS;

type Three = [u16; 3];

/// What the hours of a list are like, in percent: calls that have hours; of these, those that break question 10, and of the others, those
/// that are outside all windows.
struct Odds {
    given: u64,
    broken: u64,
    shut: u64,
}

/// The list, about half of the time with hours. The local key, keys that wait, and lists with a queue that is nearly full, where question 8
/// comes before, are given them more often outside of all windows.
pub fn with_hours(mut list: Vec<String>, random: &mut Random) -> Vec<String> {
    if random.percent(45) {
        return list;
    }
    let odds = Odds {
        given: random.pick(&[10, 40, 100]),
        broken: random.pick(&[0, 5, 10, 40]),
        shut: random.pick(&[2, 5, 15, 40]),
    };
    let of_known = Odds { given: 70, shut: 60, ..odds };
    let full = list.iter().filter(|line| line.starts_with("raw_record ")).count() >= RECORDS - 2;
    let odds = if full { Odds { ..of_known } } else { odds };
    let mut known = Vec::new();
    for line in &mut list {
        let words: Vec<&str> = line.strip_prefix("! ").unwrap_or(line).split(' ').collect();
        match words[..] {
            ["new", local, ..] => known.push(local.to_string()),
            ["raw_pending", _, key, ..] => known.push(key.to_string()),
            _ => (),
        }
        let ["insert_or_update" | "absent_insert", _, key, ..] = words[..] else { continue };
        let odds = if known.iter().any(|known| known == key) { &of_known } else { &odds };
        if random.percent(odds.given) {
            let hours = hours(random, odds);
            line.push_str(&hours);
        }
    }
    list
}

/// The four words, each with a space before it.
struct Words {
    windows: Vec<Three>,
    closed: Vec<Three>,
    /// One number more.
    window_rest: bool,
    closed_rest: bool,
    date: Three,
    minute: u16,
}

fn hours(random: &mut Random, odds: &Odds) -> String {
    let broken = random.percent(odds.broken);
    let mut words = if random.percent(odds.shut) { shut(random) } else { open(random) };
    if broken {
        for _ in 0..random.pick(&[1, 1, 1, 2]) {
            words.break_one(random);
        }
    }
    if random.percent(4) {
        // With no window nothing is asked.
        (words.windows, words.window_rest) = (Vec::new(), false);
    }
    words.text()
}

/// A date: any, or at the end of a month, of February, of a year or of all.
fn some_date(random: &mut Random) -> Three {
    let year = match random.below(5) {
        0 => random.pick(&[2000, 2001, 2004, 2099, 2100, 2101, 2200, 2300, 2399]),
        1 => 2024 + random.below(6) as u16,
        _ => FIRST_YEAR + random.below(u64::from(LAST_YEAR - FIRST_YEAR) + 1) as u16,
    };
    let [month, day] = match random.below(8) {
        0 => random.pick(&[[2, 28], [2, 29], [3, 1]]),
        1 => random.pick(&[[1, 1], [12, 31]]),
        2 => [1 + random.below(12) as u16, random.pick(&[1, 30, 31])],
        _ => [1 + random.below(12) as u16, 1 + random.below(31) as u16],
    };
    [year, month, day]
}

fn date(random: &mut Random) -> Three {
    loop {
        let date = some_date(random);
        if weekday(date).is_some() {
            return date;
        }
    }
}

/// A window of some weekday.
fn window(random: &mut Random, weekday: u16) -> Three {
    match random.below(6) {
        0 => [weekday, 0, 1440],
        1 => [weekday, 1439, 1440],
        2 => [weekday, 0, 1],
        _ => {
            let opening = random.below(1439) as u16;
            [weekday, opening, opening + 1 + random.below(u64::from(1440 - opening)) as u16]
        }
    }
}

/// Windows of other weekdays, and dates near this one.
fn around(random: &mut Random, date: Three) -> Words {
    let today = u16::from(weekday(date).unwrap());
    let count = random.pick(&[0, 1, 1, 2, 6, MAX_WINDOWS - 1]);
    let other = |random: &mut Random| {
        let later = random.below(6) as u16;
        window(random, (today + later) % 7 + 1)
    };
    let windows = (0..count).map(|_| other(random)).collect();
    let count = random.pick(&[0, 0, 0, 1, 2, MAX_CLOSED - 1]);
    let closed = (0..count).map(|_| near(random, date)).collect();
    Words { windows, closed, window_rest: false, closed_rest: false, date, minute: random.below(1440) as u16 }
}

/// Another date: one that differs in the year, the month or the day alone, or any.
fn near(random: &mut Random, to: Three) -> Three {
    loop {
        let mut other = some_date(random);
        let kept = random.below(4) as usize;
        for (i, number) in to.into_iter().enumerate() {
            if kept < 3 && i != kept {
                other[i] = number;
            }
        }
        if other != to && weekday(other).is_some() {
            return other;
        }
    }
}

/// A moment in a window: its first minute, its last, or one between.
fn open(random: &mut Random) -> Words {
    let date = date(random);
    let mut words = around(random, date);
    let today = window(random, weekday(date).unwrap().into());
    let [_, opening, closing] = today;
    words.minute = match random.below(4) {
        0 => opening,
        1 => closing - 1,
        _ => opening + random.below(u64::from(closing - opening)) as u16,
    };
    let at = random.below(words.windows.len() as u64 + 1) as usize;
    words.windows.insert(at, today);
    words
}

/// A moment in no window: on another weekday, right before the opening or at the closing minute, or on a closed date.
fn shut(random: &mut Random) -> Words {
    let date = date(random);
    let mut words = around(random, date);
    let today = u16::from(weekday(date).unwrap());
    match random.below(4) {
        0 => {
            words = open(random);
            let at = random.below(words.closed.len() as u64 + 1) as usize;
            words.closed.insert(at, words.date);
        }
        1 => {
            let [_, opening, closing] = window(random, today);
            let opening = opening.max(1);
            words.windows.push([today, opening, closing.max(opening + 1)]);
            words.minute = opening - 1;
        }
        2 => {
            let [_, opening, closing] = window(random, today);
            let closing = closing.min(1439);
            words.windows.push([today, opening.min(closing - 1), closing]);
            words.minute = closing;
        }
        _ => {
            if words.windows.is_empty() {
                words.windows.push(window(random, today % 7 + 1));
            }
        }
    }
    words
}

/// What is no date from 2000 to 2399: one number out of its range.
fn no_date(random: &mut Random) -> Three {
    let [year, month, day] = date(random);
    match random.below(8) {
        0 => [random.pick(&[0, 1999, 1999]), month, day],
        1 => [random.pick(&[2400, 2400, 65535]), month, day],
        2 => [year, 0, day],
        3 => [year, random.pick(&[13, 13, 65535]), day],
        4 => [year, month, 0],
        5 => match random.below(3) {
            0 => [year, month, 32],
            1 => [year, random.pick(&[4, 6, 9, 11]), 31],
            _ => [year, 2, 30],
        },
        6 => [2001 + 4 * random.below(99) as u16 + random.below(3) as u16, 2, 29],
        _ => [random.pick(&[2100, 2200, 2300]), 2, 29],
    }
}

impl Words {
    /// One thing more that question 10 refuses.
    fn break_one(&mut self, random: &mut Random) {
        if self.windows.is_empty() {
            self.windows.push(window(random, 1));
        }
        let at = random.below(self.windows.len() as u64) as usize;
        let window = &mut self.windows[at];
        match random.below(24) {
            0 => window[0] = 0,
            1 => window[0] = random.pick(&[8, 8, 65535]),
            2 => window[1] = window[2],
            3 => (window[1], window[2]) = (window[2], window[1]),
            4 => window[2] = random.pick(&[1441, 1441, 65535]),
            5 => {
                let more = self.windows[at];
                self.windows.resize(MAX_WINDOWS + 1, more);
            }
            6 => self.window_rest = true,
            7 => (self.windows, self.window_rest) = (Vec::new(), true),
            8 => self.closed_rest = true,
            9 => {
                let more = near(random, [2000, 1, 1]);
                self.closed.resize(MAX_CLOSED + 1, more);
            }
            10 => self.minute = random.pick(&[1440, 1440, 65535]),
            11..17 => {
                let at = random.below(self.closed.len() as u64 + 1) as usize;
                let closed = no_date(random);
                self.closed.truncate(MAX_CLOSED - 1);
                self.closed.insert(at.min(self.closed.len()), closed);
            }
            _ => self.date = no_date(random),
        }
    }

    fn text(&self) -> String {
        let list = |entries: &[Three], mark: &str, rest: bool| {
            let entries: Vec<String> = entries.iter().map(|entry| entry.map(|n| n.to_string()).join(mark)).collect();
            let entries = if entries.is_empty() { "-".to_string() } else { entries.join(",") };
            format!("{entries}{}", if rest { "+" } else { "" })
        };
        let (windows, closed) = (list(&self.windows, ":", self.window_rest), list(&self.closed, "-", self.closed_rest));
        format!(" {windows} {closed} {} {}", self.date.map(|n| n.to_string()).join("-"), self.minute)
    }
}
