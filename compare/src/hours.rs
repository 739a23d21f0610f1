//! Questions 10 and 11 of a call that inserts (02, slip 8), with a calendar of their own: a walk from day to day by a table of the months.
//! What the walk does not meet is no date.

use crate::text::SessionCodes;
use std::sync::OnceLock;

pub const FIRST_YEAR: u16 = 2000;
pub const LAST_YEAR: u16 = 2399;

/// The days of the months, of a year without a 29 February.
const MONTHS: [u16; 12] = [31, 28, 31, 30, 31, 30, 31, 31, 30, 31, 30, 31];

/// The years that 4 divides and that have no 29 February all the same.
const COMMON_CENTURIES: [u16; 3] = [2100, 2200, 2300];

/// 1 January 2000 was a Saturday.
const FIRST_WEEKDAY: u8 = 6;

/// Places in the table for each month.
const DAYS: usize = 31;

fn place([year, month, day]: [u16; 3]) -> usize {
    (usize::from(year - FIRST_YEAR) * MONTHS.len() + usize::from(month - 1)) * DAYS + usize::from(day - 1)
}

/// The weekday of each day that there is, 0 in the other places.
fn walk() -> Vec<u8> {
    let mut weekdays = vec![0; usize::from(LAST_YEAR - FIRST_YEAR + 1) * MONTHS.len() * DAYS];
    let mut weekday = FIRST_WEEKDAY;
    for year in FIRST_YEAR..=LAST_YEAR {
        for (month, days) in (1..).zip(MONTHS) {
            let one_more = month == 2 && year % 4 == 0 && !COMMON_CENTURIES.contains(&year);
            for day in 1..=days + u16::from(one_more) {
                weekdays[place([year, month, day])] = weekday;
                weekday = weekday % 7 + 1;
            }
        }
    }
    weekdays
}

/// The weekday of a date, 1 Monday to 7 Sunday; none of what is no date from 2000 to 2399.
pub fn weekday(date: [u16; 3]) -> Option<u8> {
    static WEEKDAYS: OnceLock<Vec<u8>> = OnceLock::new();
    let [year, month, day] = date;
    let within =
        (FIRST_YEAR..=LAST_YEAR).contains(&year) && (1..=12).contains(&month) && (1..=DAYS as u16).contains(&day);
    let weekday = if within { WEEKDAYS.get_or_init(walk)[place(date)] } else { 0 };
    (weekday > 0).then_some(weekday)
}

/// The most windows and the most closed dates.
pub const MAX_WINDOWS: usize = 32;
pub const MAX_CLOSED: usize = 64;

const MINUTES: u16 = 1440;

/// A way to break question 10.
pub type Fault = &'static str;

pub const WINDOW_FAULTS: [Fault; 7] = [
    "windows and a rest",
    "more than 32 windows",
    "weekday 0",
    "weekday over 7",
    "opening at closing",
    "opening behind closing",
    "closing over 1440",
];
pub const CLOSED_FAULTS: [Fault; 2] = ["dates and a rest", "more than 64 dates"];
pub const DATE_FAULTS: [Fault; 8] = [
    "year under 2000",
    "year over 2399",
    "month 0",
    "month over 12",
    "day 0",
    "day over the month",
    "29 February",
    "29 February of a century",
];
pub const MINUTE_FAULT: Fault = "minute over 1439";

fn date_fault(date: [u16; 3]) -> Option<Fault> {
    let [year, month, day] = date;
    let fault = match date {
        _ if weekday(date).is_some() => return None,
        _ if year < FIRST_YEAR => 0,
        _ if year > LAST_YEAR => 1,
        [_, 0, _] => 2,
        _ if month > 12 => 3,
        _ if day == 0 => 4,
        [_, 2, 29] => 6 + usize::from(year % 100 == 0),
        _ => 5,
    };
    Some(DATE_FAULTS[fault])
}

fn window_fault(window: &[u16]) -> Option<Fault> {
    let fault = match *window {
        [0, ..] => 2,
        [weekday, ..] if weekday > 7 => 3,
        [_, opening, closing] if opening == closing => 4,
        [_, opening, closing] if opening > closing => 5,
        [_, _, closing] if closing > MINUTES => 6,
        _ => return None,
    };
    Some(WINDOW_FAULTS[fault])
}

/// The date among three numbers.
fn date(three: &[u16]) -> [u16; 3] {
    three.try_into().unwrap()
}

/// What of the hours breaks question 10: in the windows, the closed dates, the date and the minute. With an empty window list it is not
/// asked.
pub fn faults(session: &SessionCodes) -> Vec<(&'static str, Fault)> {
    let SessionCodes { windows, closed, .. } = session;
    if windows.is_empty() {
        return Vec::new();
    }
    let mut faults = Vec::new();
    faults.extend((windows.len() % 3 != 0).then_some(("windows", WINDOW_FAULTS[0])));
    faults.extend((windows.len() > 3 * MAX_WINDOWS).then_some(("windows", WINDOW_FAULTS[1])));
    faults.extend(windows.chunks_exact(3).filter_map(window_fault).map(|fault| ("windows", fault)));
    faults.extend((closed.len() % 3 != 0).then_some(("closed", CLOSED_FAULTS[0])));
    faults.extend((closed.len() > 3 * MAX_CLOSED).then_some(("closed", CLOSED_FAULTS[1])));
    faults.extend(closed.chunks_exact(3).filter_map(|three| date_fault(date(three))).map(|fault| ("closed", fault)));
    faults.extend(date_fault(session.date).map(|fault| ("date", fault)));
    faults.extend((session.minute >= MINUTES).then_some(("minute", MINUTE_FAULT)));
    faults
}

/// Whether the date is among the closed ones.
pub fn is_closed(session: &SessionCodes) -> bool {
    session.closed.chunks_exact(3).any(|closed| date(closed) == session.date)
}

/// Whether the moment is in a window, and its date not closed. Of hours that break question 10 this is not asked.
pub fn is_open(session: &SessionCodes) -> bool {
    let today = weekday(session.date).map(u16::from);
    let mut windows = session.windows.chunks_exact(3);
    !is_closed(session)
        && windows.any(|window| Some(window[0]) == today && (window[1]..window[2]).contains(&session.minute))
}

/// Questions 10 and 11, the one that refuses. `known`: the local key, or one that is held or pending before the call.
pub fn refusal(session: &SessionCodes, known: bool) -> Option<u8> {
    if session.windows.is_empty() {
        None
    } else if !faults(session).is_empty() {
        Some(10)
    } else if !known && !is_open(session) {
        Some(11)
    } else {
        None
    }
}

#[cfg(test)]
mod tests {
    use super::*;

    fn session(windows: &[u16], closed: &[u16], date: [u16; 3], minute: u16) -> SessionCodes {
        SessionCodes { windows: windows.to_vec(), closed: closed.to_vec(), date, minute }
    }

    /// Days that a printed calendar has, ends of months and centuries, and the length of the whole.
    #[test]
    fn calendar() {
        for (date, expected) in [
            ([2000, 1, 1], 6),
            ([2000, 2, 29], 2),
            ([2000, 12, 31], 7),
            ([2001, 1, 1], 1),
            ([2004, 2, 29], 7),
            ([2026, 11, 16], 1),
            ([2100, 2, 28], 7),
            ([2100, 3, 1], 1),
            ([2399, 12, 31], 5),
        ] {
            assert_eq!(weekday(date), Some(expected), "{date:?}");
        }
        for date in [
            [2100, 2, 29],
            [2200, 2, 29],
            [2300, 2, 29],
            [2023, 2, 29],
            [2000, 2, 30],
            [2000, 4, 31],
            [2000, 12, 32],
            [2000, 1, 0],
            [2000, 0, 1],
            [2000, 13, 1],
            [1999, 12, 31],
            [2400, 1, 1],
            [0, 0, 0],
            [65535, 65535, 65535],
        ] {
            assert_eq!(weekday(date), None, "{date:?}");
        }
        let days = walk();
        assert_eq!(days.iter().filter(|weekday| **weekday > 0).count(), 146_097);
        // 400 years are whole weeks.
        assert_eq!(146_097 % 7, 0);
    }

    #[test]
    fn questions() {
        let monday = [2026, 11, 16];
        let open = |minute| refusal(&session(&[1, 540, 1020], &[], monday, minute), false);
        assert_eq!([539, 540, 1019, 1020].map(open), [Some(11), None, None, Some(11)]);
        assert_eq!(refusal(&session(&[1, 0, 1440], &[], monday, 1439), false), None);
        assert_eq!(refusal(&session(&[2, 0, 1440], &[], monday, 0), false), Some(11));
        assert_eq!(refusal(&session(&[2, 0, 1440], &[], monday, 0), true), None);
        assert_eq!(refusal(&session(&[2, 0, 1440, 1, 0, 1], &[], monday, 0), false), None);
        assert_eq!(refusal(&session(&[1, 0, 1440], &[2026, 11, 16], monday, 0), false), Some(11));
        assert_eq!(refusal(&session(&[1, 0, 1440], &[2026, 11, 16], monday, 0), true), None);
        assert_eq!(refusal(&session(&[1, 0, 1440], &[2025, 11, 16], monday, 0), false), None);
        // With no window nothing is asked.
        assert_eq!(refusal(&session(&[], &[1], [0, 0, 0], 65535), false), None);
        // 10 before 11, whatever the key.
        for known in [false, true] {
            for (windows, closed, date, minute, fault) in [
                (vec![0], vec![], monday, 0, ("windows", "windows and a rest")),
                (vec![1, 0, 1440, 0, 0], vec![], monday, 0, ("windows", "windows and a rest")),
                ([1, 0, 1440].repeat(33), vec![], monday, 0, ("windows", "more than 32 windows")),
                (vec![0, 0, 1440], vec![], monday, 0, ("windows", "weekday 0")),
                (vec![8, 0, 1440], vec![], monday, 0, ("windows", "weekday over 7")),
                (vec![1, 9, 9], vec![], monday, 0, ("windows", "opening at closing")),
                (vec![1, 10, 9], vec![], monday, 0, ("windows", "opening behind closing")),
                (vec![1, 0, 1441], vec![], monday, 0, ("windows", "closing over 1440")),
                (vec![1, 0, 1440], vec![0, 0], monday, 0, ("closed", "dates and a rest")),
                (vec![1, 0, 1440], [2000, 1, 1].repeat(65), monday, 0, ("closed", "more than 64 dates")),
                (vec![1, 0, 1440], vec![2001, 2, 29], monday, 0, ("closed", "29 February")),
                (vec![1, 0, 1440], vec![], [2100, 2, 29], 0, ("date", "29 February of a century")),
                (vec![1, 0, 1440], vec![], [2026, 11, 31], 0, ("date", "day over the month")),
                (vec![1, 0, 1440], vec![], [2026, 11, 0], 0, ("date", "day 0")),
                (vec![1, 0, 1440], vec![], [2026, 13, 1], 0, ("date", "month over 12")),
                (vec![1, 0, 1440], vec![], [2026, 0, 1], 0, ("date", "month 0")),
                (vec![1, 0, 1440], vec![], [1999, 12, 31], 0, ("date", "year under 2000")),
                (vec![1, 0, 1440], vec![], [2400, 1, 1], 0, ("date", "year over 2399")),
                (vec![1, 0, 1440], vec![], monday, 1440, ("minute", "minute over 1439")),
            ] {
                let session = session(&windows, &closed, date, minute);
                assert_eq!(faults(&session), [fault]);
                assert_eq!(refusal(&session, known), Some(10), "{fault:?}");
            }
        }
        assert_eq!(refusal(&session(&[1, 0, 1440].repeat(32), &[2000, 1, 1].repeat(64), monday, 0), false), None);
    }
}
