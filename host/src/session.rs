//! Session hours: when new keys are admitted.

use calls::text::SessionCodes;

#[derive(Clone, Copy, Debug, PartialEq, Eq, PartialOrd, Ord)]
pub enum Weekday {
    Monday = 1,
    Tuesday,
    Wednesday,
    Thursday,
    Friday,
    Saturday,
    Sunday,
}

/// A weekly window, of one day. It includes its opening minute and excludes its closing minute, which may be 1,440; opening is before closing.
#[derive(Clone, Copy, Debug, PartialEq, Eq)]
pub struct Window {
    pub weekday: Weekday,
    pub opening: u16,
    pub closing: u16,
}

/// A date of the Gregorian calendar, from 2000 to 2399.
#[derive(Clone, Copy, Debug, PartialEq, Eq, PartialOrd, Ord)]
pub struct Date {
    pub year: u16,
    /// 1 to 12.
    pub month: u16,
    pub day: u16,
}

/// The UTC date and minute, 0 to 1,439.
#[derive(Clone, Copy, Debug, PartialEq, Eq, PartialOrd, Ord)]
pub struct Moment {
    pub date: Date,
    pub minute: u16,
}

/// The hours in which new keys are admitted, and the time of the call: at most 32 windows and 64 closed dates, which have no windows. A
/// call asks all of it, and is refused with [`Refusal::Hours`](crate::Refusal::Hours) where it is out of range. With no window at all
/// nothing is asked, and every key is admitted.
///
/// Keys that are held or pending may be updated at every hour; any other but the local key is refused with
/// [`Refusal::Closed`](crate::Refusal::Closed) outside all windows.
///
/// ```
/// use kbuckets::{
///     ConnectionDirection, ConnectionState, Date, InsertResult, KBucketsTable, Moment, NodeStatus, Refusal, Session, Settings, Value,
///     Weekday, Window,
/// };
///
/// let monday = Window { weekday: Weekday::Monday, opening: 9 * 60, closing: 17 * 60 };
/// let christmas = Date { year: 2026, month: 12, day: 25 };
/// let mut at = Moment { date: Date { year: 2026, month: 11, day: 16 }, minute: 17 * 60 };
/// let mut session = Session::new(&[monday], &[christmas], at);
///
/// let mut table = KBucketsTable::new([0; 32], Settings::default())?;
/// let value = Value { address: None, slot: 7 };
/// let status = NodeStatus { state: ConnectionState::Connected, direction: ConnectionDirection::Outgoing };
/// assert_eq!(table.insert_or_update_in_session(&[1; 32], value, status, 0, &session), Err(Refusal::Closed));
/// at.minute -= 1;
/// session.set_moment(at);
/// assert_eq!(table.insert_or_update_in_session(&[1; 32], value, status, 0, &session)?, InsertResult::Inserted);
/// # Ok::<(), kbuckets::Refusal>(())
/// ```
#[derive(Clone, Debug, PartialEq, Eq)]
pub struct Session {
    codes: SessionCodes,
}

impl Session {
    #[must_use]
    pub fn new(windows: &[Window], closed: &[Date], moment: Moment) -> Session {
        let windows =
            windows.iter().flat_map(|window| [window.weekday as u16, window.opening, window.closing]).collect();
        let closed = closed.iter().flat_map(|date| [date.year, date.month, date.day]).collect();
        let mut session = Session { codes: SessionCodes { windows, closed, ..SessionCodes::default() } };
        session.set_moment(moment);
        session
    }

    /// The same windows and closed dates, at another time.
    pub fn set_moment(&mut self, moment: Moment) {
        let Moment { date: Date { year, month, day }, minute } = moment;
        (self.codes.date, self.codes.minute) = ([year, month, day], minute);
    }

    /// As the library takes it.
    pub(crate) fn codes(&self) -> &SessionCodes {
        &self.codes
    }
}
