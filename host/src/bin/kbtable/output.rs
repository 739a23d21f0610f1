//! The bytes that a call is lent to write to. They hold a pattern, and so do bytes on both sides of them; after the call, all that it does
//! not say it wrote must hold it still.

use std::ops::Range;

/// Bytes on each side of those lent that are looked at.
const BESIDE: usize = 64;

/// The places at which the lent bytes begin, in turn, so that each call meets other bytes of the pattern.
const STARTS: usize = 251;

/// The first place, outside of `allowed`, at which the bytes differ.
pub fn changed(before: &[u8], after: &[u8], allowed: Range<usize>) -> Option<usize> {
    [0..allowed.start, allowed.end..before.len()].into_iter().find_map(|held| {
        let (before, after) = (&before[held.clone()], &after[held.clone()]);
        // Equal bytes, nearly all there ever are, are compared fastest as a whole.
        if before == after {
            None
        } else {
            before.iter().zip(after).position(|(b, a)| b != a).map(|at| held.start + at)
        }
    })
}

pub struct Output {
    bytes: Vec<u8>,
    pattern: Vec<u8>,
    /// How often bytes were lent.
    turn: usize,
    lent: Range<usize>,
    written: usize,
}

impl Output {
    /// To lend at most so many bytes.
    pub fn new(most: usize) -> Output {
        let pattern = pattern(BESIDE + STARTS + most + BESIDE);
        Output { bytes: pattern.clone(), pattern, turn: 0, lent: BESIDE..BESIDE, written: 0 }
    }

    /// Lends bytes with room for so many entries and not for one more: in turn exactly these, all but a byte of one more, and others.
    pub fn lend(&mut self, entries: usize, entry: usize) -> &mut [u8] {
        let part = match self.turn % 3 {
            0 => 0,
            1 => entry - 1,
            _ => self.turn / 3 % entry,
        };
        let start = BESIDE + self.turn % STARTS;
        self.turn += 1;
        self.lent = start..start + entries * entry + part;
        &mut self.bytes[self.lent.clone()]
    }

    /// Entries to lend beyond those asked for, where a line leaves it open: 0, 1 or 2.
    pub fn more(&self) -> u64 {
        (self.turn / 3 % 3) as u64
    }

    /// Notes that the call says it wrote so many bytes at the front, and gives them: as many as there are.
    pub fn wrote(&mut self, count: usize) -> &[u8] {
        self.written = count.min(self.lent.len());
        &self.bytes[self.lent.start..][..self.written]
    }

    /// After a call: holds all bytes that it does not say it wrote against the pattern, and makes the others as they were.
    pub fn check(&mut self) -> Result<(), String> {
        let lent = std::mem::replace(&mut self.lent, BESIDE..BESIDE);
        let written = std::mem::take(&mut self.written);
        let around = lent.start - BESIDE..lent.end + BESIDE;
        let (before, after) = (&self.pattern[around.clone()], &mut self.bytes[around]);
        let allowed = BESIDE..BESIDE + written;
        match changed(before, after, allowed.clone()) {
            Some(at) => Err(format!(
                "byte {} of the output changed; it has {} bytes, and the call says that it wrote {written}",
                at as isize - BESIDE as isize,
                lent.len()
            )),
            None => {
                after[allowed.clone()].copy_from_slice(&before[allowed]);
                Ok(())
            }
        }
    }
}

/// Bytes that look random, none of them 0.
fn pattern(count: usize) -> Vec<u8> {
    let mut state: u64 = 1;
    let next = || {
        state = state.wrapping_mul(6_364_136_223_846_793_005).wrapping_add(1_442_695_040_888_963_407);
        1 + ((state >> 32) % 255) as u8
    };
    std::iter::repeat_with(next).take(count).collect()
}

#[cfg(test)]
mod tests {
    use super::*;

    const ENTRY: usize = calls::layout::NODE;

    /// Lends to a call that writes whole entries of zeros and says that it wrote so many; then one byte more, if any, is changed.
    fn called(output: &mut Output, entries: usize, written: usize, more: Option<isize>) -> Result<(), String> {
        let length = output.lend(entries, ENTRY).len();
        assert!(length / ENTRY == entries);
        output.wrote(written * ENTRY);
        let start = output.lent.start;
        output.bytes[start..][..written * ENTRY].fill(0);
        if let Some(at) = more {
            output.bytes[start.wrapping_add_signed(at)] ^= 1;
        }
        output.check()
    }

    #[test]
    fn what_is_written_may_change() {
        let mut output = Output::new(5 * ENTRY);
        for turn in 0..1000 {
            let entries = turn % 5;
            assert_eq!(called(&mut output, entries, turn % (entries + 1), None), Ok(()));
        }
        assert!(output.bytes == output.pattern);
    }

    /// Each byte past the count, to the end of what is lent and behind it, and each before it.
    #[test]
    fn another_byte_may_not_change() {
        let end = (4 * ENTRY + BESIDE) as isize;
        for written in [0, 1, 3] {
            let first = (written * ENTRY) as isize;
            for at in (first..end).chain(-(BESIDE as isize)..0) {
                let mut output = Output::new(5 * ENTRY);
                let broken = called(&mut output, 4, written, Some(at)).unwrap_err();
                assert!(broken.starts_with(&format!("byte {at} of the output changed")), "{broken}");
            }
        }
    }

    /// A call that is refused says nothing of what it wrote.
    #[test]
    fn nothing_may_change_in_a_refusal() {
        let mut output = Output::new(ENTRY);
        output.lend(1, ENTRY)[0] ^= 1;
        let message = format!("byte 0 of the output changed; it has {ENTRY} bytes");
        assert!(output.check().unwrap_err().starts_with(&message));
    }

    #[test]
    fn lengths() {
        let mut output = Output::new(4 * ENTRY);
        let lengths: Vec<usize> = (0..3 * ENTRY).map(|_| output.lend(3, ENTRY).len()).collect();
        assert!((3 * ENTRY..4 * ENTRY).all(|length| lengths.contains(&length)));
        assert_eq!(lengths[..2], [3 * ENTRY, 4 * ENTRY - 1]);
    }

    #[test]
    fn no_two_starts_meet_the_same_pattern() {
        let mut output = Output::new(ENTRY);
        let mut met: Vec<Vec<u8>> = (0..STARTS).map(|_| output.lend(1, ENTRY)[..ENTRY].to_vec()).collect();
        met.sort();
        met.dedup();
        assert_eq!(met.len(), STARTS);
        assert!(met.iter().all(|bytes| !bytes.contains(&0)));
    }

    #[test]
    fn changed_places() {
        let before = [1, 2, 3, 4, 5];
        assert_eq!(changed(&before, &before, 0..0), None);
        assert_eq!(changed(&before, &[1, 0, 0, 4, 5], 1..3), None);
        assert_eq!(changed(&before, &[0, 2, 3, 4, 0], 1..3), Some(0));
        assert_eq!(changed(&before, &[1, 0, 3, 4, 0], 1..3), Some(4));
        assert_eq!(changed(&before, &[1, 2, 3, 4, 0], 0..0), Some(4));
    }
}
