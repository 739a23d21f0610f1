//! The text of explanations (02, slip 1): an answer's words, the parts of a line, and whether a call answers as it was explained.

use crate::text::PEER_CALLS;

/// The bytes that an output must have, question 6.
pub const ROOM: u64 = 2048;

/// The reasons. No one ends with another.
pub const REASONS: [&str; 9] = [
    "none",
    "table filter",
    "bucket filter",
    "incoming limit",
    "newcomer disconnected",
    "all connected",
    "pending",
    "no such key",
    "local key",
];

/// The words of an answer: the variant's names, outer first, with its key or flag.
pub fn words(answer: &str) -> String {
    let within = |before: &str, after: &str| answer.strip_prefix(before)?.strip_suffix(after);
    if let Some(reason) = within("Failed(", ")") {
        format!("Failed {reason}")
    } else if let Some(key) = within("Pending{disconnected:", "}") {
        format!("Pending {key}")
    } else if let Some((name, flag)) = answer.split_once("{promoted_to_connected:") {
        format!("{name} {}", flag.trim_end_matches('}'))
    } else {
        answer.to_string()
    }
}

/// A line that explains: the answer's words, the reason, and how many keys follow it.
#[derive(Debug, PartialEq, Eq)]
pub struct Parts<'a> {
    pub answer: &'a str,
    pub reason: &'static str,
    pub keys: usize,
}

/// The parts of an explanation; none of a line that is none.
pub fn parts(line: &str) -> Option<Parts<'_>> {
    let is_key =
        |word: &str| word.len() == 64 && word.bytes().all(|b| b.is_ascii_digit() || (b'a'..=b'f').contains(&b));
    let (mut rest, mut keys) = (line, 0);
    while let Some((before, _)) = rest.rsplit_once(' ').filter(|(_, word)| is_key(word)) {
        rest = before;
        keys += 1;
    }
    let of = |reason: &'static str| {
        let answer = rest.strip_suffix(reason)?.strip_suffix(' ')?;
        Some(Parts { answer, reason, keys })
    };
    REASONS.into_iter().find_map(of)
}

/// A line that asks for an explanation: the call's own line, its name, and the bytes of the output where they are given.
pub struct Asked {
    pub call: String,
    pub name: &'static str,
    pub room: Option<u64>,
}

pub fn asked(line: &str) -> Option<Asked> {
    let (short, rest) = line.strip_prefix("! ").map_or(("", line), |rest| ("! ", rest));
    let call = rest.strip_prefix("explain ")?;
    let (call, room) = call.split_once(" out=").map_or((call, None), |(call, room)| (call, room.parse().ok()));
    let named = call.split(' ').next();
    let name = PEER_CALLS.into_iter().find(|name| Some(*name) == named)?;
    Some(Asked { call: format!("{short}{call}"), name, room })
}

fn refused(answer: &str) -> Option<u8> {
    answer.strip_prefix("Refused ")?.parse().ok()
}

/// Whether a call answers as it was explained: as its words say, or refused alike. An output that is too short comes in 6's turn.
pub fn holds(asked: &Asked, explanation: &str, answer: &str) -> bool {
    let short = asked.room.is_some_and(|room| room < ROOM);
    match (refused(explanation), refused(answer)) {
        (Some(6), question) => short && question.is_none_or(|question| question > 6),
        (Some(question), of_call) => Some(question) == of_call && !(short && question > 6),
        (None, None) => !short && parts(explanation).is_some_and(|parts| parts.answer == words(answer)),
        (None, Some(_)) => false,
    }
}

#[cfg(test)]
mod tests {
    use super::*;

    fn key(digit: char) -> String {
        digit.to_string().repeat(64)
    }

    #[test]
    fn words_of_answers() {
        for (answer, expected) in [
            ("Inserted", "Inserted"),
            ("Failed(BucketFull)", "Failed BucketFull"),
            ("StatusUpdated{promoted_to_connected:true}", "StatusUpdated true"),
            ("Updated{promoted_to_connected:false}", "Updated false"),
            ("FailedFilter", "FailedFilter"),
            ("false", "false"),
        ] {
            assert_eq!(words(answer), expected);
        }
        assert_eq!(words(&format!("Pending{{disconnected:{}}}", key('a'))), format!("Pending {}", key('a')));
    }

    #[test]
    fn parts_of_lines() {
        let (a, b) = (key('a'), key('0'));
        for (line, answer, reason, keys) in [
            ("Inserted none".to_string(), "Inserted".to_string(), "none", 0),
            (format!("Pending {a} none"), format!("Pending {a}"), "none", 0),
            (format!("Failed BucketFull pending {a}"), "Failed BucketFull".to_string(), "pending", 1),
            (format!("FailedFilter bucket filter {a} {b}"), "FailedFilter".to_string(), "bucket filter", 2),
            ("false no such key".to_string(), "false".to_string(), "no such key", 0),
        ] {
            assert_eq!(parts(&line), Some(Parts { answer: &answer, reason, keys }));
        }
        for line in ["Inserted", "none", "Inserted  none ", "Inserted none 00", "Inserted None", ""] {
            assert_eq!(parts(line), None, "{line}");
        }
        assert!(parts(&format!("Full pending {}", a.to_uppercase())).is_none());
    }

    #[test]
    fn a_call_answers_as_explained() {
        let with = |room| Asked { call: String::new(), name: "remove", room };
        for (room, explanation, answer, expected) in [
            (None, "true none", "true", true),
            (Some(2048), "true none", "true", true),
            (None, "true none", "false", false),
            (None, "Updated none", "Updated", true),
            (None, "Updated true none", "Updated{promoted_to_connected:true}", true),
            (None, "Updated true none", "Updated", false),
            (None, "Updated none", "Updated{promoted_to_connected:true}", false),
            (None, "Failed TooManyIncoming none", "Failed(TooManyIncoming)", true),
            (None, "true", "true", false),
            (None, "true none", "Refused 8", false),
            (None, "Refused 8", "Refused 8", true),
            (None, "Refused 8", "true", false),
            (None, "Refused 7", "Refused 8", false),
            (None, "Refused 6", "true", false),
            (Some(2047), "Refused 6", "true", true),
            (Some(2047), "Refused 6", "Refused 8", true),
            (Some(2047), "Refused 6", "Refused 5", false),
            (Some(2047), "Refused 5", "Refused 5", true),
            (Some(2047), "Refused 8", "Refused 8", false),
            (Some(2047), "true none", "true", false),
        ] {
            assert_eq!(holds(&with(room), explanation, answer), expected, "{room:?} {explanation} {answer}");
        }
    }

    #[test]
    fn lines_that_ask() {
        let line = asked("! explain remove 5 :4 out=2047").unwrap();
        assert_eq!((&line.call[..], line.name, line.room), ("! remove 5 :4", "remove", Some(2047)));
        let line = asked("explain update_node 5 :4 0:0.0.0.0:1 2").unwrap();
        assert_eq!((&line.call[..], line.name, line.room), ("update_node 5 :4 0:0.0.0.0:1 2", "update_node", None));
        assert!(asked("remove 5 :4").is_none());
    }
}
