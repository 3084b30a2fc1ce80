//! An answer: what a call may give, as numbers, and the bytes it writes.

use crate::error::WbmpError;
use crate::ext::ExtFields;
use crate::lists::Left;
use crate::numbers::number_of;

#[derive(Clone, PartialEq, Eq)]
pub struct Answer {
    /// The acceptable answers; only a lookup may have more than one. A refusal is its number
    /// and place, an acceptance is 0 and the values given; zeros at the end are left out.
    pub accepted: Vec<Vec<u64>>,
    /// The bytes written; none by a reader or a refusal. Of a list the output lent to the opening.
    pub output: Vec<u8>,
    /// What the stages of a list leave.
    pub stages: Vec<Left>,
    /// The answer of what follows, where a case is of several parts.
    pub then: Option<Box<Answer>>,
}

impl Answer {
    pub fn of(numbers: &[u64]) -> Answer {
        Answer::any_of(&[numbers.to_vec()])
    }

    pub fn any_of(answers: &[Vec<u64>]) -> Answer {
        let accepted = answers.iter().map(|a| trimmed(a)).collect();
        Answer {
            accepted,
            output: Vec::new(),
            stages: Vec::new(),
            then: None,
        }
    }

    pub fn refused(error: &WbmpError, place: usize) -> Answer {
        Answer::of(&[number_of(error).into(), place as u64])
    }

    /// How many calls a list has, the opening included.
    pub fn list_calls(&self) -> usize {
        1 + self
            .stages
            .iter()
            .map(|left| left.answers.len())
            .sum::<usize>()
    }

    /// How many calls the lists behind it have; what is told behind them has no stages.
    pub fn later_calls(&self) -> usize {
        let list = |then: &&Box<Answer>| !then.stages.is_empty();
        let later = self.then.as_ref().filter(list);
        later.map_or(0, |then| then.list_calls() + then.later_calls())
    }

    /// What a writer does: the bytes written, or a refusal, whose place is 0.
    pub fn written(result: Result<(), WbmpError>, output: Vec<u8>) -> Answer {
        match result {
            Ok(()) => Answer {
                output: output.clone(),
                ..Answer::of(&[0, output.len() as u64])
            },
            Err(error) => Answer::refused(&error, 0),
        }
    }
}

/// Without the zeros at the end.
pub(crate) fn trimmed(numbers: &[u64]) -> Vec<u64> {
    let used = numbers
        .iter()
        .rposition(|&n| n != 0)
        .map_or(0, |last| last + 1);
    numbers[..used].to_vec()
}

/// The kind, where the fields start, their length and the number of pairs. The region says all
/// that the Rust parsed: written again, it gives the same bytes.
pub fn fields_numbers(fields: &ExtFields, bytes: &[u8], start: usize, end: usize) -> [u64; 4] {
    let mut again = Vec::new();
    crate::ext::write_ext_fields(fields, &mut again).expect("parsed fields can be written");
    assert_eq!(again, bytes[start..end], "parsed fields are the region");
    let (kind, pairs) = match fields {
        ExtFields::Bitfield00(_) => (0, 0),
        ExtFields::Reserved01(_) => (1, 0),
        ExtFields::Reserved10(_) => (2, 0),
        ExtFields::ParameterPairs11(pairs) => (3, pairs.len()),
    };
    [1 + kind, start as u64, (end - start) as u64, pairs as u64]
}
