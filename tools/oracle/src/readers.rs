//! The answers of the readers, the checks and the lookup. A case's input holds all arguments.

use crate::answer::{Answer, fields_numbers};
use crate::error::Result;
use crate::ext::{self, ExtFieldType, ExtFields, FixHeaderField, Parameter};
use crate::mbi;

/// Input: the offset in two bytes, then the bytes to read.
pub fn integer(input: &[u8], strict: bool) -> Answer {
    let read = if strict {
        mbi::read_mbi_u32_strict
    } else {
        mbi::read_mbi_u32
    };
    let (mut offset, bytes) = offset_first(input);
    match read(bytes, &mut offset) {
        Ok(value) => Answer::of(&[0, offset as u64, value.into()]),
        Err(error) => Answer::refused(&error, offset),
    }
}

/// Input: the offset in two bytes, then the bytes, of which the first is the FixHeader too.
pub fn fields(input: &[u8], strict: bool) -> Answer {
    let (start, bytes) = offset_first(input);
    match parsed(start, bytes, strict) {
        (Ok(None), _) => Answer::of(&[]),
        (Ok(Some(fields)), end) => {
            let [kind, start, len, pairs] = fields_numbers(&fields, bytes, start, end);
            Answer::of(&[0, 0, kind, start, len, pairs])
        }
        (Err(error), end) => Answer::refused(&error, end),
    }
}

/// Input: an identifier behind its length, then as for `fields`. The Rust has no lookup: any
/// pair that the Rust parsed and that carries the identifier gives an acceptable answer.
pub fn lookup(input: &[u8]) -> Answer {
    let (identifier, rest) = text_first(input);
    let (start, bytes) = offset_first(rest);
    match parsed(start, bytes, false) {
        (Err(error), end) => Answer::refused(&error, end),
        (Ok(Some(ExtFields::ParameterPairs11(pairs))), _) => {
            match &values(&pairs, identifier, start)[..] {
                [] => Answer::of(&[]),
                found => Answer::any_of(found),
            }
        }
        (Ok(_), _) => Answer::of(&[]),
    }
}

/// Where the values of the pairs that carry `identifier` start, and their lengths.
fn values(pairs: &[Parameter], identifier: &[u8], start: usize) -> Vec<Vec<u64>> {
    let mut at = start;
    let mut found = Vec::new();
    for pair in pairs {
        let value = at + 1 + pair.identifier.len();
        at = value + pair.value.len();
        if pair.identifier == identifier {
            found.push(vec![0, 0, 1, value as u64, pair.value.len() as u64]);
        }
    }
    found
}

/// Input: an identifier behind its length, then the value.
pub fn validate(input: &[u8]) -> Answer {
    let (identifier, value) = text_first(input);
    let made = Parameter::new(identifier, value).map(|_| ());
    let pair = Parameter {
        identifier: identifier.to_vec(),
        value: value.to_vec(),
    };
    let told = |r: &Result<()>| r.as_ref().map_err(|e| e.to_string()).copied();
    assert_eq!(
        told(&made),
        told(&pair.validate()),
        "new and validate agree"
    );
    match made {
        Ok(()) => Answer::of(&[]),
        Err(error) => Answer::refused(&error, 0),
    }
}

/// Input: the byte.
pub fn from_byte(input: &[u8]) -> Answer {
    let fix = FixHeaderField::from_byte(input.first().copied().unwrap_or(0));
    let kind = match fix.ext_type {
        ExtFieldType::Bitfield00 => 1,
        ExtFieldType::Reserved01 => 2,
        ExtFieldType::Reserved10 => 3,
        ExtFieldType::ParameterPairs11 => 4,
    };
    Answer::of(&[0, fix.raw.into(), fix.ext_fields_follow.into(), kind])
}

/// Input: a number in four bytes.
pub fn integer_len(input: &[u8]) -> Answer {
    Answer::of(&[0, mbi::mbi_u32_len(u32_at(input, 0)) as u64])
}

/// The outcome, and the offset that the Rust leaves.
fn parsed(start: usize, bytes: &[u8], strict: bool) -> (Result<Option<ExtFields>>, usize) {
    let parse = if strict {
        ext::parse_ext_fields_strict
    } else {
        ext::parse_ext_fields
    };
    let fix = FixHeaderField::from_byte(bytes.first().copied().unwrap_or(0));
    let mut offset = start;
    let outcome = parse(fix, bytes, &mut offset);
    (outcome, offset)
}

fn offset_first(input: &[u8]) -> (usize, &[u8]) {
    (
        usize::from(input[0]) * 256 + usize::from(input[1]),
        &input[2..],
    )
}

/// The text behind its length, as far as there is one, and the rest.
fn text_first(input: &[u8]) -> (&[u8], &[u8]) {
    let rest = &input[1..];
    rest.split_at(usize::from(input[0]).min(rest.len()))
}

pub fn u32_at(input: &[u8], at: usize) -> u32 {
    u32::from_be_bytes(input[at..at + 4].try_into().expect("four bytes"))
}
