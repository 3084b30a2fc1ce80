//! The answers of the writers. A case's input holds all arguments.

use crate::answer::Answer;
use crate::ext::{self, ExtFields, Parameter};
use crate::header;
use crate::mbi;
use crate::readers::u32_at;

/// Input: a number in four bytes.
pub fn integer(input: &[u8]) -> Answer {
    let mut out = Vec::new();
    mbi::write_mbi_u32(u32_at(input, 0), &mut out);
    Answer::written(Ok(()), out)
}

/// Input: width and height, four bytes each.
pub fn plain_header(input: &[u8]) -> Answer {
    let mut out = Vec::new();
    header::write_header(u32_at(input, 0), u32_at(input, 4), &mut out);
    Answer::written(Ok(()), out)
}

/// Input: fields.
pub fn fields(input: &[u8], strict: bool) -> Answer {
    let Fields::Given(fields) = fields_at(input) else {
        return fields_refused(input);
    };
    let write = if strict {
        ext::write_ext_fields_strict
    } else {
        ext::write_ext_fields
    };
    let mut out = Vec::new();
    let result = write(&fields, &mut out);
    Answer::written(result, out)
}

/// Input: width and height, four bytes each, then fields.
pub fn header_with_fields(input: &[u8], strict: bool) -> Answer {
    let (width, height) = (u32_at(input, 0), u32_at(input, 4));
    let given = fields_at(&input[8..]);
    let fields = match &given {
        Fields::Given(fields) => Some(fields),
        Fields::Absent => None,
        _ if width == 0 || height == 0 => None,
        _ => return fields_refused(&input[8..]),
    };
    let mut out = Vec::new();
    let result = header::write_header_ext(width, height, fields, strict, &mut out);
    Answer::written(result, out)
}

/// Fields to write. The last two cannot be said to the Rust: document 01 gives their numbers.
pub(crate) enum Fields {
    Absent,
    Given(ExtFields),
    NoOctet,
    Unequal,
}

pub(crate) fn fields_refused(input: &[u8]) -> Answer {
    match fields_at(input) {
        Fields::NoOctet => Answer::of(&[23]),
        Fields::Unequal => Answer::of(&[31]),
        _ => unreachable!("the Rust answers"),
    }
}

/// The kind (4 for none), how many lengths in two bytes, the lengths, the text.
pub(crate) fn fields_at(input: &[u8]) -> Fields {
    let count = usize::from(input[1]) * 256 + usize::from(input[2]);
    let (lengths, text) = input[3..].split_at(count);
    match (input[0], text.first()) {
        (0, _) => Fields::Given(ExtFields::Bitfield00(text.to_vec())),
        (1, Some(&octet)) => Fields::Given(ExtFields::Reserved01(octet)),
        (2, Some(&octet)) => Fields::Given(ExtFields::Reserved10(octet)),
        (1 | 2, None) => Fields::NoOctet,
        (3, _) => pairs(lengths, text),
        _ => Fields::Absent,
    }
}

fn pairs(lengths: &[u8], text: &[u8]) -> Fields {
    let sum: usize = lengths.iter().map(|&n| usize::from(n)).sum();
    if sum != text.len() {
        return Fields::Unequal;
    }
    let mut rest = text;
    let mut part = |n: u8| {
        let (front, back) = rest.split_at(n.into());
        rest = back;
        front.to_vec()
    };
    let pairs = lengths
        .chunks_exact(2)
        .map(|n| Parameter {
            identifier: part(n[0]),
            value: part(n[1]),
        })
        .collect();
    Fields::Given(ExtFields::ParameterPairs11(pairs))
}
