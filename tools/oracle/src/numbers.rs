//! From the Rust's messages to the numbers of document 01.

use crate::error::WbmpError;

/// Every message that the readers and writers give, with its number; `*` stands for any text.
const TABLE: &[(&str, u8)] = &[
    (
        "invalid data: MBI starting at byte *: truncated (continuation bit still set)",
        1,
    ),
    (
        "invalid data: MBI starting at byte *: value exceeds u32::MAX",
        2,
    ),
    ("invalid data: MBI starting at byte *: more than 7 bytes", 3),
    (
        "invalid data: MBI starting at byte *: leading octet 0x80 violates the \
         shortest-encoding requirement (§4.3.1)",
        4,
    ),
    (
        "unsupported: WBMP type * (only type 0 / B/W bitmap is supported)",
        5,
    ),
    ("invalid data: WBMP: header truncated at FixedHeader", 6),
    (
        "invalid data: WBMP: FixedHeader byte = 0x*, strict mode requires 0x00",
        7,
    ),
    ("invalid data: WBMP: zero dimension (width=*, height=*)", 8),
    (
        "invalid data: write_header_ext: zero dimension (width=*, height=*)",
        8,
    ),
    (
        "invalid data: WBMP ExtField type 00: truncated bitfield (continuation bit still set)",
        9,
    ),
    (
        "invalid data: WBMP ExtField type 01: truncated (no octet present)",
        9,
    ),
    (
        "invalid data: WBMP ExtField type 10: truncated (no octet present)",
        9,
    ),
    (
        "invalid data: WBMP ExtField type 11: truncated (missing ParameterHeader)",
        9,
    ),
    (
        "invalid data: WBMP ExtField type 00: bitfield exceeds 4096 octets",
        10,
    ),
    (
        "invalid data: WBMP ExtField type 11: pair chain exceeds 4096 octets",
        10,
    ),
    (
        "invalid data: WBMP ExtField type 11: ParameterIdentifier size of 0 \
         (spec requires 1-8 bytes)",
        11,
    ),
    (
        "invalid data: WBMP ExtField type 11: ParameterIdentifier length * not in 1..=7",
        11,
    ),
    (
        "invalid data: WBMP ExtField type 11: ParameterValue size of 0 (spec requires 1-16 bytes)",
        12,
    ),
    (
        "invalid data: WBMP ExtField type 11: ParameterValue length * not in 1..=15",
        12,
    ),
    (
        "invalid data: WBMP ExtField: truncated ParameterIdentifier (need * bytes, * available)",
        13,
    ),
    (
        "invalid data: WBMP ExtField: truncated ParameterValue (need * bytes, * available)",
        13,
    ),
    (
        "invalid data: WBMP ExtField type 11: ParameterIdentifier byte 0x* is not US-ASCII CHAR \
         (%x01-7F) per §4.4.3",
        14,
    ),
    (
        "invalid data: WBMP ExtField type 11: ParameterValue byte 0x* is not ALPHA / DIGIT \
         (A-Za-z0-9) per §4.4.3",
        15,
    ),
    ("limit exceeded: WBMP: width * exceeds max_width *", 16),
    ("limit exceeded: WBMP: height * exceeds max_height *", 17),
    ("limit exceeded: WBMP: * pixels exceed max_pixels *", 18),
    (
        "limit exceeded: WBMP: pixel-data size * exceeds max_bytes *",
        19,
    ),
    (
        "invalid data: WBMP: plane holds * bytes, geometry needs *",
        20,
    ),
    (
        "invalid data: WBMP: pixel data truncated (need * bytes, got *)",
        20,
    ),
    (
        "invalid data: WBMP: at least the main image frame is required",
        21,
    ),
    (
        "invalid data: WBMP: * frames exceeds the §4.5.1 maximum of 16 \
         (main image + 15 animated sub-images)",
        21,
    ),
    (
        "invalid data: WBMP: gray buffer holds * bytes, *×* needs *",
        22,
    ),
    (
        "invalid data: WBMP ExtField type 00: empty bitfield chain has no terminating octet",
        23,
    ),
    ("invalid data: WBMP ExtField type 11: empty pair chain", 23),
    (
        "invalid data: WBMP ExtField type 00: payload octet sets bit 7 (reserved for continuation)",
        24,
    ),
    ("invalid data: WBMP: stride * below packed row size *", 26),
    ("unsupported: WBMP: plane size overflows usize", 27),
];

/// The number of `error`; a message that the table does not know ends the run.
pub fn number_of(error: &WbmpError) -> u8 {
    let message = error.to_string();
    let numbers: Vec<u8> = TABLE
        .iter()
        .filter(|(pattern, _)| fits(pattern, &message))
        .map(|(_, number)| *number)
        .collect();
    match numbers[..] {
        [number] => number,
        _ => panic!("{} numbers for the message: {message}", numbers.len()),
    }
}

/// Whether `message` is `pattern` with some text for each `*`.
fn fits(pattern: &str, message: &str) -> bool {
    match pattern.split_once('*') {
        None => pattern == message,
        Some((front, rest)) => message.strip_prefix(front).is_some_and(|tail| {
            tail.char_indices().any(|(i, _)| fits(rest, &tail[i..])) || fits(rest, "")
        }),
    }
}
