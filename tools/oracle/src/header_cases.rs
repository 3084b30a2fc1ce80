//! Cases for headers.

use crate::cases::{Group, Operation, Sweep, cuts, damaged, strings};
use crate::ext_cases::chain_to;

/// Bytes at which a header is decided: sizes, types and FixHeaders of each kind.
const LETTERS: &[u8] = &[0x00, 0x01, 0x7F, 0x80, 0x81, 0xA0];

pub fn groups() -> Vec<Group> {
    let group = |name, ext, strict, sweeps| Group {
        name,
        operation: Operation::Header { ext, strict },
        sweeps,
    };
    vec![
        group("parse_header_inner short", false, false, short()),
        group("parse_header_inner strict short", false, true, short()),
        group("parse_header_ext_inner short", true, false, short()),
        group("parse_header_ext_inner strict short", true, true, short()),
        group("parse_header_inner long", false, false, long()),
        group("parse_header_inner strict long", false, true, long()),
        group("parse_header_ext_inner long", true, false, long()),
        group("parse_header_ext_inner strict long", true, true, long()),
        group("parse_header_inner damaged", false, false, spoilt()),
        group("parse_header_inner strict damaged", false, true, spoilt()),
        group("parse_header_ext_inner damaged", true, false, spoilt()),
        group(
            "parse_header_ext_inner strict damaged",
            true,
            true,
            spoilt(),
        ),
    ]
}

/// Every input of up to 2 bytes and of type 0 of up to 3, every string of up to 5 letters, every
/// FixHeader before good sizes, pairs of a few letters.
fn short() -> Vec<Sweep> {
    let mut sweeps = strings(&[], 2, &[]);
    sweeps.push(Sweep::between(&[0], 2, &[], &[]));
    sweeps.extend(strings(&[], 5, LETTERS));
    for rest in [
        &b""[..],
        b"\x09",
        b"\x09\x02",
        b"\x11kv\x09\x02",
        b"\x80\x09\x02",
    ] {
        sweeps.push(Sweep::byte(&[&[0, 0], rest].concat(), 1));
    }
    for digits in 0..=4 {
        let letters = [0x11, 0x91, 0x10, b'k', 0x80];
        sweeps.push(Sweep::between(&[0, 0xE0], digits, &letters, &[]));
        sweeps.push(Sweep::between(&[0, 0xE0], digits, &letters, &[9, 2]));
    }
    sweeps
}

/// Types, widths and heights of up to 9 bytes and around the largest; fields at the ceiling.
fn long() -> Vec<Sweep> {
    let mut sweeps = Vec::new();
    for zeros in 3..=8 {
        let zeros = vec![0x80; zeros];
        let letters = [0x00, 0x05, 0x80, 0x8F, 0xFF];
        sweeps.push(Sweep::between(&zeros, 1, &letters, &[0, 9, 2]));
        sweeps.push(Sweep::between(
            &[&[0, 0], &zeros[..]].concat(),
            2,
            &letters,
            &[2],
        ));
        sweeps.push(Sweep::between(
            &[&[0, 0, 9], &zeros[..]].concat(),
            2,
            &letters,
            &[],
        ));
    }
    for tail in [
        [0x8F, 0xFF, 0xFF, 0xFF, 0x7F],
        [0x90, 0x80, 0x80, 0x80, 0x00],
    ] {
        sweeps.extend(cuts(&[], &[&[0, 0], &tail[..], &tail].concat()));
        sweeps.extend(cuts(&[0, 0, 9], &tail));
        sweeps.extend(cuts(&[], &[&tail[..], &[0, 9, 2]].concat()));
    }
    for octets in 4094..=4097 {
        let front = [vec![0, 0x80], vec![0xD5; octets]].concat();
        sweeps.extend(cuts(&front, b"\x05\x09\x82\x02"));
    }
    for start in 4093..=4097 {
        let front = [vec![0, 0xE0], chain_to(start)].concat();
        sweeps.extend(cuts(&front, b"\x7Fkeyword15letters12345Z\x09\x02"));
        sweeps.extend(cuts(&front, b"\x11kv\x09\x00"));
    }
    sweeps
}

/// Damaged copies of headers with no fields, octets, one octet and pairs.
fn spoilt() -> Vec<Sweep> {
    let headers: [&[u8]; 4] = [
        b"\x00\x00\x81\x20\x02",
        b"\x00\x80\x85\x03\x09\x02",
        b"\x00\xA0\x11\x09\x02",
        b"\x00\xE0\x91k1\x12n12\x09\x02",
    ];
    headers
        .iter()
        .flat_map(|header| damaged(&[], header))
        .collect()
}
