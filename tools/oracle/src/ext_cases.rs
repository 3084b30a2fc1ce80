//! Cases for extension fields, pairs and lookup.

use crate::cases::{Group, Operation, Sweep, cuts, damaged, strings};

/// Octets of kind 00: values 0, 1 and the largest, with and without bit 7.
const OCTETS: &[u8] = &[0x00, 0x01, 0x7F, 0x80, 0xFF];
/// Pair headers, short, continued and with a length of 0, a letter, bytes outside the classes.
const PAIRS: &[u8] = &[0x11, 0x91, 0x12, 0xA1, 0x10, 0x01, 0x61, 0x80];
/// The ceiling on where an octet or a pair may start.
const CEILING: usize = 4096;

pub fn groups() -> Vec<Group> {
    let reads = |strict| Operation::Fields { strict };
    let (lenient, strict) = (reads(false), reads(true));
    vec![
        Group {
            name: "from_byte",
            operation: Operation::FromByte,
            sweeps: vec![Sweep::byte(&[0], 0)],
        },
        Group {
            name: "parse_ext_fields short",
            operation: lenient,
            sweeps: short(),
        },
        Group {
            name: "parse_ext_fields_strict short",
            operation: strict,
            sweeps: short(),
        },
        Group {
            name: "parse_ext_fields long",
            operation: lenient,
            sweeps: long(),
        },
        Group {
            name: "parse_ext_fields_strict long",
            operation: strict,
            sweeps: long(),
        },
        Group {
            name: "parse_ext_fields damaged",
            operation: lenient,
            sweeps: spoilt(),
        },
        Group {
            name: "parse_ext_fields_strict damaged",
            operation: strict,
            sweeps: spoilt(),
        },
        Group {
            name: "lookup",
            operation: Operation::Lookup,
            sweeps: lookups(),
        },
        Group {
            name: "validate",
            operation: Operation::Validate,
            sweeps: parameters(),
        },
    ]
}

/// Every FixHeader with up to one byte, every string of a few letters, every pair header with up
/// to 23 letters.
fn short() -> Vec<Sweep> {
    let mut sweeps = strings(&[0, 1], 2, &[]);
    sweeps.push(Sweep::byte(&[0, 1, 0, 0x11, 0x61, 0x62], 2));
    sweeps.extend(strings(&[0, 1, 0x80], 5, OCTETS));
    sweeps.extend(strings(&[0, 1, 0xBF], 2, OCTETS));
    sweeps.extend(strings(&[0, 1, 0xC0], 2, OCTETS));
    sweeps.extend(strings(&[0, 1, 0xE0], 5, PAIRS));
    for start in 0..=4 {
        for fix in [0x80, 0xA0, 0xDF, 0xFF, 0x7F] {
            sweeps.extend(strings(&[0, start, fix], 2, PAIRS));
        }
    }
    let letters = vec![b'a'; 23];
    sweeps
        .extend((0..=23).map(|len| Sweep::byte(&[&[0, 1, 0xE0, 0], &letters[..len]].concat(), 3)));
    sweeps
}

/// Octets and pairs around the ceiling, each end of each kind, from the front and from behind
/// 1,000 bytes.
fn long() -> Vec<Sweep> {
    let mut sweeps = Vec::new();
    for skipped in [1, 1000] {
        let front = |fix: u8| {
            let start = [(skipped / 256) as u8, (skipped % 256) as u8];
            [&start[..], &vec![fix; skipped]].concat()
        };
        for octets in CEILING - 3..=CEILING + 2 {
            sweeps.extend(strings(
                &[front(0x80), vec![0xD5; octets]].concat(),
                2,
                &[0x00, 0xFF],
            ));
        }
        for start in CEILING - 6..=CEILING + 2 {
            let chain = [front(0xE0), chain_to(start)].concat();
            sweeps.push(Sweep::byte(&[&chain[..], b"\0kv"].concat(), chain.len()));
            sweeps.extend(cuts(&chain, b"\x7Fkeyword15letters12345Z"));
        }
        let many = |pairs: usize| [front(0xE0), [0x91, b'k', b'v'].repeat(pairs)].concat();
        for pairs in 1363..=1367 {
            sweeps.extend(cuts(&many(pairs), b"\x11kv\x11"));
        }
    }
    sweeps
}

/// Pairs, all continued, whose next one starts `start` bytes after the first.
pub fn chain_to(start: usize) -> Vec<u8> {
    let pair = |value: usize| [&[0x90 | value as u8, b'k'][..], &vec![b'v'; value]].concat();
    let longer = start % 3;
    let threes = pair(1).repeat(start / 3 - 1);
    [threes, pair(1 + longer)].concat()
}

/// Damaged copies of pairs of several lengths and of octets.
fn spoilt() -> Vec<Sweep> {
    let pairs = b"\xE0\xA1xyA\x93n123\x11q7";
    let octets = [0x80, 0x81, 0xC0, 0x05];
    let longest = b"\xE0\x7F\x01\x7Fabcdefgh0123456789AZaz";
    let classes =
        (4..longest.len() + 2).map(|at| Sweep::byte(&[b"\0\x01", &longest[..]].concat(), at));
    damaged(&[0, 1], pairs)
        .into_iter()
        .chain(damaged(&[0, 1], &octets))
        .chain(classes)
        .collect()
}

/// Identifiers of every length in short chains, chains in which several pairs carry one, fields
/// that are refused or have no pairs, and long chains.
fn lookups() -> Vec<Sweep> {
    let mut sweeps = Vec::new();
    for identifier in [&b""[..], b"a", b"b", b"aa", b"ab", b"aaaaaaa", b"aaaaaaaa"] {
        let front = [&[identifier.len() as u8], identifier, &[0, 1, 0xE0]].concat();
        sweeps.extend(strings(&front, 3, &[0x11, 0x91, 0x21, 0x10, b'a', b'b']));
        let pairs = b"\x91ba\x91a1\xA1aab\xA2abaa\x91a2\xF1aaaaaaab\x11a3";
        sweeps.extend(cuts(&front, pairs));
        sweeps.push(Sweep::between(
            &front,
            6,
            &[0x91, 0x21, b'a', b'b'],
            b"\x11ab",
        ));
        for fix in [0x00, 0x80, 0xA0, 0xC0, 0x60, 0xFF] {
            let other = [&front[..front.len() - 1], &[fix]].concat();
            sweeps.extend(strings(&other, 2, &[0x11, 0x80, b'a']));
        }
    }
    for identifier in [b'y', b'z'] {
        for start in [CEILING - 4, CEILING - 1, CEILING] {
            let front = [vec![1, identifier, 0, 1, 0xE0], chain_to(start)].concat();
            sweeps.extend(cuts(&front, b"\x1Fz15letters123456"));
        }
    }
    sweeps
}

/// Identifiers of up to 9 bytes with values of up to 17, and every byte in each class's place.
fn parameters() -> Vec<Sweep> {
    let case = |name: &[u8], value: &[u8]| [&[name.len() as u8], name, value].concat();
    let mut sweeps = Vec::new();
    for name in 0..=9 {
        for value in 0..=17 {
            let (names, values) = (vec![b'n'; name], vec![b'v'; value]);
            sweeps.push(Sweep::one(case(&names, &values)));
            sweeps.push(Sweep::one(case(&vec![0x80; name], &values)));
            sweeps.push(Sweep::one(case(&names, &vec![b'-'; value])));
            sweeps.push(Sweep::one(case(&vec![0; name], &vec![0x7F; value])));
        }
    }
    let good = case(b"name", b"value");
    sweeps.extend((1..good.len()).map(|at| Sweep::byte(&good, at)));
    sweeps
}
