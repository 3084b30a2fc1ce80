//! Cases for the writers of fields and headers.

use crate::cases::{Group, Operation, Sweep, strings};

pub fn groups() -> Vec<Group> {
    let fields = |strict| Operation::WriteFields { strict };
    let header = |strict| Operation::WriteHeaderExt { strict };
    vec![
        Group {
            name: "write_ext_fields",
            operation: fields(false),
            sweeps: field_sweeps(),
        },
        Group {
            name: "write_ext_fields_strict",
            operation: fields(true),
            sweeps: field_sweeps(),
        },
        Group {
            name: "write_header",
            operation: Operation::WriteHeader,
            sweeps: plain(),
        },
        Group {
            name: "write_header_ext",
            operation: header(false),
            sweeps: with_fields(),
        },
        Group {
            name: "write_header_ext strict",
            operation: header(true),
            sweeps: with_fields(),
        },
    ]
}

/// Octets of each kind, pairs of all lengths, classes, several pairs, long fields.
fn field_sweeps() -> Vec<Sweep> {
    [octet_sweeps(), pair_sweeps(), chain_sweeps()].concat()
}

fn octet_sweeps() -> Vec<Sweep> {
    let letters = [0x00, 0x01, 0x7F, 0x80];
    let mut sweeps = strings(&[0, 0, 0], 4, &letters);
    for kind in [1, 2] {
        sweeps.extend(strings(&[kind, 0, 0], 2, &letters));
        sweeps.push(Sweep::byte(&[kind, 0, 0, 0], 3));
    }
    for octets in (4094..=4098).chain([5000]) {
        let text = vec![0x55; octets];
        sweeps.push(Sweep::one([&[0, 0, 0], &text[..]].concat()));
        sweeps.push(Sweep::one([&[0, 0, 0], &text[..], &[0x80]].concat()));
    }
    sweeps
}

/// Pairs with identifiers of up to 8 bytes and values of up to 16, and every byte in each
/// class's place.
fn pair_sweeps() -> Vec<Sweep> {
    let mut sweeps = Vec::new();
    for name in 0..=8 {
        for value in 0..=16 {
            let case = |n: u8, v: u8| pairs(&[(&vec![n; name], &vec![v; value])]);
            sweeps.extend([case(b'n', b'v'), case(0, b'v'), case(b'n', 0x80)].map(Sweep::one));
        }
    }
    let two = pairs(&[(b"k", b"v"), (b"key", b"12")]);
    sweeps.extend((7..two.len()).map(|at| Sweep::byte(&two, at)));
    sweeps
}

/// No pairs, good and bad ones after each other, lengths that do not add up, long chains.
fn chain_sweeps() -> Vec<Sweep> {
    let choice: [(&[u8], &[u8]); 6] = [
        (b"k", b"v"),
        (b"", b"v"),
        (b"k", b""),
        (b"\x80", b"v"),
        (b"\x80", b""),
        (b"k", b"-"),
    ];
    let mut sweeps = vec![Sweep::one(pairs(&[]))];
    for first in choice {
        for second in choice {
            sweeps.push(Sweep::one(pairs(&[first, second])));
            sweeps.push(Sweep::one(pairs(&[first, second, choice[0]])));
        }
    }
    let lengths = [3, 0, 4, 1, 1, 2, 1];
    sweeps.push(Sweep::byte(&[&lengths[..], b"abcde"].concat(), 3));
    sweeps.push(Sweep::byte(&[&lengths[..], b"abcde"].concat(), 6));
    sweeps.extend(strings(&[3, 0, 0], 1, b"a"));
    for count in 1364..=1368 {
        sweeps.push(Sweep::one(repeated(b"k", b"v", count)));
    }
    for count in 177..=180 {
        sweeps.push(Sweep::one(repeated(b"keyword", b"15letters123456", count)));
    }
    sweeps
}

/// Kind 11, how many lengths, the lengths, the text.
pub fn pairs(pairs: &[(&[u8], &[u8])]) -> Vec<u8> {
    let parts: Vec<&[u8]> = pairs
        .iter()
        .flat_map(|&(name, value)| [name, value])
        .collect();
    let lengths: Vec<u8> = parts.iter().map(|part| part.len() as u8).collect();
    let count = [(lengths.len() / 256) as u8, (lengths.len() % 256) as u8];
    [&[3], &count[..], &lengths, &parts.concat()].concat()
}

fn repeated(name: &[u8], value: &[u8], count: usize) -> Vec<u8> {
    pairs(&vec![(name, value); count])
}

/// Widths and heights around each change of length, 0 among them.
fn plain() -> Vec<Sweep> {
    let few = [0x00, 0x01, 0x7F, 0x80, 0xFF];
    vec![
        Sweep::between(&[0, 0, 0, 9], 4, &few, &[]),
        Sweep::between(&[], 4, &few, &[0, 0, 0, 2]),
        Sweep::byte(&[0, 0, 0, 0, 0, 0, 0, 0], 3),
        Sweep::byte(&[0, 0, 0, 0, 0xFF, 0xFF, 0xFF, 0xFF], 3),
    ]
}

/// No fields, good and bad fields of each kind, with sizes of which some are 0.
fn with_fields() -> Vec<Sweep> {
    let mut fields: Vec<Vec<u8>> = vec![
        vec![4, 0, 0],
        vec![0, 0, 0],
        vec![0, 0, 0, 0x01, 0x7F],
        vec![0, 0, 0, 0x01, 0x80],
        vec![1, 0, 0],
        vec![1, 0, 0, 0x91, 0x02],
        vec![2, 0, 0, 0x12],
        vec![3, 0, 2, 1, 1, b'k'],
    ];
    let bad: [(&[u8], &[u8]); 5] = [
        (b"", b"v"),
        (b"k", b""),
        (b"\x80", b"v"),
        (b"k", b"-"),
        (b"k", b"v"),
    ];
    fields.push(pairs(&[]));
    fields.extend(bad.iter().map(|&pair| pairs(&[(b"key", b"12"), pair])));
    fields.push(repeated(b"k", b"v", 1367));
    let sizes = |fields: &Vec<u8>| {
        let sweep = |w: &[u8], h: &[u8]| {
            let base = [w, h, fields].concat();
            Sweep::over(base, 6, 2, vec![0x00, 0x01, 0x80])
        };
        [
            sweep(&[0, 0, 0, 9], &[0; 4]),
            sweep(&[0; 4], &[0; 4]),
            sweep(&[0xFF; 4], &[0x10, 0, 0, 0]),
        ]
    };
    fields.iter().flat_map(sizes).collect()
}
