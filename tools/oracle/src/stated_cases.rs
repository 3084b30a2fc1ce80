//! Cases that document 01 tells in words, the examples of WAP that the Rust's comments have, and the
//! corners between them, each with the answer that is stated: the generator ends if the unchanged Rust answers otherwise.

use crate::cases::{Group, Operation, Sweep};
use crate::encoder_cases::{ABSENT, Front};
use crate::ext_cases::chain_to;
use crate::file_cases::mode;

/// An input, the numbers of its answer without zeros at the end, and the bytes written.
type Stated = (Vec<u8>, Vec<u64>, Vec<u8>);

pub fn groups() -> Vec<Group> {
    let integer = |strict| Operation::Integer { strict };
    let fields = |strict| Operation::Fields { strict };
    let write_fields = |strict| Operation::WriteFields { strict };
    let headers = |ext, strict| Operation::Header { ext, strict };
    vec![
        group("stated read_mbi_u32", integer(false), integers()),
        group("stated read_mbi_u32_strict", integer(true), shortest()),
        group("stated write_mbi_u32", Operation::WriteInteger, written()),
        group("stated parse_ext_fields", fields(false), lenient()),
        group("stated parse_ext_fields_strict", fields(true), strict()),
        group("stated write_ext_fields", write_fields(false), lent()),
        group(
            "stated parse_header_inner strict",
            headers(false, true),
            plain(),
        ),
        group(
            "stated parse_header_ext_inner",
            headers(true, false),
            any_fix(),
        ),
        group("stated write_header", Operation::WriteHeader, zero_sizes()),
        group("stated is_white", Operation::IsWhite, dots()),
        group("stated decode_frames", Operation::DecodeFrames, frames()),
        group("stated info", Operation::Info, told()),
        group("stated sniff", Operation::Sniff, sniffed()),
        group("stated encode_images", Operation::EncodeImages, files()),
        group("stated encode_gray8", Operation::EncodeGray, made()),
    ]
}

fn front(input: &[u8]) -> &[u8] {
    &input[..input.len().min(32)]
}

fn group(name: &'static str, operation: Operation, cases: Vec<Stated>) -> Group {
    let sweep = |(input, numbers, output): Stated| {
        let answer = operation.answer(&input);
        assert_eq!(answer.accepted, [numbers], "{name} {:02X?}", front(&input));
        assert_eq!(answer.output, output, "{name} {:02X?}", front(&input));
        Sweep::one(input)
    };
    Group {
        name,
        operation,
        sweeps: cases.into_iter().map(sweep).collect(),
    }
}

/// A reader's case.
fn reads(input: &[u8], numbers: &[u64]) -> Stated {
    (input.to_vec(), numbers.to_vec(), Vec::new())
}

/// A writer's case that is accepted.
fn writes(input: &[u8], output: &[u8]) -> Stated {
    (
        input.to_vec(),
        vec![0, output.len() as u64],
        output.to_vec(),
    )
}

/// The worked example in the Rust's comments: 0xA0 is 81 20. An 8th byte that passes 32 bits is 2, else 3; a
/// start past the end is 1 there.
fn integers() -> Vec<Stated> {
    vec![
        reads(b"\0\0\x81\x20", &[0, 2, 0xA0]),
        reads(b"\0\0\x60", &[0, 1, 0x60]),
        reads(b"\0\0\x80\x80\x8F\xFF\xFF\xFF\xFF\x7F", &[2, 8]),
        reads(b"\0\0\x80\x80\x80\x80\x80\x80\x80\x80", &[3, 8]),
        reads(b"\0\x05\x01\x01", &[1, 5]),
        reads(b"\0\0", &[1]),
    ]
}

fn shortest() -> Vec<Stated> {
    vec![
        reads(b"\0\0\x80", &[4]),
        reads(b"\0\0\x81\x20", &[0, 2, 0xA0]),
        reads(b"\0\0\x90\x80\x80\x80\x80", &[2, 5]),
        reads(b"\0\0\x81", &[1, 1]),
    ]
}

fn written() -> Vec<Stated> {
    vec![
        writes(&[0, 0, 0, 0xA0], &[0x81, 0x20]),
        writes(&[0, 0, 0, 0x60], &[0x60]),
    ]
}

/// WAP table 4-4: 110 is an identifier of 6 bytes. 4,096 continued octets are 9, one more 10; a
/// pair may start at 4,095; 1,366 pairs and 4,118 bytes are the most; a cut part's start is told.
fn lenient() -> Vec<Stated> {
    let octets = |n: usize| [vec![0, 1, 0x80], vec![0x80; n]].concat();
    let pairs = |n: usize| [&b"\0\x01\xE0"[..], &b"\x91kv".repeat(n), b"\x11kv"].concat();
    let last = |at: usize, pair: &[u8]| [&b"\0\x01\xE0"[..], &chain_to(at), pair].concat();
    let longest = b"\x7Fkeyword15letters1234567";
    vec![
        reads(b"\0\x01\xE0\x61sixletv", &[0, 0, 4, 1, 8, 1]),
        reads(b"\0\x01\xE0", &[9, 1]),
        reads(b"\0\x01\xA0", &[9, 1]),
        reads(b"\0\x01\xE0\x01", &[11, 2]),
        reads(b"\0\x01\xE0\x10", &[12, 2]),
        reads(b"\0\x01\xE0\x21k", &[13, 2]),
        reads(b"\0\x01\xE0\x12k1", &[13, 3]),
        reads(&octets(4096), &[9, 4097]),
        reads(&octets(4097), &[10, 4097]),
        reads(&pairs(1365), &[0, 0, 4, 1, 4098, 1366]),
        reads(&pairs(1366), &[10, 4099]),
        reads(&last(4095, &longest[..23]), &[0, 0, 4, 1, 4118, 1366]),
        reads(&last(4096, b"\x11kv"), &[10, 4097]),
    ]
}

/// The classes are tested once the whole pair is read.
fn strict() -> Vec<Stated> {
    vec![
        reads(b"\0\x01\xE0\x11\x80v", &[14, 4]),
        reads(b"\0\x01\xE0\x11k-", &[15, 4]),
        reads(b"\0\x01\xE0\x12\x80v", &[13, 3]),
    ]
}

/// One octet of kinds 01 and 10 is written, none is 23; bit 7 is 24 in kind 00; lengths that do
/// not add up are 31; an overlong field is written.
fn lent() -> Vec<Stated> {
    let overlong = vec![0x05; 4097];
    let continued = [vec![0x85; 4096], vec![0x05]].concat();
    vec![
        writes(&[1, 0, 0, 0x91, 0x02], &[0x91]),
        reads(&[2, 0, 0], &[23]),
        reads(&[0, 0, 0], &[23]),
        reads(&[3, 0, 0], &[23]),
        reads(&[3, 0, 0, b'k'], &[31]),
        reads(&[3, 0, 2, 1, 1, b'k'], &[31]),
        reads(&[0, 0, 0, 0x01, 0x80], &[24]),
        writes(&[&[0, 0, 0], &overlong[..]].concat(), &continued),
    ]
}

fn plain() -> Vec<Stated> {
    vec![
        reads(b"\x05", &[5, 1]),
        reads(b"\x00", &[6, 1]),
        reads(b"\x80", &[4]),
        reads(b"\x00\x01", &[7, 1]),
        reads(b"\x00\x00\x00", &[1, 3]),
        reads(b"\x00\x00\x00\x01", &[8, 4]),
        reads(b"\x00\x00\x01\x00", &[8, 4]),
    ]
}

/// Without bit 7 every FixHeader is accepted.
fn any_fix() -> Vec<Stated> {
    let fix = |fix: u8| reads(&[0, fix, 9, 2], &[0, 4, 9, 2, fix.into()]);
    [0x01, 0x60, 0x7F].map(fix).to_vec()
}

fn zero_sizes() -> Vec<Stated> {
    vec![
        writes(&[0; 8], &[0, 0, 0, 0]),
        writes(&[0, 0, 0, 9, 0, 0, 0, 2], &[0, 0, 9, 2]),
    ]
}

/// No dot is white outside the image; a missing byte is 0, which MonoWhite shows as white.
fn dots() -> Vec<Stated> {
    let dot =
        |format: u8, y: u8, x: u8, plane: &[u8]| [&[format, y, x, 9, 2, 0, 2], plane].concat();
    vec![
        reads(&dot(0, 0, 0, &[0x80]), &[0, 0, 1]),
        reads(&dot(1, 0, 0, &[0x80]), &[]),
        reads(&dot(0, 0, 9, &[0xFF; 4]), &[]),
        reads(&dot(1, 2, 0, &[0x00; 4]), &[]),
        reads(&dot(0, 1, 0, &[0xFF]), &[]),
        reads(&dot(1, 1, 0, &[0xFF]), &[0, 0, 1]),
    ]
}

/// MonoBlack keeps dirty padding and MonoWhite clears it; at most 16 frames; the rest is ignored.
fn frames() -> Vec<Stated> {
    let file = |format: u8, strict: u8, file: &[u8]| [&mode(format, strict), file].concat();
    let shown = |input: Vec<u8>, frames: u64, output: Vec<u8>| {
        let bytes = output.len() as u64;
        (input, vec![0, bytes, 9, 1, frames, 4], output)
    };
    let planes = |n: usize| [&b"\x00\x00\x09\x01"[..], &b"\xFF\x81".repeat(n)].concat();
    vec![
        shown(file(0, 1, &planes(1)), 1, b"\xFF\x81".to_vec()),
        shown(file(1, 1, &planes(1)), 1, b"\x00\x00".to_vec()),
        shown(file(0, 0, &planes(16)), 16, b"\xFF\x81".repeat(16)),
        shown(file(0, 0, &planes(17)), 16, b"\xFF\x81".repeat(16)),
        shown(file(0, 0, &planes(3)[..9]), 2, b"\xFF\x81".repeat(2)),
        reads(&file(0, 0, &planes(1)[..5]), &[20, 4]),
        reads(&file(0, 1, b"\x00\x01\x09\x01\xFF\x80"), &[7, 1]),
        reads(&file(0, 0, b"\x00\x00\x00\x01"), &[8, 4]),
    ]
}

/// A card that whole reading refuses with 7 or 20 has info; a short body is 1 frame.
fn told() -> Vec<Stated> {
    vec![
        reads(b"\x00\x00\x09\x02\xFF\x80\x00\x00", &[0, 4, 9, 2, 1]),
        reads(b"\x00\x01\x09\x02", &[0, 4, 9, 2, 1, 1]),
        reads(
            &[b"\x00\x00\x01\x01", &[0; 17][..]].concat(),
            &[0, 4, 1, 1, 16],
        ),
        reads(b"\x05", &[5, 1]),
    ]
}

/// Exact is 1 and truncated 2. Dirty padding counts in every whole row, past the 16th frame too; a
/// begun row is unchecked.
fn sniffed() -> Vec<Stated> {
    let ones = |n: usize| [&b"\x00\x00\x01\x01"[..], &vec![0x80; n]].concat();
    vec![
        reads(b"\x00\x00\x09\x02\xFF\x80\x00\x00", &[0, 0, 1]),
        reads(b"\x00\x00\x09\x02\xFF\x80\x00\x01", &[]),
        reads(b"\x00\x00\x09\x02\xFF\x80\x00", &[0, 0, 2]),
        reads(b"\x00\x00\x11\x02\xFF\x80\x80\xFF\xFF", &[0, 0, 2]),
        reads(b"\x00\x00\x09\x02\xFF", &[]),
        reads(b"\x00\x01\x09\x02\xFF\x80\x00\x00", &[]),
        reads(&ones(16), &[0, 0, 1]),
        reads(&ones(17), &[]),
    ]
}

/// 8, 21, 26, 27, 20: a stride below the row is refused at height 1 too, where a large one is
/// accepted; one plane past 64 bits is 27, the total 20; planes follow each other without padding
/// after the last row; surplus is ignored.
fn files() -> Vec<Stated> {
    let planes = |width, height, count, stride: u64, planes: &[u8]| {
        let front = Front {
            strict: 0,
            kind: 0,
            width,
            height,
            count,
            numbers: stride.to_be_bytes(),
        };
        front.input(planes, ABSENT)
    };
    let two = planes(9, 2, 2, 3, b"\xFF\x80x\x00\x01\x55\x7Fy\xAA\xFFz");
    vec![
        reads(&planes(0, 1, 0, 1, b""), &[8]),
        reads(&planes(1, 1, 17, 0, b""), &[21]),
        reads(&planes(1, 1, 0, 0, b""), &[21]),
        reads(&planes(9, 1, 1, 1, b""), &[26]),
        reads(&planes(1, 3, 1, 1 << 63, b""), &[27]),
        reads(&planes(1, 2, 2, 1 << 63, b""), &[20]),
        writes(&planes(1, 1, 1, u64::MAX, b"\xFF"), b"\x00\x00\x01\x01\x80"),
        writes(&two, b"\x00\x00\x09\x02\xFF\x80\x00\x00\x55\x00\xAA\x80"),
    ]
}

/// 8, 21, 29, 28, 22; each frame starts with clean carries; surplus gray is ignored.
fn made() -> Vec<Stated> {
    let scans = |width, count, [kind, number, work]: [u8; 3], gray: &[u8]| {
        let front = Front {
            strict: 0,
            kind,
            width,
            height: 1,
            count,
            numbers: [number, work, 0, 0, 0, 0, 0, 0],
        };
        front.input(gray, ABSENT)
    };
    vec![
        reads(&scans(0, 0, [2, 1, 0], b""), &[8]),
        reads(&scans(1, 17, [2, 1, 0], b""), &[21]),
        reads(&scans(1, 1, [2, 1, 0], b""), &[29]),
        reads(&scans(1, 1, [1, 0, 1], b""), &[28]),
        reads(&scans(1, 1, [1, 0, 2], b""), &[22]),
        writes(
            &scans(2, 2, [1, 0, 4], &[127, 128, 127, 128, 9]),
            b"\x00\x00\x02\x01\x40\x40",
        ),
        writes(
            &scans(9, 1, [0, 0, 0], &[0; 9]),
            b"\x00\x00\x09\x01\xFF\x80",
        ),
        writes(&scans(2, 1, [2, 8, 0], &[1, 2]), b"\x00\x00\x02\x01\x00"),
    ]
}
