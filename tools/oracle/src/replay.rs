//! The header readers keep their offset to themselves: a header is read again here through
//! the public readers, and the outcome has to be that of the unchanged reader.

use crate::answer::{Answer, fields_numbers};
use crate::error::{Result, WbmpError};
use crate::ext::{FixHeaderField, parse_ext_fields, parse_ext_fields_strict};
use crate::header::{ParsedHeader, parse_header_ext_inner, parse_header_inner};
use crate::mbi::{read_mbi_u32, read_mbi_u32_strict};

/// The answer of `parse_header_inner`, or of `parse_header_ext_inner` where `ext` is set.
pub fn header(bytes: &[u8], ext: bool, strict: bool) -> Answer {
    let (outcome, at) = read(bytes, ext, strict);
    match outcome {
        Err(error) => Answer::refused(&error, at.offset),
        Ok(h) => {
            let [kind, start, len, pairs] = at.fields(&h, bytes);
            let sizes = [h.width.into(), h.height.into(), h.fix_header.into()];
            let [width, height, fix] = sizes;
            let place = h.data_offset as u64;
            Answer::of(&[0, place, width, height, fix, kind, start, len, pairs])
        }
    }
}

/// The outcome, and the offsets at which the reading ends.
pub(crate) fn read(bytes: &[u8], ext: bool, strict: bool) -> (Result<ParsedHeader>, Offsets) {
    let inner = if ext {
        parse_header_ext_inner
    } else {
        parse_header_inner
    };
    let mut at = Offsets::default();
    let outcome = replayed(bytes, ext, strict, &mut at);
    assert_eq!(
        told(&outcome),
        told(&inner(bytes, strict)),
        "header {bytes:02X?}"
    );
    (outcome, at)
}

/// The offset, and where the fields start and end.
#[derive(Default)]
pub(crate) struct Offsets {
    pub offset: usize,
    start: usize,
    end: usize,
}

impl Offsets {
    /// The kind, start, length and pairs of the header's fields; zeros where it has none.
    pub(crate) fn fields(&self, header: &ParsedHeader, bytes: &[u8]) -> [u64; 4] {
        let fields = header.ext_fields.as_ref();
        fields.map_or([0; 4], |f| fields_numbers(f, bytes, self.start, self.end))
    }
}

fn told(outcome: &Result<ParsedHeader>) -> std::result::Result<ParsedHeader, String> {
    outcome
        .as_ref()
        .map(Clone::clone)
        .map_err(|error| error.to_string())
}

fn replayed(bytes: &[u8], ext: bool, strict: bool, at: &mut Offsets) -> Result<ParsedHeader> {
    let read = if strict {
        read_mbi_u32_strict
    } else {
        read_mbi_u32
    };
    let typ = read(bytes, &mut at.offset)?;
    if typ != 0 {
        return Err(WbmpError::unsupported(format!(
            "WBMP type {typ} (only type 0 / B/W bitmap is supported)"
        )));
    }
    let Some(&fix_header) = bytes.get(at.offset) else {
        return Err(WbmpError::invalid("WBMP: header truncated at FixedHeader"));
    };
    if strict && !ext && fix_header != 0 {
        return Err(WbmpError::invalid(format!(
            "WBMP: FixedHeader byte = 0x{fix_header:02X}, strict mode requires 0x00"
        )));
    }
    at.offset += 1;
    at.start = at.offset;
    let fields = if strict {
        parse_ext_fields_strict
    } else {
        parse_ext_fields
    };
    let ext_fields = match ext {
        true => fields(FixHeaderField::from_byte(fix_header), bytes, &mut at.offset)?,
        false => None,
    };
    at.end = at.offset;
    let width = read(bytes, &mut at.offset)?;
    let height = read(bytes, &mut at.offset)?;
    if width == 0 || height == 0 {
        return Err(WbmpError::invalid(format!(
            "WBMP: zero dimension (width={width}, height={height})"
        )));
    }
    let data_offset = at.offset;
    Ok(ParsedHeader {
        width,
        height,
        data_offset,
        fix_header,
        ext_fields,
    })
}
