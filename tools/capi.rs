//! The functions of include/wbmp.h over slices, for the tools that compare and time them.

/// What `wbmp_info` lends its numbers to.
#[derive(Clone, Copy, Debug, Default, PartialEq, Eq)]
pub struct Info {
    pub width: u32,
    pub height: u32,
    pub frames: u32,
    pub body: usize,
    pub fix_header: u8,
    pub fields_kind: u8,
    pub fields_start: usize,
    pub fields_len: usize,
    pub pairs: usize,
}

/// What `wbmp_read` lends its numbers to.
#[derive(Clone, Copy, Debug, Default, PartialEq, Eq)]
pub struct Image {
    pub width: u32,
    pub height: u32,
    pub frames: u32,
    pub written: usize,
}

/// How `wbmp_read` is asked to read.
#[derive(Clone, Copy, Debug)]
pub struct Asked {
    pub format: u32,
    pub strict: u32,
    pub max_width: u32,
    pub max_height: u32,
    pub max_pixels: u64,
    pub max_bytes: u64,
}

pub fn sniff(bytes: &[u8]) -> u8 {
    // SAFETY: the pointer and the length are a slice's.
    unsafe { wbmp_sniff(bytes.as_ptr(), bytes.len()) }
}

pub fn info(bytes: &[u8], i: &mut Info) -> u64 {
    // SAFETY: the pointer and the length are a slice's, and the numbers are lent apart.
    unsafe {
        wbmp_info(
            bytes.as_ptr(),
            bytes.len(),
            &mut i.width,
            &mut i.height,
            &mut i.frames,
            &mut i.body,
            &mut i.fix_header,
            &mut i.fields_kind,
            &mut i.fields_start,
            &mut i.fields_len,
            &mut i.pairs,
        )
    }
}

pub fn read(bytes: &[u8], a: &Asked, out: &mut [u8], i: &mut Image) -> u64 {
    // SAFETY: the pointers and lengths are those of slices, which do not overlap.
    unsafe {
        wbmp_read(
            bytes.as_ptr(),
            bytes.len(),
            a.format,
            a.strict,
            a.max_width,
            a.max_height,
            a.max_pixels,
            a.max_bytes,
            out.as_mut_ptr(),
            out.len(),
            &mut i.width,
            &mut i.height,
            &mut i.frames,
            &mut i.written,
        )
    }
}

unsafe extern "C" {
    fn wbmp_sniff(bytes: *const u8, len: usize) -> u8;
    fn wbmp_info(
        bytes: *const u8,
        len: usize,
        width: *mut u32,
        height: *mut u32,
        frames: *mut u32,
        body: *mut usize,
        fix_header: *mut u8,
        fields_kind: *mut u8,
        fields_start: *mut usize,
        fields_len: *mut usize,
        pairs: *mut usize,
    ) -> u64;
    fn wbmp_read(
        bytes: *const u8,
        len: usize,
        format: u32,
        strict: u32,
        max_width: u32,
        max_height: u32,
        max_pixels: u64,
        max_bytes: u64,
        out: *mut u8,
        out_len: usize,
        width: *mut u32,
        height: *mut u32,
        frames: *mut u32,
        written: *mut usize,
    ) -> u64;
}
