/* One-bit WBMP cards: sniffing, info and whole reading, for C99 and C++11 on x86-64. Link with
 * libcapi.a (tools/staticlib.sh capi).
 *
 * Every function may be called with bytes and numbers of all kinds and reads or writes nothing
 * but the buffers and numbers it is lent. It keeps nothing between calls.
 *
 * What a caller owes:
 * - A buffer is a pointer and its length in bytes. No pointer is null, not even that of a buffer
 *   of length 0, and a lent number is aligned as its type asks.
 * - What a function may write (the output, the lent numbers) overlaps nothing else it is lent.
 *
 * Answers. wbmp_info and wbmp_read return 0 where they accept. A refusal returns its number in
 * the low eight bits and its place, an offset into the file, above them (wbmp_code, wbmp_place).
 * A refusal writes nothing: neither the output nor a lent number is altered. No place is 8,192
 * or more.
 *
 * Dots. A row is (width + 7) / 8 bytes, its leftmost dot in the highest bit of the first one; a
 * plane is height rows; frames follow each other without gaps. */
#ifndef WBMP_H
#define WBMP_H

#include <stddef.h>
#include <stdint.h>

#ifdef __cplusplus
extern "C" {
#endif

/* What wbmp_sniff answers. */
#define WBMP_NEITHER 0
#define WBMP_EXACT 1
#define WBMP_TRUNCATED 2

/* The numbers of refusals, when they come, and with which place. */
#define WBMP_MBI_TRUNCATED 1        /* an integer is cut short: the end */
#define WBMP_MBI_OVERFLOW 2         /* an integer is above 4,294,967,295: after that byte */
#define WBMP_MBI_TOO_LONG 3         /* an integer has more than 7 bytes: after the eighth */
#define WBMP_MBI_NOT_SHORTEST 4     /* strict: an integer starts with 0x80: that byte */
#define WBMP_TYPE_UNSUPPORTED 5     /* the type is not 0: after the type */
#define WBMP_FIX_HEADER_MISSING 6   /* no FixHeader byte: the end */
#define WBMP_FIX_HEADER_NOT_ZERO 7  /* strict: the FixHeader byte is not 0: that byte */
#define WBMP_ZERO_DIMENSION 8       /* width or height is 0: after both */
#define WBMP_EXT_TRUNCATED 9        /* fields are cut short: the end */
#define WBMP_EXT_TOO_LONG 10        /* fields are too long: the octet or pair that is too many */
#define WBMP_IDENTIFIER_LENGTH 11   /* an identifier of length 0: after the pair's header */
#define WBMP_VALUE_LENGTH 12        /* a value of length 0: after the pair's header */
#define WBMP_PAIR_TRUNCATED 13      /* an identifier or value is cut short: that part's start */
#define WBMP_WIDTH_LIMIT 16         /* the width is over its limit: the body's start */
#define WBMP_HEIGHT_LIMIT 17        /* the height is over its limit: the body's start */
#define WBMP_PIXEL_LIMIT 18         /* the pixels are over their limit: the body's start */
#define WBMP_BYTE_LIMIT 19          /* a plane's bytes are over their limit: the body's start */
#define WBMP_PLANE_TOO_SHORT 20     /* the body is short of a plane: the body's start */
#define WBMP_OUTPUT_TOO_SHORT 25    /* the output is too short: 0 */
#define WBMP_UNKNOWN_SETTING 29     /* unknown format or strictness: 0 */

/* The formats of planes: a one bit is white, or black. */
#define WBMP_MONO_BLACK 0
#define WBMP_MONO_WHITE 1

/* No limit: the type's largest number. */
#define WBMP_NO_LIMIT_32 UINT32_MAX
#define WBMP_NO_LIMIT_64 UINT64_MAX

/* The default limits: a plane's bytes, the others absent; and the tighter ones of WbmpLimits:
 * width, height and a plane's bytes, the pixels absent. */
#define WBMP_DEFAULT_MAX_BYTES 1073741824
#define WBMP_LIMITS_MAX_WIDTH 16384
#define WBMP_LIMITS_MAX_HEIGHT 16384
#define WBMP_LIMITS_MAX_BYTES 8388608

/* The number and the place of a refusal. */
static inline uint8_t wbmp_code(uint64_t answer) { return (uint8_t)(answer & 0xFF); }
static inline uint64_t wbmp_place(uint64_t answer) { return answer >> 8; }

/* The bytes of a row and of a plane; no size of 32 bits overflows them. */
static inline size_t wbmp_row_bytes(uint32_t width) { return ((size_t)width + 7) / 8; }
static inline size_t wbmp_plane_bytes(uint32_t width, uint32_t height)
{
    return wbmp_row_bytes(width) * height;
}

/* Whether bytes are a whole file without fields (WBMP_EXACT: the header and 1 to 16 frames), the
 * front of one (WBMP_TRUNCATED: the header and at least one row, short of a frame) or neither.
 * Type and FixHeader are both the byte 00, so a card with fields is neither; sizes are 1 to
 * 16,384 in their shortest form, and the padding of every whole row is clear. */
uint8_t wbmp_sniff(const uint8_t *bytes, size_t bytes_len);

/* What the header tells of a file, read leniently and without limits. Where it returns 0 it has
 * written every lent number:
 * - width, height
 * - frames: 1 to 16, 1 where the body is short of a plane
 * - body: the offset at which the first plane starts
 * - fix_header: the FixHeader byte
 * - fields_kind: 0 without fields, else 1, 2, 3, 4 for the kinds 00, 01, 10, 11
 * - fields_start, fields_len: where the fields stand in the file (0 without fields)
 * - pairs: how many pairs they are (0 unless the kind is 11). A pair is a byte with two lengths,
 *   bits 6 to 4 the identifier's and bits 3 to 0 the value's, then the identifier and the value */
uint64_t wbmp_info(const uint8_t *bytes, size_t bytes_len, uint32_t *width, uint32_t *height,
                   uint32_t *frames, size_t *body, uint8_t *fix_header, uint8_t *fields_kind,
                   size_t *fields_start, size_t *fields_len, size_t *pairs);

/* Whole reading: the planes of all frames, up to 16, end to end at the front of the output. Bytes
 * of the file behind the last whole plane are ignored. For the first frame alone, lend no more of
 * the file than body + wbmp_plane_bytes(width, height) bytes, as wbmp_info tells them.
 * - format: WBMP_MONO_BLACK (as in the file, padding included) or WBMP_MONO_WHITE (inverted,
 *   padding cleared)
 * - strict: 1 demands a FixHeader byte of 0 and integers in their shortest form; 0 does not, and
 *   reads past extension fields
 * - max_width, max_height, max_pixels (width x height), max_bytes (of one plane): the most that
 *   is accepted, or WBMP_NO_LIMIT_32, WBMP_NO_LIMIT_64
 * - out, out_len: the output; one as long as the file is always long enough
 * Where it returns 0 it has written every lent number, and the first `written` bytes of the
 * output, frames x height x ((width + 7) / 8); the bytes behind them are as they were. */
uint64_t wbmp_read(const uint8_t *bytes, size_t bytes_len, uint32_t format, uint32_t strict,
                   uint32_t max_width, uint32_t max_height, uint64_t max_pixels,
                   uint64_t max_bytes, uint8_t *out, size_t out_len, uint32_t *width,
                   uint32_t *height, uint32_t *frames, size_t *written);

#ifdef __cplusplus
}
#endif

#endif
