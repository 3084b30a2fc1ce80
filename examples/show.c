/* Shows a card: loads the file named on the command line, sniffs it, asks info, lists the pairs of
 * its fields, reads it and draws its frames as text, a black dot as '#' and a white one as '.'.
 * With -1 before the name it reads and draws the first frame alone.
 * Ends with 0, or with 1 and a message where the file cannot be loaded or is refused. */
#include "wbmp.h"

#include <stdio.h>
#include <stdlib.h>
#include <string.h>

/* A file in memory; bytes is never null once loaded. */
struct file {
    uint8_t *bytes;
    size_t len;
};

/* Loads a whole file; 0 where that fails, with a message. */
static int load(const char *name, struct file *file)
{
    size_t room = 4096;
    FILE *from = fopen(name, "rb");

    if (from == NULL) {
        perror(name);
        return 0;
    }
    file->len = 0;
    file->bytes = malloc(room);
    while (file->bytes != NULL) {
        file->len += fread(file->bytes + file->len, 1, room - file->len, from);
        if (file->len < room)
            break;
        uint8_t *more = room <= SIZE_MAX / 2 ? realloc(file->bytes, 2 * room) : NULL;
        if (more == NULL)
            free(file->bytes);
        file->bytes = more;
        room *= 2;
    }
    int failed = file->bytes == NULL || ferror(from);
    if (failed) {
        fprintf(stderr, "%s: %s\n", name, file->bytes == NULL ? "out of memory" : "not readable");
        free(file->bytes);
    }
    fclose(from);
    return !failed;
}

/* What a refusal's number says. */
static const char *reason(uint8_t code)
{
    switch (code) {
    case WBMP_MBI_TRUNCATED: return "an integer is cut short";
    case WBMP_MBI_OVERFLOW: return "an integer is too large";
    case WBMP_MBI_TOO_LONG: return "an integer has too many bytes";
    case WBMP_MBI_NOT_SHORTEST: return "an integer starts with 0x80";
    case WBMP_TYPE_UNSUPPORTED: return "the type is not 0";
    case WBMP_FIX_HEADER_MISSING: return "no FixHeader byte";
    case WBMP_FIX_HEADER_NOT_ZERO: return "the FixHeader byte is not 0";
    case WBMP_ZERO_DIMENSION: return "width or height is 0";
    case WBMP_EXT_TRUNCATED: return "the fields are cut short";
    case WBMP_EXT_TOO_LONG: return "the fields are too long";
    case WBMP_IDENTIFIER_LENGTH: return "an identifier of length 0";
    case WBMP_VALUE_LENGTH: return "a value of length 0";
    case WBMP_PAIR_TRUNCATED: return "an identifier or value is cut short";
    case WBMP_WIDTH_LIMIT: return "too wide";
    case WBMP_HEIGHT_LIMIT: return "too high";
    case WBMP_PIXEL_LIMIT: return "too many pixels";
    case WBMP_BYTE_LIMIT: return "a plane of too many bytes";
    case WBMP_PLANE_TOO_SHORT: return "the body is short of a plane";
    case WBMP_OUTPUT_TOO_SHORT: return "the output is too short";
    case WBMP_UNKNOWN_SETTING: return "unknown format or strictness";
    default: return "refused";
    }
}

static void tell_refusal(const char *name, uint64_t answer)
{
    printf("%s: refused %u %llu: %s\n", name, (unsigned)wbmp_code(answer),
           (unsigned long long)wbmp_place(answer), reason(wbmp_code(answer)));
}

static void print_text(const uint8_t *text, size_t len)
{
    for (size_t i = 0; i < len; i++)
        putchar(text[i] >= 0x20 && text[i] < 0x7F ? text[i] : '?');
}

/* The pairs of fields, which info has read: lengths, identifier, value. */
static void list(const uint8_t *fields, size_t pairs)
{
    for (; pairs > 0; pairs--) {
        size_t identifier = fields[0] >> 4 & 7, value = fields[0] & 15;

        fputs("pair ", stdout);
        print_text(fields + 1, identifier);
        fputs(" = ", stdout);
        print_text(fields + 1 + identifier, value);
        putchar('\n');
        fields += 1 + identifier + value;
    }
}

/* Prints what sniffing and info tell. Returns where the first frame ends; 0 where the file is
 * refused, with a message. */
static size_t tell(const char *name, const struct file *file)
{
    static const char *const sniffed[] = {"neither", "exact", "truncated"};
    static const char *const kinds[] = {"no fields", "kind 00", "kind 01", "kind 10", "kind 11"};
    uint32_t width, height, frames;
    uint8_t fix_header, kind;
    size_t body, start, len, pairs;

    printf("%s: %zu bytes, sniffed: %s\n", name, file->len,
           sniffed[wbmp_sniff(file->bytes, file->len)]);
    uint64_t answer = wbmp_info(file->bytes, file->len, &width, &height, &frames, &body,
                                &fix_header, &kind, &start, &len, &pairs);
    if (answer != 0) {
        tell_refusal(name, answer);
        return 0;
    }
    printf("%s: %u by %u dots, frames %u, body at %zu, FixHeader 0x%02X, %s", name,
           (unsigned)width, (unsigned)height, (unsigned)frames, body, (unsigned)fix_header,
           kinds[kind]);
    if (kind != 0)
        printf(" at %zu, %zu bytes, pairs %zu", start, len, pairs);
    putchar('\n');
    list(file->bytes + start, pairs);
    return body + wbmp_plane_bytes(width, height);
}

static void draw(const uint8_t *planes, uint32_t width, uint32_t height, uint32_t frames)
{
    size_t row = wbmp_row_bytes(width);

    for (uint32_t k = 0; k < frames; k++) {
        printf("frame %u\n", (unsigned)k + 1);
        for (uint32_t y = 0; y < height; y++, planes += row) {
            for (uint32_t x = 0; x < width; x++)
                putchar(planes[x / 8] >> (7 - x % 8) & 1 ? '.' : '#');
            putchar('\n');
        }
    }
}

/* Reads and draws the frames in the first len bytes; 0 where that fails, with a message. */
static int show(const char *name, const struct file *file, size_t len)
{
    uint32_t width, height, frames;
    size_t written;
    size_t room = len != 0 ? len : 1;
    uint8_t *out = malloc(room);

    if (out == NULL) {
        fprintf(stderr, "%s: out of memory\n", name);
        return 0;
    }
    uint64_t answer = wbmp_read(file->bytes, len, WBMP_MONO_BLACK, 0, WBMP_LIMITS_MAX_WIDTH,
                                WBMP_LIMITS_MAX_HEIGHT, WBMP_NO_LIMIT_64, WBMP_LIMITS_MAX_BYTES,
                                out, room, &width, &height, &frames, &written);
    if (answer == 0)
        draw(out, width, height, frames);
    else
        tell_refusal(name, answer);
    free(out);
    return answer == 0;
}

int main(int argc, char **argv)
{
    int alone = argc == 3 && strcmp(argv[1], "-1") == 0;
    struct file file;

    if (argc != 2 + alone) {
        fprintf(stderr, "usage: show [-1] FILE\n");
        return EXIT_FAILURE;
    }
    const char *name = argv[1 + alone];
    if (!load(name, &file))
        return EXIT_FAILURE;
    size_t first = tell(name, &file);
    int shown = first != 0 && show(name, &file, alone && first < file.len ? first : file.len);
    free(file.bytes);
    return shown ? EXIT_SUCCESS : EXIT_FAILURE;
}
