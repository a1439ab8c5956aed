/* A press of a few commands, as a good programmer writes it in an evening, with no proof: scans, decodes, widens by a table, paints
   by words, counts. It reads standard input and prints the listing of `press print --list`. It knows Letter, the four orientations,
   the cursor in dots, raster rows by methods 0 to 3 and 5 at 75 to DPI dots per inch (DPI / 4 at least), solid, shaded and user patterns of at most 16 dots and
   lines, cross-hatches, fills and form feeds; every other command is passed over. Pages are kept in the frame, since turning them
   changes no count. */
#include <stdint.h>
#include <stdio.h>
#include <stdlib.h>
#include <string.h>

#ifndef DPI
#define DPI 300
#endif
enum { LONG = 11 * DPI, SHORT = 17 * DPI / 2, BYTES = LONG / 8 + 32, TOP = 3600, DOT = 7200 / DPI };
static uint8_t page[LONG][BYTES], line_of[16][BYTES];
static int marked, sheets, orientation;
static long x, y = 900, left, rows, source_width = -1, source_height = -1;
static int resolution = 75, method, raster_on, tile_height = 1, tile_kind, source_opaque, pattern_opaque;
static long fill_width, fill_height, pattern_id;
static uint8_t seed[8192 + 64], user[256][32];
static int user_width[256], user_height[256];
static uint32_t wide[5][256];

static int turned(void) { return orientation & 1; }
static int frame_width(void) { return turned() ? LONG : SHORT; }
static int frame_height(void) { return turned() ? SHORT : LONG; }
static int offset(void) { return (turned() ? 60 : 75) * (DPI / 300); }
static long logical_width(void) { return (frame_width() - 2L * offset()) * DOT; }
static long clamp(long n, long least, long most) { return n < least ? least : n > most ? most : n; }
static void place(long to_x, long to_y) {
    x = clamp(to_x, 0, logical_width());
    y = clamp(to_y, -TOP, frame_height() * (long)DOT - TOP);
}
static void raster_off(void) { raster_on = 0; rows = 0; }

static void set_tile(const uint16_t *tile, int width, int height) {
    tile_height = height;
    for (int line = 0; line < height; line++) {
        memset(line_of[line], 0, BYTES);
        for (int at = 0; at < LONG; at++)
            if (tile[line] >> (15 - at % width) & 1) line_of[line][at / 8] |= 128 >> at % 8;
    }
}

static int select_tile(int kind, long id) {
    static const struct { int most; uint32_t even, odd; } shades[] = {
        {2, 0x80000000, 0}, {10, 0x88000000, 0x88000000}, {20, 0x88002200, 0x88002200}, {35, 0xAA00AA00, 0xAA00AA00},
        {55, 0xAA55AA55, 0xAA55AA55}, {80, 0xFF55FF55, 0xFF55FF55}, {99, 0x77FFDDFF, 0x77FFDDFF}, {100, ~0u, ~0u}};
    uint16_t tile[16] = {0};
    if (kind == 0 || kind == 1) { tile[0] = kind ? 0 : 0xFF00; set_tile(tile, 8, 1); return 1; }
    if (kind == 2) {
        if (id < 1 || id > 100) return 0;
        int at = 0;
        while (id > shades[at].most) at++;
        for (int line = 0; line < 8; line++)
            tile[line] = (line < 4 ? shades[at].even : shades[at].odd) >> (24 - line % 4 * 8) << 8;
        set_tile(tile, 8, 8);
        return 1;
    }
    if (kind == 3) {
        if (id < 1 || id > 6) return 0;
        for (int b = 0; b < 16; b++)
            for (int a = 0; a < 16; a++) {
                int black[] = {0, b == 0, a == 0, a + b == 15, a == b, a == 0 || b == 0, a + b == 15 || a == b};
                if (black[id]) tile[b] |= 0x8000 >> a;
            }
        set_tile(tile, 16, 16);
        return 1;
    }
    if (id < 0 || id > 255 || !user_width[id]) return 0;
    int bytes = (user_width[id] + 7) / 8;
    for (int line = 0; line < user_height[id]; line++)
        tile[line] = user[id][line * bytes] << 8 | (bytes > 1 ? user[id][line * bytes + 1] : 0);
    set_tile(tile, user_width[id], user_height[id]);
    return 1;
}

static uint64_t load(const uint8_t *from) { uint64_t word; memcpy(&word, from, 8); return __builtin_bswap64(word); }
static void store(uint8_t *to, uint64_t word) { word = __builtin_bswap64(word); memcpy(to, &word, 8); }

/* one line: `dots` source dots, from a byte with 8 white bytes before it, at a column of the frame */
static void paint(long line, long column, const uint8_t *source, long dots, int white_opaque) {
    if (line < 0 || line >= frame_height()) return;
    if (column + dots > frame_width()) dots = frame_width() - column;
    if (dots <= 0) return;
    uint8_t *row = page[line];
    const uint8_t *tile = line_of[line % tile_height];
    long end = column + dots;
    int shift = column % 64;
    const uint8_t *from = source;
    uint64_t before = 0;
    for (long word = column / 64; word * 64 < end; word++, from += 8) {
        uint64_t here = load(from), mask = ~0ull;
        uint64_t dot = shift ? before << (64 - shift) | here >> shift : here;
        before = here;
        if (word * 64 < column) mask >>= column - word * 64;
        if (word * 64 + 64 > end) mask &= ~0ull << (word * 64 + 64 - end);
        uint64_t pattern = load(tile + word * 8), black = mask & dot & pattern, white = 0;
        if (white_opaque) white |= mask & dot & ~pattern;
        if (source_opaque) white |= mask & ~dot;
        store(row + word * 8, (load(row + word * 8) & ~white) | black);
    }
}

static void close_page(void) {
    long black = 0;
    raster_off();
    if (marked)
        for (int line = 0; line < frame_height(); line++)
            for (int at = 0; at < BYTES / 8 * 8; at += 8) black += __builtin_popcountll(load(page[line] + at));
    printf("sheet %d front %dx%d black %ld\n", ++sheets, SHORT, LONG, black);
    if (marked) memset(page, 0, sizeof page);
    marked = 0;
}

static long row_width(void) { return source_width >= 0 ? source_width : (logical_width() - left) * resolution / 7200; }

static void start(long at) {
    raster_on = 1;
    left = at;
    rows = 0;
    memset(seed, 0, sizeof seed);
    place(left, y);
}

static void decode(uint8_t *row, long width, const uint8_t *data, long count) {
    long at = 0, to = 0;
    if (method == 3) {
        memcpy(row, seed, width);
        while (at < count) {
            long replaced = (data[at] >> 5) + 1, skip = data[at] & 31;
            at++;
            if (skip == 31) {
                int whole = 0;
                while (at < count && !whole) { skip += data[at]; whole = data[at++] < 255; }
                if (!whole) return;
            }
            to += skip;
            for (long i = 0; i < replaced && at < count; i++, at++, to++) if (to < width) row[to] = data[at];
        }
        return;
    }
    memset(row, 0, width);
    if (method == 0) { memcpy(row, data, count < width ? count : width); return; }
    while (at < count && to < width) {
        int code = data[at++];
        long run = method == 1 ? code + 1 : code <= 127 ? code + 1 : 257 - code;
        if (method == 2 && code == 128) continue;
        if (run > width - to) run = width - to;
        if (method == 2 && code <= 127) {
            if (run > count - at) run = count - at;
            memcpy(row + to, data + at, run);
            at += code + 1;
        } else {
            if (at >= count) return;
            memset(row + to, data[at++], run);
        }
        to += run;
    }
}

static void transfer_row(const uint8_t *data, long count) {
    static uint8_t row[8192 + 64], dots[4 * 8192 + 128];
    if (source_height >= 0 && rows >= source_height) return;
    int size = DPI / resolution;
    long width = row_width(), bytes = (width + 7) / 8, column = offset() + left / DOT, line = (y + TOP) / DOT;
    decode(row, bytes, data, count);
    memcpy(seed, row, bytes);
    if (size == 1) memcpy(dots, row, bytes);
    else
        for (long at = 0; at < bytes; at++) {
            uint32_t word = __builtin_bswap32(wide[size][row[at]] << (32 - 8 * size));
            memcpy(dots + at * size, &word, 4);
        }
    memset(dots + bytes * size, 0, 64);
    for (int each = 0; each < size; each++) paint(line + each, column, dots, width * size, pattern_opaque || tile_kind == 1);
    marked = 1;
    place(x, y + 7200 / resolution);
    rows++;
}

/* blocks of adaptive rows: a command byte, a count of two bytes, and the data of one row by methods 0 to 3 */
static void transfer_blocks(const uint8_t *data, long count) {
    long at = 0;
    while (at + 3 <= count) {
        int command = data[at];
        long asked = data[at + 1] * 256 + data[at + 2];
        at += 3;
        if (command > 5) break;
        if (command <= 3) {
            long given = asked < count - at ? asked : count - at;
            method = command;
            transfer_row(data + at, given);
            at += given;
            continue;
        }
        if (!asked) memset(seed, 0, sizeof seed);
        method = command == 4 ? 0 : 3;
        for (long each = 0; each < asked; each++) transfer_row(data, 0);
    }
    method = 5;
}

static void transfer(const uint8_t *data, long count) {
    if (!raster_on) start(0);
    if (method == 5) transfer_blocks(data, count);
    else transfer_row(data, count);
}

static void fill(int kind, long id) {
    static uint8_t black[BYTES + 64];
    int kept = source_opaque;
    if (kind == 5) { kind = tile_kind; id = -1; }
    else if (!select_tile(kind, id)) return;
    if (!fill_width || !fill_height) return;
    memset(black, 255, sizeof black);
    source_opaque = 0;
    long column = offset() + x / DOT, line = (y + TOP) / DOT;
    for (long each = 0; each < fill_height && line + each < frame_height(); each++)
        paint(line + each, column, black, fill_width > LONG ? LONG : fill_width, pattern_opaque || kind == 1);
    source_opaque = kept;
    marked = 1;
}

static void define(const uint8_t *data, long count) {
    if (count < 8 || pattern_id < 0 || pattern_id > 255) return;
    int height = data[4] * 256 + data[5], width = data[6] * 256 + data[7];
    if (!height || !width || height > 16 || width > 16 || count < 8 + height * ((width + 7) / 8)) return;
    user_width[pattern_id] = width;
    user_height[pattern_id] = height;
    memcpy(user[pattern_id], data + 8, height * ((width + 7) / 8));
}

static long current_id;
static void command(int group, int family, long value, int signed_value, int letter, const uint8_t *data) {
    long step = 7200 / 300;
    switch (group << 16 | family << 8 | letter) {
    case '&' << 16 | 'l' << 8 | 'O': if (value >= 0 && value <= 3) { if (marked) close_page(); orientation = value; raster_off(); place(0, 900); } break;
    case '*' << 16 | 'p' << 8 | 'X': raster_off(); place(signed_value ? x + value * step : value * step, y); break;
    case '*' << 16 | 'p' << 8 | 'Y': raster_off(); place(x, signed_value ? y + value * step : value * step); break;
    case '*' << 16 | 't' << 8 | 'R': if (!raster_on && (value == 75 || value == 100 || value == 150 || value == 300 || (DPI == 600 && (value == 200 || value == 600)))) resolution = value; break;
    case '*' << 16 | 'r' << 8 | 'S': if (!raster_on && value >= 1) source_width = value; break;
    case '*' << 16 | 'r' << 8 | 'T': if (!raster_on && value >= 1) source_height = value; break;
    case '*' << 16 | 'r' << 8 | 'A': if (!raster_on && value >= 0 && value <= 3) start(value & 1 ? x : 0); break;
    case '*' << 16 | 'r' << 8 | 'B': raster_off(); break;
    case '*' << 16 | 'r' << 8 | 'C': raster_off(); method = 0; break;
    case '*' << 16 | 'b' << 8 | 'M': if ((value >= 0 && value <= 3) || value == 5) method = value; break;
    case '*' << 16 | 'b' << 8 | 'Y':
        if (raster_on && value >= 1) { place(x, y + value * 7200 / resolution); rows += value; memset(seed, 0, sizeof seed); }
        break;
    case '*' << 16 | 'b' << 8 | 'W': transfer(data, value); break;
    case '*' << 16 | 'c' << 8 | 'A': fill_width = value; break;
    case '*' << 16 | 'c' << 8 | 'B': fill_height = value; break;
    case '*' << 16 | 'c' << 8 | 'G': pattern_id = value; break;
    case '*' << 16 | 'c' << 8 | 'W': define(data, value); break;
    case '*' << 16 | 'c' << 8 | 'P': fill(value, pattern_id); select_tile(tile_kind, current_id); break;
    case '*' << 16 | 'v' << 8 | 'N': source_opaque = value; break;
    case '*' << 16 | 'v' << 8 | 'O': pattern_opaque = value; break;
    case '*' << 16 | 'v' << 8 | 'T': if (select_tile(value, pattern_id)) { tile_kind = value; current_id = pattern_id; } break;
    }
}

static void reset(void) {
    if (marked) close_page();
    orientation = 0; resolution = 75; method = 0; source_width = source_height = -1;
    fill_width = fill_height = pattern_id = current_id = 0; tile_kind = source_opaque = pattern_opaque = 0;
    memset(user_width, 0, sizeof user_width);
    raster_off(); select_tile(0, 0); place(0, 900);
}

int main(void) {
    size_t room = 1 << 20, count = 0, got;
    uint8_t *bytes = malloc(room);
    while ((got = fread(bytes + count, 1, room - count, stdin)) > 0)
        if ((count += got) == room) bytes = realloc(bytes, room *= 2);
    for (int size = 2; size <= 4; size++)
        for (int byte = 0; byte < 256; byte++)
            for (int dot = 0; dot < 8 * size; dot++)
                if (byte >> (7 - dot / size) & 1) wide[size][byte] |= 1u << (8 * size - 1 - dot);
    reset();
    for (size_t at = 0; at < count;) {
        if (bytes[at] == 12) { close_page(); place(x, 900); at++; continue; }
        if (bytes[at] != 27) { at++; continue; }
        if (bytes[at + 1] == 'E') { reset(); at += 2; continue; }
        int group = bytes[at + 1], family = bytes[at + 2];
        at += 3;
        for (int more = 1; more && at < count;) {
            long value = 0;
            int sign = 0;
            if (bytes[at] == '-' || bytes[at] == '+') sign = bytes[at++];
            while (at < count && bytes[at] >= '0' && bytes[at] <= '9') value = value * 10 + bytes[at++] - '0';
            int letter = bytes[at++];
            more = letter >= 'a';
            if (more) letter -= 32;
            command(group, family, sign == '-' ? -value : value, sign, letter, bytes + at);
            if (letter == 'W') at += value;
        }
    }
    if (marked) close_page();
    return 0;
}
