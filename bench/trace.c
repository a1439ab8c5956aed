/* A plain tracer: the lines of docs/TRACE.md for streams of the few commands that bench/trace sends. One page in memory, one row compared and told at a
   time. It knows no body, no pattern, no turned page and no refusal, and is fast because of that. Usage: trace < STREAM > LINES. */
#include <stdio.h>
#include <stdlib.h>
#include <string.h>

enum { WIDEST = 640, TALLEST = 6600 };
static unsigned char page[TALLEST][WIDEST];
static int resolution = 300, opened, marked, raster, raster_resolution = 75, rows, sheets, width = 2550, height = 3300;
static int top = 3600, x, y = 900;
static unsigned long at, step;

static void head(unsigned long size, const char *last, int delivered) {
    printf("{\"at\":%lu,\"bytes\":%lu,", at, size);
    if (delivered) printf("\"delivered\":%d,", delivered);
    printf("\"depth\":0,\"last\":\"%s\",", last);
}

static void tail(const char *view) {
    printf("\"sheets\":%d,\"step\":%lu,", sheets, ++step);
    if (view[0]) printf("\"view\":{%s},", view);
    printf("\"x\":%d,\"y\":%d}\n", x, y);
}

static void plain(unsigned long size, const char *last, const char *view) {
    head(size, last, 0);
    tail(view);
    at += size;
}

/* A row of SIZE bytes at the cursor, each of its dots one dot of the page; its box is that of the bytes that change. */
static void row(const unsigned char *data, int size, unsigned long length) {
    static const char digits[] = "0123456789ABCDEF";
    int dot = 7200 / resolution, line = (y + top) / dot, shift = 75 * resolution / 300, first = WIDEST, last = -1, begins = !opened;
    char view[120];
    head(length, "par *bW", 0);
    if (begins) printf("\"opened\":[%d,%d],", width, height);
    if (line < height) {
        unsigned char *to = page[line];
        for (int each = 0; each < size; each++) {
            int place = shift / 8 + each, by = shift % 8;
            unsigned char high = data[each] >> by, low = by ? (unsigned char)(data[each] << (8 - by)) : 0;
            unsigned char edge = width % 8 && place == width / 8 ? (unsigned char)(0xFF << (8 - width % 8)) : 0xFF;
            if (place * 8 < width && (high & edge & ~to[place])) {
                to[place] |= high & edge;
                if (place < first) first = place;
                last = place;
            }
            edge = width % 8 && place + 1 == width / 8 ? (unsigned char)(0xFF << (8 - width % 8)) : 0xFF;
            if ((place + 1) * 8 < width && (low & edge & ~to[place + 1])) {
                to[place + 1] |= low & edge;
                if (place + 1 < first) first = place + 1;
                last = place + 1;
            }
        }
        if (last >= 0) {
            int wide = 8 * (last + 1) < width ? 8 * (last + 1 - first) : width - 8 * first;
            printf("\"page\":{\"height\":1,\"rows\":[\"");
            for (int each = first; each <= last; each++) {
                putchar_unlocked(digits[to[each] >> 4]);
                putchar_unlocked(digits[to[each] & 15]);
            }
            printf("\"],\"width\":%d,\"x\":%d,\"y\":%d},", wide, 8 * first, line);
        }
    }
    opened = 1;
    y += 7200 / raster_resolution;
    if (y + top > 24 * 3300) y = 24 * 3300 - top;
    rows++;
    sprintf(view, "%s\"raster\":{\"rows\":%d}", marked ? "" : "\"page\":{\"marked\":true},", rows);
    marked = 1;
    tail(view);
    at += length;
}

static void ends(unsigned long size, const char *last) {
    char view[400] = "";
    int went = marked;
    sheets += went;
    head(size, last, went);
    if (went) printf("\"page\":null,");
    if (top != 3600) strcat(view, ",\"margins\":{\"text_length\":72000,\"top\":3600}");
    if (went) strcat(view, ",\"page\":{\"marked\":false}");
    if (raster || raster_resolution != 75) {
        strcat(view, ",\"raster\":{");
        if (raster) strcat(view, "\"left\":null,");
        strcat(view, "\"resolution\":75");
        strcat(view, raster ? ",\"rows\":null}" : "}");
    }
    if (went) sprintf(view + strlen(view), ",\"settings\":{\"sheets_of_job\":%d}", sheets);
    opened = marked = raster = 0;
    raster_resolution = 75, top = 3600, x = 0, y = 900;
    tail(view[0] ? view + 1 : view);
    at += size;
}

static void command(const unsigned char *from, const unsigned char *to, char group, char end, int value, const unsigned char *data) {
    char last[16], view[160] = "";
    sprintf(last, "par %c%c%c", from[1], group, end);
    if (end == 'W') {
        row(data, value, to - from);
        return;
    }
    if (group == 'p' && end == 'X') x = value * 24;
    if (group == 'p' && end == 'Y') y = value * 24;
    if (group == 'l' && end == 'E') {
        top = 1200 * value, y = 900;
        sprintf(view, "\"margins\":{\"text_length\":%d,\"top\":%d}", (79200 - top - 3600) / 1200 * 1200, top);
    }
    if (group == 't' && end == 'R' && value != raster_resolution) {
        raster_resolution = value;
        sprintf(view, "\"raster\":{\"resolution\":%d}", value);
    }
    if (group == 'r' && end == 'A') {
        raster = 1, rows = 0;
        strcpy(view, "\"raster\":{\"left\":0,\"rows\":0}");
    }
    plain(to - from, last, view);
}

int main(int count, char **words) {
    static unsigned char stream[64 << 20];
    static char out[1 << 16], first[2000];
    size_t size = fread(stream, 1, sizeof stream, stdin);
    FILE *views = fopen(words[1], "r");   /* the fields of the first line, which are the same for every stream */
    if (count != 2 || !views || !fgets(first, sizeof first, views)) return 2;
    first[strcspn(first, "\n")] = 0;
    setvbuf(stdout, out, _IOFBF, sizeof out);
    for (const unsigned char *from = stream, *end = stream + size; from < end;) {
        if (from[0] == '@') {
            resolution = 600, width = 5100, height = 6600;
            unsigned long length = (unsigned char *)memchr(from, '\n', end - from) + 1 - from;
            plain(length, "pjl", "\"current\":{\"resolution\":600},\"page\":{\"resolution\":600}");
            from += length;
        } else if (from[1] == 'E' || from[1] == '%') {
            unsigned long length = from[1] == 'E' ? 2 : 9;
            if (step) ends(length, length == 2 ? "esc E" : "uel");
            else plain(length, length == 2 ? "esc E" : "uel", first);
            from += length;
        } else {
            char *after;
            int value = strtol((const char *)from + 3, &after, 10);
            const unsigned char *to = (unsigned char *)after + 1 + (*after == 'W' ? value : 0);
            command(from, to, from[2], *after, value, (unsigned char *)after + 1);
            from = to;
        }
    }
    ends(0, "uel");
    return 0;
}
