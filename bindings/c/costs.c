/* What bytes of a stranger's cost a client, each fed COUNT times after what comes first:
 *
 *     costs clear COUNT    a clear of 1024x1024 to a true colour with a palette's fallback
 *     costs feed COUNT     a line feed in the last row of 1x65,536
 *     costs scroll COUNT   a scroll of all rows of it but one
 *     costs clears COUNT   an answer of 300 clears of 1024x1024, which is refused
 *     costs rows COUNT     a repaint of 1x1,048,576, which is refused
 *     costs link COUNT     a link with 10,000 params, in pieces of 1,460 bytes
 *     costs text COUNT     a text of 10,000 runs of pieces, in such pieces
 *     costs link-whole COUNT, costs text-whole COUNT
 *                          the same at once
 *
 * The program keeps no time: run it under callgrind at two counts, and take the difference. Of the
 * last four one answer has COUNT times as many params or runs, so that the difference tells whether
 * the cost grows as they do. */
#include "tikeburo.h"
#include <stdio.h>
#include <stdlib.h>
#include <string.h>

enum { PIECE = 1460, PARAMS = 10000, REFUSED_CLEARS = 300 };

/* A stream that grows. */
typedef struct stream {
    uint8_t *at;
    size_t len, room;
} stream;

static void put_byte(stream *s, uint8_t byte) {
    if (s->len == s->room) {
        s->room = 2 * s->room + 64;
        s->at = realloc(s->at, s->room);
        if (s->at == NULL)
            exit(3);
    }
    s->at[s->len++] = byte;
}

/* The head of a CBOR item of this major type, in its shortest form. */
static void put_head(stream *s, uint8_t major, uint32_t value) {
    uint8_t kind = (uint8_t)(major << 5);
    if (value < 24) {
        put_byte(s, kind | (uint8_t)value);
        return;
    }
    int bytes = value < 256 ? 1 : value < 65536 ? 2 : 4;
    put_byte(s, kind | (uint8_t)(bytes == 1 ? 24 : bytes == 2 ? 25 : 26));
    for (int shift = 8 * (bytes - 1); shift >= 0; shift -= 8)
        put_byte(s, (uint8_t)(value >> shift));
}

enum { NUMBER = 0, TEXT = 3, ARRAY = 4 };

static void put_text(stream *s, const char *text) {
    put_head(s, TEXT, (uint32_t)strlen(text));
    for (; *text != '\0'; text++)
        put_byte(s, (uint8_t)*text);
}

/* The head of an answer of surface 1. A base of 0 makes it a repaint. */
static void put_answer(stream *s, uint32_t width, uint32_t height, uint32_t base, uint32_t changes) {
    put_head(s, ARRAY, 7);
    put_head(s, NUMBER, 2);
    put_head(s, NUMBER, 1);
    put_head(s, NUMBER, width);
    put_head(s, NUMBER, height);
    put_head(s, NUMBER, base);
    put_head(s, NUMBER, base + 1);
    put_head(s, ARRAY, changes);
}

static void put_clear(stream *s) {
    put_head(s, ARRAY, 2);
    put_head(s, NUMBER, 3);
    put_head(s, ARRAY, 4);
    for (uint32_t part = 1; part <= 4; part++)
        put_head(s, NUMBER, part);
}

/* The cursor goes to the last row. */
static void put_move_down(stream *s) {
    put_head(s, ARRAY, 3);
    put_head(s, NUMBER, 6);
    for (int i = 0; i < 2; i++) {
        put_head(s, ARRAY, 2);
        put_head(s, NUMBER, i == 0 ? 1 : 2);
        put_head(s, NUMBER, 0);
    }
}

static void put_line_feed(stream *s) {
    put_head(s, ARRAY, 2);
    put_head(s, NUMBER, 2);
    put_text(s, "\n");
}

static void put_scroll(stream *s, uint32_t rows) {
    put_head(s, ARRAY, 4);
    put_head(s, NUMBER, 10);
    put_head(s, NUMBER, 0);
    put_head(s, NUMBER, rows);
    put_head(s, NUMBER, 1);
}

/* A pen's link with this many params, whose keys ascend. */
static void put_link(stream *s, uint32_t params) {
    char key[16];
    put_head(s, ARRAY, 2);
    put_head(s, NUMBER, 0);
    put_head(s, ARRAY, 2);
    put_head(s, NUMBER, 9);
    put_head(s, ARRAY, 3);
    put_text(s, "https://example.org/");
    put_byte(s, 0xf4); /* false */
    put_head(s, ARRAY, params);
    for (uint32_t i = 0; i < params; i++) {
        snprintf(key, sizeof key, "%08u", i);
        put_head(s, ARRAY, 2);
        put_text(s, key);
        put_text(s, "v");
    }
}

/* A text of kana and letters in turn, each of which is a run. */
static void put_runs(stream *s, uint32_t runs) {
    put_head(s, ARRAY, 3);
    put_head(s, NUMBER, 2);
    put_head(s, TEXT, 2 * runs);
    for (uint32_t i = 0; i < runs / 2; i++) {
        put_byte(s, 0xe3);
        put_byte(s, 0x81);
        put_byte(s, 0x8b);
        put_byte(s, 'a');
    }
    put_head(s, ARRAY, 3 * runs);
    for (uint32_t i = 0; i < runs; i++) {
        put_head(s, NUMBER, 1);
        put_head(s, NUMBER, 1);
        put_head(s, NUMBER, i % 2 == 0 ? 2 : 1);
    }
}

/* Feeds a client the bytes in pieces of this many, and frees them. */
static tk_status feed(tk_handle *client, stream *s, size_t piece) {
    tk_status status = TK_DONE;
    for (size_t at = 0; at < s->len && status == TK_DONE; at += piece) {
        size_t left = s->len - at, taken = 0;
        tk_fault fault = {0};
        status = tk_client_feed(client, s->at + at, left < piece ? left : piece, &taken, &fault);
    }
    free(s->at);
    *s = (stream){.at = NULL};
    return status;
}

/* So many deltas of one change each, after a repaint with the cursor in the last row. */
static tk_status feed_changes(tk_handle *client, const char *name, uint32_t count) {
    bool clears = strcmp(name, "clear") == 0;
    uint32_t width = clears ? 1024 : 1, height = clears ? 1024 : 65536;
    stream s = {.at = NULL};
    put_answer(&s, width, height, 0, 1);
    put_move_down(&s);
    for (uint32_t i = 1; i <= count; i++) {
        put_answer(&s, width, height, i, 1);
        if (clears)
            put_clear(&s);
        else if (strcmp(name, "feed") == 0)
            put_line_feed(&s);
        else
            put_scroll(&s, height - 1);
    }
    return feed(client, &s, s.len);
}

/* So many answers that are refused, each after a reset. */
static tk_status feed_refused(tk_handle *client, const char *name, uint32_t count) {
    tk_status status = TK_DONE;
    for (uint32_t i = 0; i < count && status == TK_DONE; i++) {
        stream s = {.at = NULL};
        if (strcmp(name, "rows") == 0) {
            put_answer(&s, 1, 1048576, 0, 0);
        } else {
            put_answer(&s, 1024, 1024, 0, REFUSED_CLEARS);
            for (int clear = 0; clear < REFUSED_CLEARS; clear++)
                put_clear(&s);
        }
        if (feed(client, &s, s.len) != TK_UNREADABLE)
            return TK_RANGE;
        status = tk_client_reset(client);
    }
    return status;
}

/* One answer of one change with this many parts. */
static tk_status feed_parts(tk_handle *client, bool is_link, bool whole, uint32_t count) {
    stream s = {.at = NULL};
    put_answer(&s, 80, 24, 0, 1);
    if (is_link)
        put_link(&s, count * PARAMS);
    else
        put_runs(&s, count * PARAMS);
    return feed(client, &s, whole ? s.len : PIECE);
}

int main(int argc, char **argv) {
    tk_handle client = TK_NONE;
    if (argc != 3)
        return 2;
    const char *name = argv[1];
    uint32_t count = (uint32_t)strtoul(argv[2], NULL, 10);
    tk_status status = tk_client_new(&client, TK_WIDTHS_UNICODE, TK_USUAL_CELLS, TK_USUAL_BYTES);
    if (status != TK_DONE)
        return 3;
    if (strcmp(name, "clear") == 0 || strcmp(name, "feed") == 0 || strcmp(name, "scroll") == 0)
        status = feed_changes(&client, name, count);
    else if (strcmp(name, "clears") == 0 || strcmp(name, "rows") == 0)
        status = feed_refused(&client, name, count);
    else if (strncmp(name, "link", 4) == 0 || strncmp(name, "text", 4) == 0)
        status = feed_parts(&client, name[0] == 'l', name[4] != '\0', count);
    else
        return 2;
    tk_free(&client);
    return status == TK_DONE ? 0 : 1;
}
