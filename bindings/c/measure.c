/* Workloads of crates/bench by way of C, each run COUNT times:
 *
 *     measure plain COUNT     a line of 80 characters and CR LF on 80x24
 *     measure answer COUNT    the bytes of a repaint of a coloured 80x24, which are kept
 *     measure delta COUNT     the bytes of the changes that colour it, which are kept
 *     measure logged COUNT    a list of 100 pens, 100 moves and 100 texts of 8 columns
 *     measure unlogged COUNT  the same list, which isn't logged
 *     measure cells COUNT     the cells of a coloured 80x24, each by a call
 *     measure rows COUNT      the same, a row by a call
 *     measure quiet COUNT     the line of plain, which isn't logged
 *     measure kept COUNT      the same, and what scrolls off is kept in a list of lines
 *     measure full COUNT      the same, where the oldest line goes for each new one after 100
 *     measure links COUNT     a row with one of two links in turn, of which copies are kept
 *
 * The program keeps no time: run it under callgrind at two counts, and take the difference. Beside
 * `plain` of the bench stands the first. */
#include "tikeburo.h"
#include <stdio.h>
#include <stdlib.h>
#include <string.h>

static tk_status print(tk_handle *surface, const char *text) {
    return tk_print(surface, text, strlen(text));
}

static const char LINE[] = "The quick brown fox jumps over the lazy dog; 0123456789 and then some "
                           "more text.\r\n";

static tk_status plain(tk_handle *surface, long count, size_t *result) {
    tk_status status = TK_DONE;
    for (long i = 0; i < count && status == TK_DONE; i++)
        status = print(surface, LINE);
    return status != TK_DONE ? status : tk_number(surface, result);
}

static const tk_change TEXT = {.kind = TK_CHANGE_TEXT, .first = sizeof LINE - 1};

static tk_status quiet(tk_handle *surface, long count, size_t *result) {
    tk_status status = TK_DONE;
    for (long i = 0; i < count && status == TK_DONE; i++)
        status = tk_add_unlogged(surface, &TEXT, 1, LINE, TEXT.first);
    return status != TK_DONE ? status : tk_number(surface, result);
}

/* Prints this many lines, from the one at `limit` on with the oldest one removed for each. How many
 * there are in the end. */
static tk_status keep(tk_handle *surface, long count, long limit, size_t *result) {
    tk_handle lines = TK_NONE;
    tk_status status = tk_lines_new(&lines);
    for (long i = 0; i < count && status == TK_DONE; i++) {
        status = tk_add_unlogged_scrolling(surface, &TEXT, 1, LINE, TEXT.first, &lines);
        if (i >= limit && status == TK_DONE)
            status = tk_lines_remove(&lines, 0, 1);
    }
    if (status == TK_DONE)
        status = tk_lines_count(&lines, result);
    tk_free(&lines);
    return status;
}

static tk_status kept(tk_handle *surface, long count, size_t *result) {
    return keep(surface, count, count, result);
}

static tk_status full(tk_handle *surface, long count, size_t *result) {
    return keep(surface, count, 123, result); /* when 100 lines have scrolled off */
}

/* A list of lines shares no memory with a surface, and keeps one copy of either link. */
static tk_status links(tk_handle *surface, long count, size_t *result) {
    tk_handle lines = TK_NONE;
    tk_status status = tk_lines_new(&lines);
    for (int x = 0; x < 80 && status == TK_DONE; x++) {
        status = tk_set_link(surface, x % 2 == 0 ? "http://a/" : "http://b/", 9);
        if (status == TK_DONE)
            status = print(surface, "x");
    }
    for (long i = 0; i < count && status == TK_DONE; i++)
        status = tk_lines_push_row(&lines, surface, 0);
    if (status == TK_DONE)
        status = tk_lines_count(&lines, result);
    tk_free(&lines);
    return status;
}

/* One of ten colours for every 8 columns. */
static tk_status add_colours(tk_handle *surface) {
    tk_status status = TK_DONE;
    for (int i = 0; i < 80 * 24 / 8 && status == TK_DONE; i++) {
        tk_attributes pen = {.foreground = {.kind = TK_COLOR_PALETTE, .index = (uint8_t)(i % 10)}};
        status = tk_set_pen(surface, &pen);
        if (status == TK_DONE)
            status = print(surface, "colours ");
    }
    return status;
}

/* Answers an ask of four bytes. */
static tk_status respond(tk_handle *surface, const uint8_t ask[4], long count, size_t *result) {
    static uint8_t bytes[1 << 14];
    tk_status status = add_colours(surface);
    for (long i = 0; i < count && status == TK_DONE; i++)
        status = tk_respond(surface, ask, 4, bytes, sizeof bytes, result);
    return status;
}

static tk_status answer(tk_handle *surface, long count, size_t *result) {
    static const uint8_t ask[4] = {0x83, 2, 0, 0}; /* of a client that shows nothing */
    return respond(surface, ask, count, result);
}

static tk_status delta(tk_handle *surface, long count, size_t *result) {
    static const uint8_t ask[4] = {0x83, 2, 1, 1}; /* of one that shows the first change */
    tk_status status = print(surface, "\r");
    return status != TK_DONE ? status : respond(surface, ask, count, result);
}

/* Pens, moves and texts in turn, over the whole screen. */
static tk_status add_list(tk_handle *surface, long count, bool is_logged, size_t *result) {
    static tk_change list[300];
    static char texts[800];
    memset(texts, 'x', sizeof texts);
    for (size_t i = 0; i < 100; i++) {
        list[3 * i].kind = TK_CHANGE_PEN;
        list[3 * i].attributes.foreground = (tk_color){.kind = TK_COLOR_PALETTE, .index = i % 10};
        list[3 * i + 1] =
            (tk_change){.kind = TK_CHANGE_MOVE, .first = i % 10 * 8, .second = i / 10};
        list[3 * i + 2] = (tk_change){.kind = TK_CHANGE_TEXT, .first = 8};
    }
    tk_status status = TK_DONE;
    for (long i = 0; i < count && status == TK_DONE; i++)
        status = is_logged ? tk_add_changes(surface, list, 300, texts, sizeof texts)
                           : tk_add_unlogged(surface, list, 300, texts, sizeof texts);
    return status != TK_DONE ? status : tk_number(surface, result);
}

static tk_status logged(tk_handle *surface, long count, size_t *result) {
    return add_list(surface, count, true, result);
}

static tk_status unlogged(tk_handle *surface, long count, size_t *result) {
    return add_list(surface, count, false, result);
}

/* The number of cells that were read. */
static tk_status cells(tk_handle *surface, long count, size_t *result) {
    tk_status status = add_colours(surface);
    for (long i = 0; i < count && status == TK_DONE; i++) {
        for (size_t at = 0; at < 80 * 24 && status == TK_DONE; at++) {
            tk_cell cell;
            char text[16];
            size_t len;
            status = tk_cell_at(surface, at % 80, at / 80, &cell, text, sizeof text, &len);
            *result += 1;
        }
    }
    return status;
}

static tk_status rows(tk_handle *surface, long count, size_t *result) {
    static tk_row_cell cells[80];
    static tk_attributes attributes[80];
    static char text[400];
    tk_status status = add_colours(surface);
    for (long i = 0; i < count && status == TK_DONE; i++) {
        for (size_t row = 0; row < 24 && status == TK_DONE; row++) {
            tk_row_counts counts;
            status = tk_row_cells(surface, row, cells, 80, attributes, 80, text, sizeof text,
                                  &counts);
            *result += counts.cells;
        }
    }
    return status;
}

typedef tk_status workload(tk_handle *surface, long count, size_t *result);

int main(int words, char **word) {
    static const struct {
        const char *name;
        workload *run;
    } all[] = {{"plain", plain}, {"answer", answer}, {"delta", delta}, {"logged", logged},
               {"cells", cells}, {"rows", rows},     {"quiet", quiet}, {"unlogged", unlogged},
               {"kept", kept},   {"full", full},     {"links", links}};
    size_t which = 0, kinds = sizeof all / sizeof *all;
    while (words == 3 && which < kinds && strcmp(word[1], all[which].name) != 0)
        which++;
    if (words != 3 || which == kinds) {
        fputs("usage: measure plain|answer|delta|logged|unlogged|cells|rows|quiet|kept|full|links "
              "COUNT\n",
              stderr);
        return 2;
    }
    long count = strtol(word[2], NULL, 10);
    tk_handle surface = TK_NONE;
    size_t result = 0;
    tk_status status = tk_surface_new(&surface, 80, 24, TK_WIDTHS_UNICODE, 1);
    if (status == TK_DONE)
        status = all[which].run(&surface, count, &result);
    tk_free(&surface);
    printf("%zu\n", result);
    return status == TK_DONE ? 0 : 1;
}
