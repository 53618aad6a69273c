/* Checks that are counted, and what tests.c checks of a handle. */
#ifndef TIKEBURO_CHECKS_H
#define TIKEBURO_CHECKS_H

#include "tikeburo.h"
#include <stdio.h>
#include <string.h>

static int checks = 0;
static int failures = 0;

static inline void check(bool holds, const char *what, int line) {
    checks++;
    if (!holds) {
        failures++;
        printf("FAILED: line %d: %s\n", line, what);
    }
}

#define CHECK(what) check(what, #what, __LINE__)

/* How many elements an array has. */
#define COUNT(array) (sizeof(array) / sizeof *(array))

/* A surface with a number of its own. */
static inline tk_handle made(size_t width, size_t height) {
    static size_t source = 0;
    tk_handle surface = TK_NONE;
    source++;
    check(tk_surface_new(&surface, width, height, TK_WIDTHS_UNICODE, source) == TK_DONE,
          "tk_surface_new", __LINE__);
    return surface;
}

static inline tk_handle made_client(void) {
    tk_handle client = TK_NONE;
    check(tk_client_new(&client, TK_WIDTHS_UNICODE, TK_USUAL_CELLS, TK_USUAL_BYTES) == TK_DONE,
          "tk_client_new", __LINE__);
    return client;
}

/* Bytes that a call wrote. */
typedef struct bytes {
    uint8_t at[512];
    size_t len;
} bytes;

static inline bytes ask_of(tk_handle *client) {
    bytes ask = {.len = 0};
    check(tk_client_ask(client, ask.at, 20, &ask.len) == TK_DONE, "tk_client_ask", __LINE__);
    return ask;
}

/* What the surface answers to the client. */
static inline bytes answer_to(tk_handle *surface, tk_handle *client) {
    bytes ask = ask_of(client), answer = {.len = 0};
    check(tk_respond(surface, ask.at, ask.len, answer.at, sizeof answer.at, &answer.len) == TK_DONE,
          "tk_respond", __LINE__);
    return answer;
}

static inline tk_status feed(tk_handle *client, const bytes *answer) {
    tk_fault fault;
    size_t taken;
    return tk_client_feed(client, answer->at, answer->len, &taken, &fault);
}

static inline tk_status print(tk_handle *surface, const char *text) {
    return tk_print(surface, text, strlen(text));
}

/* A row, or a line of a list, as one call reads it. */
typedef struct row {
    tk_row_cell cells[16];
    tk_attributes attributes[16];
    char text[64];
    tk_row_counts counts;
} row;

static inline tk_status read_row(tk_handle *handle, size_t number, row *read) {
    return tk_row_cells(handle, number, read->cells, COUNT(read->cells), read->attributes,
                        COUNT(read->attributes), read->text, sizeof read->text, &read->counts);
}

/* Whether a text that a call gave is this one. */
static inline bool is(tk_status status, const char *text, size_t len, const char *wanted) {
    return status == TK_DONE && len == strlen(wanted) && memcmp(text, wanted, len) == 0;
}

/* Drops the blanks at the ends of rows, since a row may be stored without them. */
static inline size_t trim(char *text, size_t len) {
    size_t kept = 0, end = 0;
    for (size_t i = 0; i < len; i++) {
        if (text[i] == '\n')
            kept = end;
        text[kept++] = text[i];
        if (text[i] != ' ')
            end = kept;
    }
    return end;
}

static inline bool row_is(tk_handle *handle, size_t row, const char *wanted) {
    char text[256];
    size_t len = 0;
    tk_status status = tk_row_text(handle, row, false, text, sizeof text, &len);
    return is(status, text, trim(text, len), wanted);
}

static inline bool screen_is(tk_handle *handle, const char *wanted) {
    char text[1024];
    size_t len = 0;
    tk_status status = tk_screen_text(handle, text, sizeof text, &len);
    return is(status, text, trim(text, len), wanted);
}

static inline bool title_is(tk_handle *handle, const char *wanted) {
    char text[64];
    size_t len = 0;
    tk_status status = tk_title(handle, text, sizeof text, &len);
    return is(status, text, len, wanted);
}

static inline bool link_is(tk_handle *handle, size_t column, size_t row, const char *wanted) {
    char uri[64];
    size_t len = 0;
    tk_status status = tk_link_at(handle, column, row, uri, sizeof uri, &len);
    return is(status, uri, len, wanted);
}

/* Whether the pen's link, or with a column of row 0 that of the cell there, has this param at this
 * index. */
static inline bool has_param(tk_handle *handle, const size_t *column, size_t index,
                             const char *key, const char *value) {
    char own_key[8], own_value[8];
    size_t len = 99, value_len = 99;
    tk_status status = column == NULL
                           ? tk_pen_link_param(handle, index, own_key, sizeof own_key, &len,
                                               own_value, sizeof own_value, &value_len)
                           : tk_link_param_at(handle, *column, 0, index, own_key, sizeof own_key,
                                              &len, own_value, sizeof own_value, &value_len);
    return is(status, own_key, len, key) && is(status, own_value, value_len, value);
}

static inline bool cursor_is(tk_handle *handle, size_t column, size_t row) {
    size_t x = 99, y = 99;
    return tk_cursor(handle, &x, &y) == TK_DONE && x == column && y == row;
}

static inline bool size_is(tk_handle *handle, size_t width, size_t height) {
    size_t w = 99, h = 99;
    return tk_size(handle, &w, &h) == TK_DONE && w == width && h == height;
}

static inline bool number_is(tk_handle *handle, size_t wanted) {
    size_t number = 99;
    return tk_number(handle, &number) == TK_DONE && number == wanted;
}

static inline bool is_visible(tk_handle *handle, bool wanted) {
    bool visible = !wanted;
    return tk_cursor_is_visible(handle, &visible) == TK_DONE && visible == wanted;
}

/* The cell at this place, whose text has to be this one. */
static inline tk_cell cell_at(tk_handle *handle, size_t column, size_t row, const char *wanted) {
    tk_cell cell;
    char text[64];
    size_t len = 0;
    memset(&cell, 0xee, sizeof cell);
    tk_status status = tk_cell_at(handle, column, row, &cell, text, sizeof text, &len);
    check(is(status, text, len, wanted), wanted, __LINE__);
    return cell;
}

static inline bool same_color(tk_color a, tk_color b) {
    return a.kind == b.kind && a.red == b.red && a.green == b.green && a.blue == b.blue &&
           a.index == b.index;
}

#endif
