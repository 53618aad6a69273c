/* Gives the library what a caller may give it by mistake or by ill will: random bytes, answers that
 * are damaged, cut short or another surface's, claims of great lengths, handles that are freed, and
 * random calls with random arguments. Each call has to return what the header names, and a client
 * that is fed a surface's answer has to show what the surface shows, whatever came before.
 *
 *     hostile [ROUNDS]
 *
 * It ends with `N calls`, the same for the same ROUNDS, or with status 1 and what went wrong. */
#include "tikeburo.h"
#include <stdint.h>
#include <stdio.h>
#include <stdlib.h>
#include <string.h>

static long calls = 0;
static uint64_t state = 0x9e3779b97f4a7c15;

/* A number below the limit, by xorshift. */
static size_t below(size_t limit) {
    state ^= state << 13;
    state ^= state >> 7;
    state ^= state << 17;
    return (size_t)(state >> 11) % limit;
}

/* Counts a call, and ends the program where what has to hold doesn't. */
static void expect(bool holds, const char *what) {
    calls++;
    if (!holds) {
        printf("FAILED: %s, after %ld calls\n", what, calls);
        exit(1);
    }
}

#define EXPECT(what) expect(what, #what)

/* What a call may return that has bytes of any kind to read. */
static bool is_answered(tk_status status) {
    return status == TK_DONE || status == TK_UNREADABLE || status == TK_TRUNCATED ||
           status == TK_REGION;
}

/* Reads the head of an answer. Where a client found no fault in the bytes, there is none in it, and
 * where it found one that is not past its limits, the head lacks no bytes. */
static void read_head(const uint8_t *bytes, size_t len, tk_status fed, const tk_fault *fault) {
    tk_head head = {.source = 0};
    tk_status status = tk_answer_head(bytes, len, &head);
    EXPECT(status == TK_DONE || status == (fed == TK_DONE ? TK_TRUNCATED : TK_UNREADABLE) ||
           fault->kind == TK_FAULT_LIMIT);
    EXPECT((status == TK_DONE) == (head.source > 0));
    EXPECT((status == TK_DONE) == (head.width > 0 && head.height > 0));
    EXPECT(head.base <= head.number);
}

/* Gives the client a whole stream of its own. What is wrong with it has a name and a place. */
static tk_status feed(tk_handle *client, const uint8_t *bytes, size_t len) {
    tk_fault fault = {.kind = 99};
    EXPECT(tk_client_reset(client) == TK_DONE);
    size_t taken = len + 1;
    tk_status status = tk_client_feed(client, bytes, len, &taken, &fault);
    EXPECT(status == TK_DONE ? fault.kind == 99 : fault.kind <= TK_FAULT_LIMIT && fault.at < len);
    EXPECT(status == TK_DONE ? taken <= len : taken == len + 1);
    read_head(bytes, len, status, &fault);
    return status;
}

/* Random bytes: small numbers for the most part, since they are heads of CBOR. */
static size_t fill(uint8_t *bytes, size_t room) {
    size_t len = below(room + 1);
    for (size_t i = 0; i < len; i++)
        bytes[i] = (uint8_t)(below(4) == 0   ? below(256)
                             : below(2) == 0 ? 0x80 + below(9)
                                             : below(15));
    return len;
}

/* A change of each kind, as docs/stream.cddl has it. */
static const char *const CHANGES[] = {"\x82\0\x82\0\x01",
                                      "\x82\0\x82\x09\x83\x61u\xf4\x80",
                                      "\x82\x01\x85\x19\x01\x2c\x05\xf6\xf6\xf6",
                                      "\x82\x02\x61x",
                                      "\x82\x03\xf6",
                                      "\x82\x04\x05",
                                      "\x82\x05\x83\x01\x02\x03",
                                      "\x83\x06\x82\0\x20\x82\x01\x02",
                                      "\x82\x07\x84\x01\x02\x03\x04",
                                      "\x82\x08\x03",
                                      "\x82\x09\xf5",
                                      "\x84\x0a\0\x02\x01",
                                      "\x84\x0b\x01\x01\x01",
                                      "\x82\x0c\x61t",
                                      "\x82\x0d\x01"};
static const uint8_t LENGTHS[] = {5, 9, 10, 4, 3, 3, 6, 8, 7, 3, 3, 5, 5, 4, 3};

/* An answer of a few of them, in which every other time a byte is altered. Its list of changes
 * begins at byte 7. */
static size_t random_answer(uint8_t *bytes) {
    size_t count = below(4), len = 8;
    uint8_t base = (uint8_t)(below(8) ? 0 : below(12)), number = (uint8_t)(12 + below(12));
    uint8_t source = (uint8_t)(1 + below(3)), list = (uint8_t)(0x80 + count);
    uint8_t head[] = {0x87, 2, source, 12, 3, base, number, list};
    memcpy(bytes, head, sizeof head);
    for (size_t change = 0; change < count; change++) {
        size_t kind = below(sizeof LENGTHS);
        memcpy(bytes + len, CHANGES[kind], LENGTHS[kind]);
        len += LENGTHS[kind];
    }
    if (below(2) == 0)
        bytes[below(len)] = (uint8_t)(below(2) == 0 ? below(256) : below(24));
    return len;
}

static bool same_cells(tk_handle *a, tk_handle *b, size_t column, size_t row) {
    char text_a[256], text_b[256];
    size_t len_a = 0, len_b = 0;
    tk_cell cell_a, cell_b;
    EXPECT(tk_cell_at(a, column, row, &cell_a, text_a, sizeof text_a, &len_a) == TK_DONE);
    EXPECT(tk_cell_at(b, column, row, &cell_b, text_b, sizeof text_b, &len_b) == TK_DONE);
    return len_a == len_b && memcmp(text_a, text_b, len_a) == 0 &&
           memcmp(&cell_a, &cell_b, sizeof cell_a) == 0;
}

static bool same_settings(tk_handle *a, tk_handle *b) {
    tk_settings of_a, of_b;
    char uri_a[64], uri_b[64];
    size_t len_a = 0, len_b = 0;
    EXPECT(tk_state(a, &of_a) == TK_DONE && tk_state(b, &of_b) == TK_DONE);
    EXPECT(tk_pen_link(a, uri_a, sizeof uri_a, &len_a) == TK_DONE);
    EXPECT(tk_pen_link(b, uri_b, sizeof uri_b, &len_b) == TK_DONE);
    return of_a.source == of_b.source && of_a.number == of_b.number && of_a.is_full &&
           of_b.is_full && of_a.has_link == of_b.has_link && len_a == len_b &&
           memcmp(uri_a, uri_b, len_a) == 0 && of_a.cursor_shape == of_b.cursor_shape &&
           memcmp(&of_a.cursor_color, &of_b.cursor_color, sizeof of_a.cursor_color) == 0 &&
           memcmp(&of_a.pen, &of_b.pen, sizeof of_a.pen) == 0;
}

static bool same_lines(tk_handle *a, tk_handle *b, size_t row) {
    uint8_t line_a, line_b;
    EXPECT(tk_line_attribute(a, row, &line_a) == TK_DONE);
    EXPECT(tk_line_attribute(b, row, &line_b) == TK_DONE);
    return line_a == line_b && line_a <= TK_LINE_SINGLE_WIDTH;
}

static bool same_screens(tk_handle *a, tk_handle *b) {
    size_t width, height, x_a, y_a, x_b, y_b;
    bool visible_a, visible_b;
    EXPECT(tk_size(a, &width, &height) == TK_DONE);
    EXPECT(tk_cursor(a, &x_a, &y_a) == TK_DONE && tk_cursor(b, &x_b, &y_b) == TK_DONE);
    EXPECT(tk_cursor_is_visible(a, &visible_a) == TK_DONE);
    EXPECT(tk_cursor_is_visible(b, &visible_b) == TK_DONE);
    bool same = x_a == x_b && y_a == y_b && visible_a == visible_b && x_a <= width && y_a < height;
    same = same && same_settings(a, b);
    for (size_t row = 0; row < height; row++) {
        same = same && same_lines(a, b, row);
        for (size_t column = 0; column < width; column++)
            same = same && same_cells(a, b, column, row);
    }
    return same;
}

/* The client is given what it lacks, in pieces, and shows what the surface shows. */
static void deliver(tk_handle *surface, tk_handle *client) {
    static uint8_t bytes[1 << 16];
    uint8_t ask[20];
    size_t ask_len, len, taken = 0;
    tk_fault fault;
    EXPECT(tk_client_reset(client) == TK_DONE);
    EXPECT(tk_client_ask(client, ask, sizeof ask, &ask_len) == TK_DONE);
    EXPECT(tk_respond(surface, ask, ask_len, bytes, sizeof bytes, &len) == TK_DONE);
    for (size_t fed = 0, piece; fed < len; fed += piece) {
        piece = 1 + below(len - fed);
        EXPECT(taken == 0);
        EXPECT(tk_client_feed(client, bytes + fed, piece, &taken, &fault) == TK_DONE);
    }
    EXPECT(taken == 1);
    EXPECT(same_screens(surface, client));
}

/* Attributes of any numbers, of which most are in their ranges. */
static tk_attributes random_attributes(void) {
    tk_attributes attributes = TK_DEFAULT_ATTRIBUTES;
    bool *flags[] = {&attributes.italic,    &attributes.reverse, &attributes.strikethrough,
                     &attributes.invisible, &attributes.wrapped, &attributes.overline};
    fill((uint8_t *)&attributes, sizeof attributes);
    attributes.intensity %= 4;
    attributes.underline %= 7;
    attributes.blink %= 4;
    attributes.semantic_type %= 4;
    attributes.vertical_align %= 4;
    for (size_t flag = 0; flag < sizeof flags / sizeof *flags; flag++)
        memset(flags[flag], (int)below(2), sizeof *flags[flag]);
    attributes.foreground.kind %= 5;
    attributes.background.kind %= 5;
    attributes.underline_color.kind %= 5;
    return attributes;
}

/* A list of structs, each of some kind and with any numbers, and any bytes as their texts. */
static tk_status add_random_structs(tk_handle *surface, tk_handle *lines) {
    tk_change list[4];
    uint8_t texts[16];
    size_t count = below(5), len = fill(texts, sizeof texts), left = len;
    for (size_t i = 0; i < count; i++) {
        size_t first = below(left + 1), second = below(4), third = below(12);
        list[i] = (tk_change){(uint8_t)below(25), random_attributes(), first, second, third};
        if (list[i].kind <= TK_CHANGE_LINK || list[i].kind == TK_CHANGE_PEN)
            left -= first;
        else if (below(16) == 0)
            list[i].first = SIZE_MAX - below(4);
    }
    memset(texts, 'a', below(2) * sizeof texts);
    len -= left * below(2);
    switch (below(6)) {
    case 0:
        return tk_add_unlogged(surface, list, count, (const char *)texts, len);
    case 1:
        return tk_add_unlogged_scrolling(surface, list, count, (const char *)texts, len, lines);
    case 2:
        return tk_add_changes_scrolling(surface, list, count, (const char *)texts, len, lines);
    default:
        return tk_add_changes(surface, list, count, (const char *)texts, len);
    }
}

/* A list of changes is made or refused, and adds no line where it is refused. */
static void random_structs(tk_handle *surface, tk_handle *lines) {
    size_t before = 0, after = 0;
    EXPECT(tk_lines_count(lines, &before) == TK_DONE);
    tk_status status = add_random_structs(surface, lines);
    EXPECT(is_answered(status) || status == TK_RANGE);
    EXPECT(tk_lines_count(lines, &after) == TK_DONE);
    EXPECT(status == TK_DONE ? after >= before : after == before);
    if (after > 64)
        EXPECT(tk_lines_remove(lines, 0, after) == TK_DONE);
}

/* Bytes of any kind are a text, which is cut and measured, or refused. */
static void cut_random_bytes(void) {
    uint8_t bytes[16];
    const char *text = (const char *)bytes;
    size_t len = fill(bytes, sizeof bytes), columns = SIZE_MAX, first = SIZE_MAX;
    uint8_t widths = (uint8_t)below(3);
    tk_status measured = tk_text_width(text, len, widths, &columns);
    tk_status cut = tk_first_grapheme(text, len, &first);
    EXPECT(cut == TK_DONE || cut == TK_UNREADABLE);
    EXPECT(measured == (widths > TK_WIDTHS_ONE_COLUMN ? TK_RANGE : cut));
    EXPECT(measured == TK_DONE ? columns <= 2 * len : columns == SIZE_MAX);
    EXPECT(cut == TK_DONE ? first <= len && (first > 0) == (len > 0) : first == SIZE_MAX);
}

static void random_bytes(tk_handle *surface, tk_handle *client, size_t rounds) {
    uint8_t bytes[64], answer[1024];
    size_t answer_len;
    tk_handle lines = TK_NONE;
    EXPECT(tk_lines_new(&lines) == TK_DONE);
    for (size_t round = 0; round < rounds; round++) {
        size_t len = fill(bytes, sizeof bytes);
        EXPECT(is_answered(feed(client, bytes, len)));
        EXPECT(is_answered(tk_add_encoded(surface, bytes, len)));
        tk_status status = tk_respond(surface, bytes, len, answer, sizeof answer, &answer_len);
        EXPECT(is_answered(status) || status == TK_SHORT);
        len = random_answer(bytes);
        EXPECT(is_answered(feed(client, bytes, len)));
        EXPECT(is_answered(tk_add_encoded(surface, bytes + 7, len - 7)));
        cut_random_bytes();
        random_structs(surface, &lines);
        if (round % 64 == 0)
            deliver(surface, client);
    }
    tk_free(&lines);
}

/* Each front of an answer, and the answer with each of its bytes at each value. */
static void damaged_answers(tk_handle *surface, tk_handle *client, size_t values) {
    static const uint8_t ask[] = {0x83, 2, 0, 0};
    uint8_t bytes[1024];
    size_t len;
    EXPECT(tk_respond(surface, ask, sizeof ask, bytes, sizeof bytes, &len) == TK_DONE);
    for (size_t front = 0; front < len; front++)
        EXPECT(feed(client, bytes, front) == TK_DONE); /* more would have to come */
    for (size_t at = 0; at < len; at++) {
        uint8_t right = bytes[at];
        for (size_t value = 0; value < values; value++) {
            bytes[at] = (uint8_t)(right + value);
            EXPECT(is_answered(feed(client, bytes, len)));
        }
        bytes[at] = right;
        EXPECT(feed(client, bytes, len) == TK_DONE); /* it is a repaint */
    }
    EXPECT(same_screens(surface, client));
}

/* Lists, texts and screens that claim to be greater than any memory. */
static void great_claims(tk_handle *surface, tk_handle *client) {
    static const uint8_t list[] = {0x9b, 0x7f, 255, 255, 255, 255, 255, 255, 255, 0x82, 8, 0};
    static const uint8_t text[] = {0x81, 0x82, 2,   0x7b, 255, 255, 255,
                                   255,  255,  255, 255,  255, 'x'};
    static const uint8_t answer[] = {0x87, 2,   1,   1,   1,   0,   1,   0x9b,
                                     0x7f, 255, 255, 255, 255, 255, 255, 255};
    static const uint8_t screen[] = {0x87, 2,   1,   0x1a, 255, 255, 255, 255,
                                     0x1a, 255, 255, 255,  255, 0,   1,   0x80};
    EXPECT(tk_add_encoded(surface, list, sizeof list) == TK_TRUNCATED);
    EXPECT(tk_add_encoded(surface, text, sizeof text) == TK_UNREADABLE);
    EXPECT(feed(client, answer, sizeof answer) == TK_UNREADABLE);
    EXPECT(feed(client, screen, sizeof screen) == TK_UNREADABLE);
    EXPECT(tk_add_encoded(surface, list, 0) == TK_TRUNCATED);
    EXPECT(feed(client, answer, 0) == TK_DONE);
    for (size_t depth = 0; depth < 64; depth++) { /* arrays in arrays */
        uint8_t nested[64];
        memset(nested, 0x81, sizeof nested);
        EXPECT(tk_add_encoded(surface, nested, depth) ==
               (depth < 2 ? TK_TRUNCATED : TK_UNREADABLE));
        EXPECT(feed(client, nested, depth) == (depth < 2 ? TK_DONE : TK_UNREADABLE));
    }
}

/* A handle that is freed has no value, and may be used again. */
static void freed_handles(void) {
    tk_handle handle = TK_NONE, other = TK_NONE;
    tk_color color = {0};
    tk_settings settings;
    tk_fault fault;
    char text[4];
    uint8_t bytes[20];
    tk_width_range range;
    tk_taken taken;
    size_t number = 0, len = 0;
    for (int round = 0; round < 3; round++) {
        EXPECT(tk_surface_new(&handle, 3, 3, TK_WIDTHS_UNICODE, 1) == TK_DONE);
        EXPECT(tk_print(&handle, "x", 1) == TK_DONE);
        tk_free(&handle);
        tk_free(&handle);
        tk_free(NULL);
        EXPECT(tk_print(&handle, "x", 1) == TK_NO_HANDLE);
        EXPECT(tk_print(&handle, text, 0) == TK_NO_HANDLE);
        EXPECT(tk_clear_screen(&handle, &color) == TK_NO_HANDLE);
        EXPECT(tk_resize(&handle, 2, 2) == TK_NO_HANDLE);
        EXPECT(tk_screen_text(&handle, text, sizeof text, &len) == TK_NO_HANDLE);
        EXPECT(tk_respond(&handle, bytes, 0, bytes, sizeof bytes, &len) == TK_NO_HANDLE);
        EXPECT(tk_client_feed(&handle, bytes, 0, &len, &fault) == TK_NO_HANDLE);
        EXPECT(tk_client_keep(&handle, bytes, 0, &fault) == TK_NO_HANDLE);
        EXPECT(tk_client_take_answer(&handle, &taken, &fault) == TK_NO_HANDLE);
        EXPECT(tk_client_ask(&handle, bytes, sizeof bytes, &len) == TK_NO_HANDLE);
        EXPECT(tk_client_reset(&handle) == TK_NO_HANDLE);
        EXPECT(tk_number(&handle, &number) == TK_NO_HANDLE);
        EXPECT(tk_state(&handle, &settings) == TK_NO_HANDLE);
        EXPECT(tk_widths(&handle, bytes, &range, 1, &len) == TK_NO_HANDLE);
        EXPECT(tk_pen_link(&handle, text, sizeof text, &len) == TK_NO_HANDLE);
        EXPECT(tk_line_attribute(&handle, 0, bytes) == TK_NO_HANDLE);
        EXPECT(tk_viewer_new(&other, &handle) == TK_NO_HANDLE);
        EXPECT(tk_follow(&other, &handle) == TK_NO_HANDLE);
        EXPECT(tk_draw(&other, &handle, 0, 0) == TK_NO_HANDLE);
    }
    EXPECT(len == 0 && number == 0);
}

/* Mostly a place on the screen or near it, and at times any number. */
static size_t place(void) { return below(16) == 0 ? SIZE_MAX - below(3) : below(14); }

static bool is_changed(tk_status status) {
    return status == TK_DONE || status == TK_RANGE || status == TK_REGION;
}

static void random_print(tk_handle *surface) {
    static const char *const texts[] = {
        "a", "hello", "かな", "\r\n", "e\u0301", "😀", "\t", "", "👩‍👩‍👧"};
    const char *text = texts[below(sizeof texts / sizeof *texts)];
    EXPECT(tk_print(surface, text, strlen(text)) == TK_DONE);
}

static void random_pen(tk_handle *surface) {
    tk_color color = {(uint8_t)below(5), (uint8_t)below(256), 7, 9, (uint8_t)below(256)};
    tk_attributes pen = {.intensity = (uint8_t)below(4),
                         .underline = (uint8_t)below(7),
                         .italic = below(2),
                         .background = color};
    switch (below(6)) {
    case 0:
        EXPECT(is_changed(tk_set_pen(surface, &pen)));
        break;
    case 1:
        EXPECT(is_changed(tk_set_foreground(surface, &color)));
        break;
    case 2:
        EXPECT(is_changed(tk_set_blink(surface, (uint8_t)below(256))));
        break;
    case 3:
        EXPECT(tk_set_link(surface, "uri:a", 4 + below(2)) == TK_DONE);
        break;
    case 4:
        EXPECT(tk_clear_link(surface) == TK_DONE);
        break;
    default:
        EXPECT(tk_show_cursor(surface, below(2)) == TK_DONE);
    }
}

/* Cursor and pen are as before. */
static void draw_random_region(tk_handle *surface) {
    size_t x, y, column, row;
    tk_settings before, after;
    EXPECT(tk_cursor(surface, &x, &y) == TK_DONE && tk_state(surface, &before) == TK_DONE);
    EXPECT(tk_draw_region(surface, place(), place(), place(), place(), place(), place()) ==
           TK_DONE);
    EXPECT(tk_cursor(surface, &column, &row) == TK_DONE && column == x && row == y);
    EXPECT(tk_state(surface, &after) == TK_DONE && after.has_link == before.has_link);
    EXPECT(memcmp(&after.pen, &before.pen, sizeof after.pen) == 0);
}

static void random_change(tk_handle *surface, tk_handle *source) {
    tk_color color = {(uint8_t)below(5), 1, 2, 3, 4};
    switch (below(11)) {
    case 0:
        EXPECT(tk_move_to(surface, place(), place()) == TK_DONE);
        break;
    case 1:
        EXPECT(tk_move_by(surface, (ptrdiff_t)place() - 7, (ptrdiff_t)place() - 7) == TK_DONE);
        break;
    case 2:
        EXPECT(is_changed(tk_clear_to_end_of_line(surface, &color)));
        break;
    case 3:
        EXPECT(is_changed(below(4) == 0 ? tk_clear_screen(surface, &color)
                                        : tk_clear_to_end_of_screen(surface, &color)));
        break;
    case 4:
        EXPECT(is_changed(tk_scroll_up(surface, place(), place(), place())));
        break;
    case 5:
        EXPECT(is_changed(tk_scroll_down(surface, place(), place(), place())));
        break;
    case 6:
        EXPECT(tk_copy(surface, place(), place(), place(), place(), place(), place()) == TK_DONE);
        break;
    case 7:
        EXPECT(tk_draw(surface, source, place(), place()) == TK_DONE);
        EXPECT(tk_draw_from(surface, source, place(), place(), place(), place(), place(),
                            place()) == TK_DONE);
        break;
    case 8:
        draw_random_region(surface);
        break;
    case 9:
        random_pen(surface);
        break;
    default:
        random_print(surface);
    }
}

/* A row is kept, and a line read, drawn and compressed, where there are such ones. The oldest lines
 * go. */
static void keep_line(tk_handle *lines, tk_handle *surface) {
    tk_row_cell cells[32];
    tk_attributes attributes[32];
    tk_row_counts counts;
    char text[512];
    size_t before = 0, count = 0, row = place(), index = place(), many = place();
    EXPECT(tk_lines_count(lines, &before) == TK_DONE);
    tk_status kept = tk_lines_push_row(lines, surface, row);
    EXPECT(kept == TK_DONE || kept == TK_RANGE);
    EXPECT(tk_lines_count(lines, &count) == TK_DONE && count == before + (kept == TK_DONE));
    tk_status wanted = index < count ? TK_DONE : TK_RANGE;
    EXPECT(tk_line_cells(lines, index, cells, 32, attributes, 32, text, sizeof text, &counts) ==
           wanted);
    EXPECT(tk_draw_line(surface, row, lines, index) == wanted);
    EXPECT(tk_lines_compress(lines, index, many) ==
           (index <= count && many <= count - index ? TK_DONE : TK_RANGE));
    if (below(4) == 0)
        EXPECT(tk_lines_wrap(lines, place()) == TK_DONE);
    EXPECT(tk_lines_count(lines, &count) == TK_DONE);
    if (count > 12)
        EXPECT(tk_lines_remove(lines, 0, count - 6) == TK_DONE);
    EXPECT(tk_lines_remove(lines, 6, SIZE_MAX - below(6)) == TK_RANGE);
}

/* A handle that is given twice is refused, and has what it had. */
static void give_twice(tk_handle *handle) {
    tk_list_counts counts = {.changes = 7};
    tk_change change;
    char text;
    size_t column = place(), row = place();
    EXPECT(tk_draw(handle, handle, column, row) == TK_NO_HANDLE);
    EXPECT(tk_viewer_new(handle, handle) == TK_NO_HANDLE);
    EXPECT(tk_follow(handle, handle) == TK_NO_HANDLE);
    EXPECT(tk_lines_push_row(handle, handle, row) == TK_NO_HANDLE);
    EXPECT(tk_draw_line(handle, row, handle, column) == TK_NO_HANDLE);
    EXPECT(tk_add_changes_scrolling(handle, &change, 0, &text, 0, handle) == TK_NO_HANDLE);
    EXPECT(tk_add_unlogged_scrolling(handle, &change, 0, &text, 0, handle) == TK_NO_HANDLE);
    EXPECT(tk_diff_screens(handle, handle, &change, 1, &text, 1, &counts) == TK_NO_HANDLE);
    EXPECT(tk_diff_region(handle, column, row, 9, 9, handle, row, column, &change, 1, &text, 1,
                          &counts) == TK_NO_HANDLE);
    EXPECT(counts.changes == 7);
}

/* Two surfaces, of which a client and a viewer show now the one and now the other. */
static void random_calls(size_t rounds) {
    tk_handle surfaces[2] = {TK_NONE, TK_NONE}, client = TK_NONE, viewer = TK_NONE;
    tk_handle lines = TK_NONE;
    EXPECT(tk_surface_new(&surfaces[0], 11, 5, TK_WIDTHS_UNICODE, 1) == TK_DONE);
    EXPECT(tk_surface_new(&surfaces[1], 11, 5, TK_WIDTHS_UNICODE, SIZE_MAX) == TK_DONE);
    EXPECT(tk_client_new(&client, TK_WIDTHS_UNICODE, 100, 1 << 16) == TK_DONE);
    EXPECT(tk_viewer_new(&viewer, &surfaces[0]) == TK_DONE);
    EXPECT(tk_lines_new(&lines) == TK_DONE);
    for (size_t round = 0; round < rounds; round++) {
        tk_handle *surface = &surfaces[below(2)];
        random_change(surface, &viewer);
        if (below(8) == 0)
            deliver(&surfaces[below(8) == 0], &client);
        if (below(16) == 0) {
            EXPECT(tk_follow(&viewer, surface) == TK_DONE);
            give_twice(surface);
            give_twice(&viewer);
            EXPECT(same_screens(surface, &viewer));
            keep_line(&lines, surface);
        }
        if (below(32) == 0)
            EXPECT(is_changed(tk_resize(surface, below(13), below(9))));
    }
    tk_free(&lines);
    tk_free(&viewer);
    tk_free(&client);
    tk_free(&surfaces[0]);
    tk_free(&surfaces[1]);
}

int main(int count, char **words) {
    size_t rounds = count > 1 ? strtoul(words[1], NULL, 10) : 500000;
    tk_handle surface = TK_NONE, client = TK_NONE;
    EXPECT(tk_surface_new(&surface, 12, 3, TK_WIDTHS_UNICODE, 1000) == TK_DONE);
    EXPECT(tk_client_new(&client, TK_WIDTHS_UNICODE, 10000, 1 << 16) == TK_DONE);
    EXPECT(tk_set_link(&surface, "uri:b", 5) == TK_DONE);
    EXPECT(tk_print(&surface, "hello かな😀", 16) == TK_DONE);
    damaged_answers(&surface, &client, rounds < 256 ? rounds : 256);
    great_claims(&surface, &client);
    random_bytes(&surface, &client, rounds);
    freed_handles();
    random_calls(rounds);
    tk_free(&client);
    tk_free(&surface);
    printf("%ld calls\n", calls);
    return 0;
}
