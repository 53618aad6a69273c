/* Lists of lines: rows that are kept, read, compressed, wrapped and drawn. It ends with `N checks`,
 * and with status 1 where any of them failed.
 *
 *     lines kept
 *
 * keeps what scrolls off a surface and prints it instead. It ends with status 0, with 3 where
 * memory was refused, and with 1 after any other error. */
#include "checks.h"
#include "tikeburo.h"
#include <stdint.h>
#include <stdio.h>
#include <string.h>

static tk_status read_line(tk_handle *lines, size_t index, row *read) {
    return tk_line_cells(lines, index, read->cells, COUNT(read->cells), read->attributes,
                         COUNT(read->attributes), read->text, sizeof read->text, &read->counts);
}

static tk_handle made_lines(void) {
    tk_handle lines = TK_NONE;
    check(tk_lines_new(&lines) == TK_DONE, "tk_lines_new", __LINE__);
    return lines;
}

static bool count_is(tk_handle *lines, size_t wanted) {
    size_t count = 99;
    return tk_lines_count(lines, &count) == TK_DONE && count == wanted;
}

static bool line_is(tk_handle *lines, size_t index, const char *wanted) {
    row read;
    tk_status status = read_line(lines, index, &read);
    return is(status, read.text, status == TK_DONE ? trim(read.text, read.counts.text) : 0, wanted);
}

/* The line has the row's very cells, pens and texts. */
static bool line_is_row(tk_handle *lines, size_t index, tk_handle *surface, size_t number) {
    row one, other;
    memset(&one, 0, sizeof one);
    memset(&other, 0, sizeof other);
    tk_status status = read_line(lines, index, &one);
    return status == TK_DONE && read_row(surface, number, &other) == TK_DONE &&
           memcmp(&one, &other, sizeof one) == 0;
}

/* A surface whose rows have pens, links and wide cells. */
static tk_handle made_rows(void) {
    tk_handle surface = made(8, 3);
    const tk_change list[] = {
        {.kind = TK_CHANGE_TEXT, .first = 1},
        {.kind = TK_CHANGE_REVERSE, .attributes.reverse = true},
        {.kind = TK_CHANGE_TEXT, .first = 4},
        {.kind = TK_CHANGE_LINK, .first = 1},
        {.kind = TK_CHANGE_TEXT, .first = 1},
        {.kind = TK_CHANGE_NO_LINK},
        {.kind = TK_CHANGE_TEXT, .first = 10},
    };
    const char *texts = "aかbucd\r\none two";
    CHECK(tk_add_changes(&surface, list, COUNT(list), texts, strlen(texts)) == TK_DONE);
    return surface;
}

static void test_kept_rows(void) {
    tk_handle surface = made_rows(), lines = made_lines(), none = TK_NONE;
    CHECK(count_is(&lines, 0));
    for (size_t row = 0; row < 3; row++) {
        CHECK(tk_lines_push_row(&lines, &surface, row) == TK_DONE && count_is(&lines, row + 1));
        CHECK(line_is_row(&lines, row, &surface, row));
    }
    CHECK(tk_lines_push_row(&lines, &surface, 3) == TK_RANGE && count_is(&lines, 3));
    CHECK(tk_lines_push_row(&lines, &none, 0) == TK_NO_HANDLE && count_is(&lines, 3));
    CHECK(tk_lines_push_row(&none, &surface, 0) == TK_NO_HANDLE);
    /* What the surface shows later changes no line. */
    CHECK(tk_move_to(&surface, 0, 0) == TK_DONE && print(&surface, "other") == TK_DONE);
    CHECK(!line_is_row(&lines, 0, &surface, 0) && line_is(&lines, 0, "aかbcd"));
    tk_free(&surface);
    CHECK(line_is(&lines, 0, "aかbcd") && line_is(&lines, 1, "one two") && line_is(&lines, 2, ""));
    tk_free(&lines);
    CHECK(tk_lines_new(&lines) == TK_DONE && count_is(&lines, 0));
    CHECK(tk_lines_new(&lines) == TK_DONE && count_is(&lines, 0));
    tk_free(&lines);
}

/* Rows of what viewers and clients show. */
static void test_shown_rows(void) {
    tk_handle surface = made_rows(), viewer = TK_NONE, client = made_client();
    tk_handle lines = made_lines();
    bytes answer = answer_to(&surface, &client);
    CHECK(tk_viewer_new(&viewer, &surface) == TK_DONE);
    CHECK(tk_follow(&viewer, &surface) == TK_DONE && feed(&client, &answer) == TK_DONE);
    CHECK(tk_lines_push_row(&lines, &viewer, 0) == TK_DONE);
    CHECK(tk_lines_push_row(&lines, &client, 1) == TK_DONE);
    CHECK(line_is_row(&lines, 0, &viewer, 0) && line_is_row(&lines, 1, &client, 1));
    tk_free(&surface);
    tk_free(&viewer);
    tk_free(&client);
    tk_free(&lines);
}

/* Where one array is too short, the counts alone are written. */
static void test_short_lines(void) {
    tk_handle surface = made_rows(), lines = made_lines();
    CHECK(tk_lines_push_row(&lines, &surface, 0) == TK_DONE);
    for (int compressed = 0; compressed < 2; compressed++) {
        row read;
        CHECK(read_line(&lines, 0, &read) == TK_DONE);
        tk_row_counts needed = read.counts;
        for (int which = 0; which < 3; which++) {
            size_t rooms[] = {needed.cells, needed.attributes, needed.text};
            row kept;
            memset(&read, 0xee, sizeof read);
            memcpy(&kept, &read, sizeof kept);
            rooms[which]--;
            CHECK(tk_line_cells(&lines, 0, read.cells, rooms[0], read.attributes, rooms[1],
                                read.text, rooms[2], &read.counts) == TK_SHORT);
            CHECK(memcmp(&read.counts, &needed, sizeof needed) == 0);
            read.counts = kept.counts;
            CHECK(memcmp(&read, &kept, sizeof read) == 0);
        }
        read.counts.cells = 99;
        CHECK(read_line(&lines, 1, &read) == TK_RANGE && read.counts.cells == 99);
        CHECK(tk_lines_compress(&lines, 0, 1) == TK_DONE);
    }
    tk_free(&surface);
    tk_free(&lines);
}

/* Lines show the same once they are compressed, also where they are copied, drawn and wrapped. */
static void test_compressed(void) {
    tk_handle surface = made_rows(), lines = made_lines();
    for (size_t row = 0; row < 3; row++)
        CHECK(tk_lines_push_row(&lines, &surface, row) == TK_DONE);
    CHECK(tk_lines_compress(&lines, 1, 3) == TK_RANGE &&
          tk_lines_compress(&lines, 4, 0) == TK_RANGE);
    CHECK(tk_lines_compress(&lines, 1, SIZE_MAX) == TK_RANGE);
    CHECK(tk_lines_compress(&lines, SIZE_MAX, 2) == TK_RANGE);
    CHECK(tk_lines_compress(&lines, 3, 0) == TK_DONE && tk_lines_compress(&lines, 0, 2) == TK_DONE);
    CHECK(tk_lines_compress(&lines, 0, 3) == TK_DONE && count_is(&lines, 3));
    for (size_t row = 0; row < 3; row++)
        CHECK(line_is_row(&lines, row, &surface, row));
    tk_free(&surface);
    tk_free(&lines);
}

static void test_removed(void) {
    tk_handle surface = made(4, 4), lines = made_lines();
    CHECK(print(&surface, "a\r\nb\r\nc\r\nd") == TK_DONE);
    for (size_t row = 0; row < 4; row++)
        CHECK(tk_lines_push_row(&lines, &surface, row) == TK_DONE);
    CHECK(tk_lines_remove(&lines, 0, 5) == TK_RANGE && tk_lines_remove(&lines, 5, 0) == TK_RANGE);
    CHECK(tk_lines_remove(&lines, 2, SIZE_MAX) == TK_RANGE);
    CHECK(tk_lines_remove(&lines, SIZE_MAX, 2) == TK_RANGE && count_is(&lines, 4));
    CHECK(tk_lines_remove(&lines, 4, 0) == TK_DONE && count_is(&lines, 4));
    CHECK(tk_lines_remove(&lines, 0, 1) == TK_DONE && count_is(&lines, 3));
    CHECK(line_is(&lines, 0, "b") && line_is(&lines, 1, "c") && line_is(&lines, 2, "d"));
    CHECK(tk_lines_remove(&lines, 1, 1) == TK_DONE && count_is(&lines, 2));
    CHECK(line_is(&lines, 0, "b") && line_is(&lines, 1, "d"));
    CHECK(tk_lines_remove(&lines, 0, 2) == TK_DONE && count_is(&lines, 0));
    tk_free(&surface);
    tk_free(&lines);
}

/* The attributes of a line's last cell. */
static tk_attributes last_of(tk_handle *lines, size_t index) {
    row read;
    CHECK(read_line(lines, index, &read) == TK_DONE && read.counts.cells > 0);
    return read.attributes[read.cells[read.counts.cells - 1].run];
}

static void test_wrapped(void) {
    tk_handle surface = made(8, 4), lines = made_lines();
    CHECK(print(&surface, "aかb \r\n\r\nabcdef") == TK_DONE);
    for (size_t row = 0; row < 3; row++)
        CHECK(tk_lines_push_row(&lines, &surface, row) == TK_DONE);
    CHECK(tk_lines_compress(&lines, 0, 2) == TK_DONE);
    CHECK(tk_lines_wrap(&lines, 2) == TK_DONE && count_is(&lines, 7));
    const char *const wanted[] = {"a", "か", "b", "", "ab", "cd", "ef"};
    for (size_t k = 0; k < COUNT(wanted); k++) {
        CHECK(line_is(&lines, k, wanted[k]));
        if (k != 3)
            CHECK(last_of(&lines, k).wrapped == (k == 0 || k == 1 || k == 4 || k == 5));
    }
    /* A line has at least one cell. */
    CHECK(tk_lines_wrap(&lines, 0) == TK_DONE && count_is(&lines, 10));
    CHECK(line_is(&lines, 1, "か") && line_is(&lines, 4, "a") && line_is(&lines, 9, "f"));
    CHECK(tk_lines_wrap(&lines, SIZE_MAX) == TK_DONE && count_is(&lines, 10));
    tk_free(&surface);
    tk_free(&lines);
}

/* A line is drawn on a row, and the surface's viewer gets it as changes. */
static void test_drawn(void) {
    tk_handle source = made_rows(), surface = made(6, 2), viewer = TK_NONE;
    tk_handle lines = made_lines();
    tk_attributes bold = TK_DEFAULT_ATTRIBUTES;
    tk_settings settings;
    bold.intensity = TK_INTENSITY_BOLD;
    CHECK(tk_lines_push_row(&lines, &source, 0) == TK_DONE);
    CHECK(tk_lines_push_row(&lines, &source, 1) == TK_DONE);
    CHECK(tk_lines_compress(&lines, 1, 1) == TK_DONE);
    CHECK(tk_set_pen(&surface, &bold) == TK_DONE && print(&surface, "xyz") == TK_DONE);
    CHECK(tk_viewer_new(&viewer, &surface) == TK_DONE && tk_follow(&viewer, &surface) == TK_DONE);
    CHECK(tk_draw_line(&surface, 1, &lines, 0) == TK_DONE);
    CHECK(row_is(&surface, 0, "xyz") && row_is(&surface, 1, "aかbcd"));
    CHECK(cursor_is(&surface, 3, 0) && tk_state(&surface, &settings) == TK_DONE);
    CHECK(memcmp(&settings.pen, &bold, sizeof bold) == 0 && !settings.has_link);
    CHECK(link_is(&surface, 4, 1, "u") && cell_at(&surface, 3, 1, "b").attributes.reverse);
    /* It is cut to the surface's width, and blanks stand where it ends. */
    CHECK(tk_draw_line(&surface, 1, &lines, 1) == TK_DONE && row_is(&surface, 1, "one tw"));
    CHECK(tk_draw_line(&surface, 0, &lines, 1) == TK_DONE && row_is(&surface, 0, "one tw"));
    size_t before = 0;
    CHECK(tk_number(&surface, &before) == TK_DONE);
    CHECK(tk_draw_line(&surface, 2, &lines, 1) == TK_DONE && number_is(&surface, before));
    CHECK(tk_draw_line(&surface, 0, &lines, 2) == TK_RANGE && number_is(&surface, before));
    CHECK(tk_follow(&viewer, &surface) == TK_DONE && screen_is(&viewer, "one tw\none tw\n"));
    tk_free(&source);
    tk_free(&surface);
    tk_free(&viewer);
    tk_free(&lines);
}

/* Lines show no surface, and nothing else has lines. */
static void test_kinds(void) {
    tk_handle surface = made_rows(), viewer = TK_NONE, client = made_client();
    tk_handle lines = made_lines(), none = TK_NONE;
    tk_handle *const others[] = {&surface, &viewer, &client};
    tk_settings settings;
    tk_list_counts counts;
    tk_change change;
    row read;
    char text[8];
    uint8_t ask[20];
    size_t number = 77, other = 77, len = 77;
    CHECK(tk_viewer_new(&viewer, &surface) == TK_DONE);
    for (size_t k = 0; k < COUNT(others); k++) {
        CHECK(tk_lines_count(others[k], &number) == TK_WRONG_KIND && number == 77);
        CHECK(tk_lines_remove(others[k], 0, 0) == TK_WRONG_KIND);
        CHECK(tk_lines_push_row(others[k], &surface, 0) == (k == 0 ? TK_NO_HANDLE : TK_WRONG_KIND));
        CHECK(read_line(others[k], 0, &read) == TK_WRONG_KIND);
        CHECK(tk_lines_compress(others[k], 0, 0) == TK_WRONG_KIND);
        CHECK(tk_lines_wrap(others[k], 4) == TK_WRONG_KIND);
    }
    CHECK(tk_draw_line(&surface, 0, &viewer, 0) == TK_WRONG_KIND);
    CHECK(tk_draw_line(&viewer, 0, &lines, 0) == TK_WRONG_KIND);
    CHECK(tk_draw_line(&surface, 0, &none, 0) == TK_NO_HANDLE);
    CHECK(tk_draw_line(&none, 0, &lines, 0) == TK_NO_HANDLE);
    CHECK(tk_lines_count(&none, &number) == TK_NO_HANDLE && number == 77);
    CHECK(tk_lines_remove(&none, 0, 0) == TK_NO_HANDLE && tk_lines_wrap(&none, 1) == TK_NO_HANDLE);
    CHECK(tk_lines_compress(&none, 0, 0) == TK_NO_HANDLE);
    CHECK(read_line(&none, 0, &read) == TK_NO_HANDLE);
    CHECK(print(&lines, "x") == TK_WRONG_KIND && tk_resize(&lines, 2, 2) == TK_WRONG_KIND);
    CHECK(tk_size(&lines, &number, &other) == TK_WRONG_KIND && number == 77 && other == 77);
    CHECK(tk_title(&lines, text, sizeof text, &len) == TK_WRONG_KIND && len == 77);
    CHECK(tk_row_text(&lines, 0, false, text, sizeof text, &len) == TK_WRONG_KIND && len == 77);
    CHECK(tk_state(&lines, &settings) == TK_WRONG_KIND);
    CHECK(read_row(&lines, 0, &read) == TK_WRONG_KIND);
    CHECK(tk_get_changes(&lines, 0, &change, 0, text, 0, &counts) == TK_WRONG_KIND);
    CHECK(tk_diff_screens(&lines, &surface, &change, 0, text, 0, &counts) == TK_WRONG_KIND);
    CHECK(tk_diff_screens(&surface, &lines, &change, 0, text, 0, &counts) == TK_WRONG_KIND);
    CHECK(tk_draw(&surface, &lines, 0, 0) == TK_WRONG_KIND);
    CHECK(tk_lines_push_row(&none, &lines, 0) == TK_WRONG_KIND);
    CHECK(tk_viewer_new(&none, &lines) == TK_WRONG_KIND && !none.is_live);
    CHECK(tk_follow(&viewer, &lines) == TK_WRONG_KIND);
    CHECK(tk_client_reset(&lines) == TK_WRONG_KIND);
    CHECK(tk_client_ask(&lines, ask, sizeof ask, &len) == TK_WRONG_KIND && len == 77);
    CHECK(count_is(&lines, 0) && row_is(&surface, 1, "one two"));
    tk_free(&surface);
    tk_free(&viewer);
    tk_free(&client);
    tk_free(&lines);
}

/* A call that makes a list of changes, and moves the rows that it scrolls off to lines. */
typedef tk_status (*scrolling)(tk_handle *surface, const tk_change *changes, size_t count,
                               const char *texts, size_t len, tk_handle *lines);
static const scrolling SCROLLINGS[] = {tk_add_changes_scrolling, tk_add_unlogged_scrolling};

/* The rows come after the old lines, in the order in which they leave, and viewers go on. */
static void test_scrolled_off(scrolling add) {
    static const char texts[] = "xか\r\none\r\ntwo\r\nthree\r\nfourend";
    const tk_change list[] = {
        {.kind = TK_CHANGE_TEXT, .first = 3 + 1},
        {.kind = TK_CHANGE_TEXT, .first = 23},
        {.kind = TK_CHANGE_SCROLL_UP, .first = 1, .second = 2, .third = 1}, /* not from row 0 on */
        {.kind = TK_CHANGE_SCROLL_UP, .first = 0, .second = 2, .third = 7},
        {.kind = TK_CHANGE_SCROLL_DOWN, .first = 0, .second = 3, .third = 1},
        {.kind = TK_CHANGE_TEXT, .first = 3},
    };
    tk_handle surface = made(8, 3), twin = made_rows(), lines = made_lines(), viewer = TK_NONE;
    CHECK(tk_viewer_new(&viewer, &surface) == TK_DONE);
    CHECK(tk_lines_push_row(&lines, &surface, 0) == TK_DONE);
    CHECK(add(&surface, list, COUNT(list), texts, strlen(texts), &lines) == TK_DONE);
    CHECK(number_is(&surface, COUNT(list)) && count_is(&lines, 5));
    static const char *const wanted[] = {"", "xか", "one", "two", "four"};
    for (size_t k = 0; k < COUNT(wanted); k++)
        CHECK(line_is(&lines, k, wanted[k]));
    CHECK(screen_is(&surface, "\n\n    end\n"));
    CHECK(tk_follow(&viewer, &surface) == TK_DONE && screen_is(&viewer, "\n\n    end\n"));
    /* Lines have pens, links and wide cells, and a list that scrolls nothing adds none. */
    const tk_change scroll = {.kind = TK_CHANGE_SCROLL_UP, .second = 3, .third = 2};
    const tk_change title = {.kind = TK_CHANGE_TITLE, .first = 1};
    tk_free(&surface);
    surface = made_rows();
    CHECK(add(&surface, &scroll, 1, "", 0, &lines) == TK_DONE && count_is(&lines, 7));
    CHECK(line_is_row(&lines, 5, &twin, 0) && line_is_row(&lines, 6, &twin, 1));
    CHECK(add(&surface, &title, 1, "t", 1, &lines) == TK_DONE && count_is(&lines, 7));
    CHECK(add(&surface, NULL, 0, NULL, 0, &lines) == TK_DONE && count_is(&lines, 7));
    tk_free(&surface);
    tk_free(&twin);
    tk_free(&viewer);
    tk_free(&lines);
}

/* Rows that take the memory of removed lines are blank, whatever those had, and as wide as the
 * surface. */
static void test_full_scrollback(scrolling add) {
    static const char texts[] = "\r\nか x\r\n";
    const tk_change list[] = {{.kind = TK_CHANGE_TEXT, .first = 9}};
    const tk_change up[] = {{.kind = TK_CHANGE_SCROLL_UP, .second = 2, .third = 2}};
    tk_handle surface = made_rows(), other = made(5, 2), lines = made_lines();
    for (size_t turn = 0; turn < 12; turn++) {
        tk_handle *screen = turn % 3 < 2 ? &surface : &other;
        size_t before, count;
        CHECK(tk_lines_count(&lines, &before) == TK_DONE);
        if (turn % 4 == 3)
            CHECK(tk_lines_compress(&lines, 0, before / 2) == TK_DONE);
        CHECK(add(screen, list, 1, texts, 9, &lines) == TK_DONE);
        CHECK(add(screen, up, 1, "", 0, &lines) == TK_DONE);
        CHECK(row_is(screen, 0, "") && row_is(screen, 1, ""));
        CHECK(tk_lines_count(&lines, &count) == TK_DONE && count >= before + 2);
        CHECK(tk_lines_remove(&lines, 0, count > 3 ? count - 3 : 0) == TK_DONE);
        CHECK(count_is(&lines, count > 3 ? 3 : count));
    }
    CHECK(line_is(&lines, 1, "か x"));
    CHECK(tk_lines_remove(&lines, 0, 3) == TK_DONE && count_is(&lines, 0));
    CHECK(add(&other, up, 1, "", 0, &lines) == TK_DONE && count_is(&lines, 2));
    CHECK(line_is(&lines, 0, "") && line_is(&lines, 1, ""));
    tk_free(&surface);
    tk_free(&other);
    tk_free(&lines);
}

/* After an error no line is added, and the surface shows what it did. */
static void test_nothing_scrolls_off(scrolling add) {
    const tk_change list[] = {
        {.kind = TK_CHANGE_TEXT, .first = 8},
        {.kind = TK_CHANGE_SCROLL_UP, .first = 0, .second = 4, .third = 1},
        {.kind = 99},
    };
    const char *texts = "\r\n\r\n\r\n\r\n";
    tk_handle surface = made_rows(), lines = made_lines(), viewer = TK_NONE, none = TK_NONE;
    tk_handle client = made_client();
    CHECK(tk_viewer_new(&viewer, &surface) == TK_DONE);
    CHECK(add(&surface, list, 2, texts, 8, &lines) == TK_REGION);
    CHECK(add(&surface, list, 3, texts, 8, &lines) == TK_RANGE);
    CHECK(add(&surface, list, 1, texts, 7, &lines) == TK_RANGE);
    CHECK(add(&surface, list, 1, "\n\n\n\n\n\n\n\xff", 8, &lines) == TK_UNREADABLE);
    CHECK(add(&none, list, 1, texts, 8, &lines) == TK_NO_HANDLE);
    CHECK(add(&surface, list, 1, texts, 8, &none) == TK_NO_HANDLE);
    CHECK(add(&surface, list, 1, texts, 8, &surface) == TK_NO_HANDLE);
    CHECK(add(&lines, list, 1, texts, 8, &lines) == TK_NO_HANDLE);
    tk_handle *const others[] = {&viewer, &client};
    for (size_t k = 0; k < COUNT(others); k++) {
        CHECK(add(others[k], list, 1, texts, 8, &lines) == TK_WRONG_KIND);
        CHECK(add(&surface, list, 1, texts, 8, others[k]) == TK_WRONG_KIND);
    }
    CHECK(add(&lines, list, 1, texts, 8, &surface) == TK_WRONG_KIND);
    CHECK(count_is(&lines, 0) && number_is(&surface, 7) && row_is(&surface, 1, "one two"));
    tk_free(&surface);
    tk_free(&viewer);
    tk_free(&client);
    tk_free(&lines);
}

/* Ends with the status that `lines kept` has for this error. */
static int failed(tk_status status) {
    fprintf(stderr, "%s\n", status == TK_MEMORY ? "out of memory" : tk_strerror(status));
    return status == TK_MEMORY ? 3 : 1;
}

/* Keeps the rows that texts scroll off, and the last one, and makes a surface to show them on. */
static tk_status keep(tk_handle *surface, tk_handle *lines, tk_handle *view) {
    static const char *const texts[] = {"one か", " and a text that is longer\r\n", "three\r\n"};
    tk_status status = tk_surface_new(surface, 12, 2, TK_WIDTHS_UNICODE, 1);
    if (status == TK_DONE)
        status = tk_lines_new(lines);
    for (size_t k = 0; status == TK_DONE && k < COUNT(texts); k++) {
        const tk_change text = {.kind = TK_CHANGE_TEXT, .first = strlen(texts[k])};
        status = SCROLLINGS[k % 2](surface, &text, 1, texts[k], text.first, lines);
    }
    if (status == TK_DONE)
        status = tk_lines_push_row(lines, surface, 0);
    if (status == TK_DONE)
        status = tk_lines_compress(lines, 0, 2);
    if (status == TK_DONE)
        status = tk_lines_wrap(lines, 5);
    if (status == TK_DONE)
        status = tk_surface_new(view, 6, 8, TK_WIDTHS_UNICODE, 2);
    return status;
}

static int print_kept(void) {
    tk_handle surface = TK_NONE, lines = TK_NONE, view = TK_NONE;
    char text[128];
    size_t count = 0, len = 0;
    tk_status status = keep(&surface, &lines, &view);
    if (status == TK_DONE)
        status = tk_lines_count(&lines, &count);
    for (size_t k = 0; status == TK_DONE && k < count; k++)
        status = tk_draw_line(&view, k, &lines, k);
    if (status == TK_DONE)
        status = tk_screen_text(&view, text, sizeof text, &len);
    if (status == TK_DONE)
        printf("%.*s", (int)len, text);
    tk_free(&surface);
    tk_free(&lines);
    tk_free(&view);
    return status == TK_DONE ? 0 : failed(status);
}

int main(int count, char **words) {
    if (count > 1 && strcmp(words[1], "kept") == 0)
        return print_kept();
    test_kept_rows();
    test_shown_rows();
    test_short_lines();
    test_compressed();
    test_removed();
    test_wrapped();
    test_drawn();
    test_kinds();
    for (size_t k = 0; k < COUNT(SCROLLINGS); k++) {
        test_scrolled_off(SCROLLINGS[k]);
        test_full_scrollback(SCROLLINGS[k]);
        test_nothing_scrolls_off(SCROLLINGS[k]);
    }
    printf("%d checks\n", checks);
    return failures != 0;
}
