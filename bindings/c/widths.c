/* Tables of widths: what makes one, how texts are measured by it, and that it can say what wcwidth
 * says; and that calls of two handles refuse those of different widths. It ends with `N checks`,
 * and with status 1 where any of them failed. */
#define _XOPEN_SOURCE 700
#include "checks.h"
#include "tikeburo.h"
#include <locale.h>
#include <stdint.h>
#include <stdio.h>
#include <stdlib.h>
#include <string.h>
#include <wchar.h>

static const tk_width_range RANGES[] = {
    {'a', 'z', 1}, {0x300, 0x36f, 0}, {0x2026, 0x2026, 2}, {0x1f1e6, 0x1f1ff, 1}};

static size_t width_by(const char *text, const tk_width_range *ranges, size_t count) {
    size_t columns = 99;
    tk_status status = tk_text_width_by(text, strlen(text), ranges, count, &columns);
    check(status == TK_DONE, text, __LINE__);
    return columns;
}

static size_t width(const char *text) { return width_by(text, RANGES, COUNT(RANGES)); }

static void test_texts(void) {
    size_t columns = 99;
    CHECK(width("") == 0 && width("abc A~") == 6);
    CHECK(width("\u2026") == 2 && width("e\u0301") == 1 && width("\u0301") == 0);
    CHECK(width("\U0001f1e9\U0001f1ea") == 2); /* the sum of 1 and 1 */
    CHECK(width("\U0001f1e9") == 1);
    CHECK(width("\u304b\u0301\u2026") == 4); /* a letter of no range, and its mark of one */
    CHECK(width("\u2602\ufe0f") == 2);       /* no range has a character of it */
    CHECK(width_by("\u2026\u304b", RANGES, 0) == 3);
    CHECK(tk_text_width_by("\xc3", 1, RANGES, COUNT(RANGES), &columns) == TK_UNREADABLE);
    CHECK(columns == 99);
}

/* Whether ranges are refused, by each call that takes them, and nothing has changed. */
static bool is_refused(const tk_width_range *ranges, size_t count) {
    tk_handle handle = made(2, 1);
    size_t columns = 99;
    bool refused = tk_text_width_by("x", 1, ranges, count, &columns) == TK_RANGE &&
                   tk_surface_new_by(&handle, 9, 9, ranges, count, 1) == TK_RANGE &&
                   tk_client_new_by(&handle, ranges, count, 99, 99) == TK_RANGE && columns == 99 &&
                   size_is(&handle, 2, 1);
    tk_free(&handle);
    return refused;
}

static void test_ranges(void) {
    const tk_width_range backwards = {'b', 'a', 1}, wide = {0x2026, 0x2026, 3};
    const tk_width_range space = {' ', ' ', 2}, letters = {0, 'a', 0}, last = {'~', 0x2026, 2};
    const tk_width_range past = {0x2026, 0x110000, 2}, all = {0, 0x10ffff, 1};
    const tk_width_range twice[] = {{0x300, 0x310, 0}, {0x310, 0x320, 1}};
    const tk_width_range falling[] = {{0x320, 0x330, 0}, {0x300, 0x310, 1}};
    const tk_width_range beside[] = {{0x7f, 0x7f, 0}, {0x80, 0x9f, 2}};
    CHECK(is_refused(&backwards, 1) && is_refused(&wide, 1) && is_refused(&past, 1));
    CHECK(is_refused(&space, 1) && is_refused(&letters, 1) && is_refused(&last, 1));
    CHECK(is_refused(twice, 2) && is_refused(falling, 2));
    CHECK(width_by("x", beside, 2) == 1 && width_by("\u304b", &all, 1) == 1);
}

static void test_surfaces(void) {
    tk_handle surface = TK_NONE, viewer = TK_NONE, client = TK_NONE, other = made_client();
    CHECK(tk_surface_new_by(&surface, 8, 1, RANGES, COUNT(RANGES), 1000) == TK_DONE);
    CHECK(tk_client_new_by(&client, RANGES, COUNT(RANGES), 99, 999) == TK_DONE);
    CHECK(tk_viewer_new(&viewer, &surface) == TK_DONE);
    CHECK(print(&surface, "a\u2026b") == TK_DONE && cursor_is(&surface, 4, 0));
    CHECK(tk_follow(&viewer, &surface) == TK_DONE && cursor_is(&viewer, 4, 0));
    bytes answer = answer_to(&surface, &client);
    CHECK(feed(&client, &answer) == TK_DONE && cursor_is(&client, 4, 0));
    answer = answer_to(&surface, &other);
    CHECK(feed(&other, &answer) == TK_UNREADABLE); /* it measures by Unicode */
    CHECK(tk_surface_new_by(&surface, 0, 1, RANGES, COUNT(RANGES), 1) == TK_RANGE);
    CHECK(tk_surface_new_by(&surface, 1, 1, RANGES, COUNT(RANGES), 0) == TK_RANGE);
    CHECK(tk_client_new_by(&client, RANGES, COUNT(RANGES), 99, 0) == TK_RANGE);
    CHECK(cursor_is(&surface, 4, 0) && cursor_is(&client, 4, 0));
    tk_free(&surface);
    tk_free(&viewer);
    tk_free(&client);
    tk_free(&other);
}

/* A choice of widths, with the ranges of a table. */
typedef struct choice {
    uint8_t kind;
    const tk_width_range *ranges;
    size_t count;
} choice;

static const tk_width_range EQUAL[] = {
    {'a', 'z', 1}, {0x300, 0x36f, 0}, {0x2026, 0x2026, 2}, {0x1f1e6, 0x1f1ff, 1}};
static const tk_width_range FIRST[] = {
    {'b', 'z', 1}, {0x300, 0x36f, 0}, {0x2026, 0x2026, 2}, {0x1f1e6, 0x1f1ff, 1}};
static const tk_width_range LAST[] = {
    {'a', 'z', 1}, {0x300, 0x36f, 0}, {0x2026, 0x2027, 2}, {0x1f1e6, 0x1f1ff, 1}};
static const tk_width_range COLUMNS[] = {
    {'a', 'z', 1}, {0x300, 0x36f, 0}, {0x2026, 0x2026, 2}, {0x1f1e6, 0x1f1ff, 2}};

/* The first two are the same, by the ranges, and all others differ. */
static const choice CHOICES[] = {{TK_WIDTHS_TABLE, RANGES, 4},     {TK_WIDTHS_TABLE, EQUAL, 4},
                                 {TK_WIDTHS_TABLE, FIRST, 4},      {TK_WIDTHS_TABLE, LAST, 4},
                                 {TK_WIDTHS_TABLE, COLUMNS, 4},    {TK_WIDTHS_TABLE, RANGES, 3},
                                 {TK_WIDTHS_TABLE, RANGES, 0},     {TK_WIDTHS_UNICODE, RANGES, 0},
                                 {TK_WIDTHS_ONE_COLUMN, RANGES, 0}};

static tk_handle made_by(choice widths, size_t width, size_t height) {
    static size_t source = 2000;
    tk_handle surface = TK_NONE;
    tk_status status =
        widths.kind == TK_WIDTHS_TABLE
            ? tk_surface_new_by(&surface, width, height, widths.ranges, widths.count, ++source)
            : tk_surface_new(&surface, width, height, widths.kind, ++source);
    check(status == TK_DONE, "made_by", __LINE__);
    return surface;
}

static tk_handle client_by(choice widths) {
    tk_handle client = TK_NONE;
    tk_status status = widths.kind == TK_WIDTHS_TABLE
                           ? tk_client_new_by(&client, widths.ranges, widths.count, 99, 999)
                           : tk_client_new(&client, widths.kind, 99, 999);
    check(status == TK_DONE, "client_by", __LINE__);
    return client;
}

/* Whether these are the widths of what the handle has, also where the room is just enough. */
static bool widths_are(tk_handle *handle, choice wanted) {
    tk_width_range ranges[5] = {{7, 7, 7}, {7, 7, 7}, {7, 7, 7}, {7, 7, 7}, {7, 7, 7}};
    uint8_t kind = 99;
    size_t count = 99;
    bool same = tk_widths(handle, &kind, ranges, wanted.count, &count) == TK_DONE &&
                kind == wanted.kind && count == wanted.count;
    for (size_t k = 0; k < COUNT(ranges); k++) {
        tk_width_range range = k < wanted.count ? wanted.ranges[k] : (tk_width_range){7, 7, 7};
        same = same && ranges[k].first == range.first && ranges[k].last == range.last &&
               ranges[k].columns == range.columns;
    }
    return same;
}

/* What a call says by which widths it measures, and by which a viewer of it does. */
static void test_reads(void) {
    for (size_t k = 0; k < COUNT(CHOICES); k++) {
        tk_handle surface = made_by(CHOICES[k], 4, 1), client = client_by(CHOICES[k]);
        tk_handle viewer = made(2, 2);
        CHECK(tk_viewer_new(&viewer, &surface) == TK_DONE);
        CHECK(widths_are(&surface, CHOICES[k]) && widths_are(&viewer, CHOICES[k]));
        CHECK(widths_are(&client, CHOICES[k]) && tk_resize(&surface, 2, 2) == TK_DONE);
        CHECK(tk_follow(&viewer, &surface) == TK_DONE && widths_are(&viewer, CHOICES[k]));
        tk_free(&surface);
        tk_free(&viewer);
        tk_free(&client);
    }
}

static void test_refused_reads(void) {
    tk_handle surface = made_by(CHOICES[0], 4, 1), lines = TK_NONE, none = TK_NONE;
    tk_width_range ranges[4] = {{7, 7, 7}, {7, 7, 7}, {7, 7, 7}, {7, 7, 7}};
    uint8_t kind = 99;
    size_t count = 99;
    CHECK(tk_lines_new(&lines) == TK_DONE);
    CHECK(tk_widths(&lines, &kind, ranges, 4, &count) == TK_WRONG_KIND && count == 99);
    CHECK(tk_widths(&none, &kind, ranges, 4, &count) == TK_NO_HANDLE && count == 99);
    CHECK(tk_widths(&surface, &kind, ranges, 3, &count) == TK_SHORT && count == 4);
    CHECK(tk_widths(&surface, &kind, ranges, 0, &count) == TK_SHORT && count == 4);
    CHECK(kind == 99 && ranges[0].columns == 7);
    tk_free(&surface);
    tk_free(&lines);
}

/* The calls that read two handles return this, and a refusal has changed nothing. */
static void check_diffs(tk_handle *one, tk_handle *other, tk_status wanted) {
    tk_list_counts counts = {99, 99, 99};
    tk_change list[16];
    char texts[64];
    CHECK(tk_diff_screens(one, other, list, 16, texts, 64, &counts) == wanted);
    CHECK((counts.changes == 99) == (wanted == TK_OTHER_WIDTHS));
    counts.changes = 99;
    CHECK(tk_diff_region(one, 0, 0, 2, 1, other, 1, 0, list, 16, texts, 64, &counts) == wanted);
    CHECK((counts.changes == 99) == (wanted == TK_OTHER_WIDTHS));
}

/* A surface or a viewer of the one takes, or refuses, what a handle of the other shows. */
static void check_source(choice widths, tk_handle *source, tk_status wanted) {
    tk_handle surface = made_by(widths, 4, 2), viewer = TK_NONE;
    bool takes = wanted == TK_DONE;
    size_t number = 0, after = 0;
    CHECK(print(&surface, "ABCDEFG") == TK_DONE && tk_viewer_new(&viewer, &surface) == TK_DONE);
    CHECK(tk_follow(&viewer, &surface) == TK_DONE && tk_number(&surface, &number) == TK_DONE);
    check_diffs(&surface, source, wanted);
    check_diffs(source, &surface, wanted);
    check_diffs(&viewer, source, wanted);
    CHECK(tk_draw(&surface, source, 1, 0) == wanted);
    CHECK(screen_is(&surface, takes ? "AWXY\nEFG\n" : "ABCD\nEFG\n") && cursor_is(&surface, 3, 1));
    CHECK(tk_number(&surface, &after) == TK_DONE && (after > number) == takes);
    CHECK(tk_follow(&viewer, source) == wanted);
    CHECK(screen_is(&viewer, takes ? "WXYZ\n" : "ABCD\nEFG\n") && widths_are(&viewer, widths));
    CHECK(tk_follow(&viewer, &surface) == TK_DONE);
    CHECK(screen_is(&viewer, takes ? "AWXY\nEFG\n" : "ABCD\nEFG\n"));
    tk_free(&surface);
    tk_free(&viewer);
}

/* Each two choices, both ways, where a surface, a viewer and a client are what is shown. */
static void test_two_handles(void) {
    for (size_t k = 0; k < COUNT(CHOICES); k++) {
        tk_handle source = made_by(CHOICES[k], 4, 1), viewer = TK_NONE;
        tk_handle client = client_by(CHOICES[k]);
        CHECK(print(&source, "WXYZ") == TK_DONE && tk_viewer_new(&viewer, &source) == TK_DONE);
        CHECK(tk_follow(&viewer, &source) == TK_DONE);
        bytes answer = answer_to(&source, &client);
        CHECK(feed(&client, &answer) == TK_DONE);
        for (size_t other = 0; other < COUNT(CHOICES); other++) {
            tk_status wanted = k == other || k + other == 1 ? TK_DONE : TK_OTHER_WIDTHS;
            check_source(CHOICES[other], &source, wanted);
            check_source(CHOICES[other], &viewer, wanted);
            check_source(CHOICES[other], &client, wanted);
        }
        tk_free(&source);
        tk_free(&viewer);
        tk_free(&client);
    }
}

/* Graphemes of one column each would go on in the next row of a surface that gives them two. The
 * other refusals come first. */
static void test_narrow_source(void) {
    tk_handle surface = made(4, 2), narrow = TK_NONE, viewer = TK_NONE, lines = TK_NONE;
    tk_handle none = TK_NONE;
    CHECK(tk_surface_new(&narrow, 4, 1, TK_WIDTHS_ONE_COLUMN, 3000) == TK_DONE);
    CHECK(print(&narrow, "かきくけ") == TK_DONE && print(&surface, "ab\r\ncd") == TK_DONE);
    CHECK(tk_draw(&surface, &narrow, 0, 0) == TK_OTHER_WIDTHS && screen_is(&surface, "ab\ncd\n"));
    CHECK(tk_draw(&narrow, &surface, 0, 0) == TK_OTHER_WIDTHS && screen_is(&narrow, "かきくけ\n"));
    CHECK(tk_viewer_new(&viewer, &narrow) == TK_DONE && tk_lines_new(&lines) == TK_DONE);
    CHECK(tk_draw(&viewer, &surface, 0, 0) == TK_WRONG_KIND);
    CHECK(tk_draw(&none, &narrow, 0, 0) == TK_NO_HANDLE);
    CHECK(tk_draw(&surface, &lines, 0, 0) == TK_WRONG_KIND);
    CHECK(tk_lines_push_row(&lines, &narrow, 0) == TK_DONE);
    CHECK(tk_lines_push_row(&lines, &surface, 1) == TK_DONE);
    CHECK(tk_draw_line(&surface, 0, &lines, 0) == TK_OTHER_WIDTHS);
    CHECK(screen_is(&surface, "ab\ncd\n"));
    CHECK(tk_draw_line(&narrow, 0, &lines, 1) == TK_DONE && screen_is(&narrow, "cd\n"));
    CHECK(tk_follow(&narrow, &surface) == TK_WRONG_KIND);
    tk_free(&surface);
    tk_free(&narrow);
    tk_free(&viewer);
    tk_free(&lines);
}

/* The table of what wcwidth says of each character, and the number of its ranges. */
static tk_width_range of_system[8192];

static size_t read_system(void) {
    size_t count = 0;
    for (uint32_t c = 0; c <= 0x10ffff && count < COUNT(of_system); c++) {
        int columns = c < 0xd800 || c > 0xdfff ? wcwidth((wchar_t)c) : -1;
        tk_width_range *range = &of_system[count];
        if (columns < 0)
            continue;
        if (count > 0 && range[-1].last + 1 == c && range[-1].columns == columns)
            range[-1].last = c;
        else
            of_system[count++] = (tk_width_range){c, c, (uint8_t)columns};
    }
    return count;
}

/* A grapheme has the columns of its characters together, up to 2. */
static void check_against_system(const char *grapheme, size_t count) {
    wchar_t characters[16];
    size_t length = mbstowcs(characters, grapheme, COUNT(characters));
    int columns = wcswidth(characters, length);
    check(columns >= 0, grapheme, __LINE__);
    check(width_by(grapheme, of_system, count) == (size_t)(columns < 2 ? columns : 2), grapheme,
          __LINE__);
}

static void test_system(void) {
    const char *const graphemes[] = {
        "a", "e\u0301", "\u304b\u3099", "\U0001f1e9\U0001f1ea", "\U0001f468\u200d\U0001f680",
        "\u2602\ufe0f", "1\ufe0f\u20e3", "\u0915\u094d\u0937", "\u1112\u1161\u11ab"};
    if (setlocale(LC_CTYPE, "C.UTF-8") == NULL || sizeof(wchar_t) < 4)
        return;
    size_t count = read_system();
    for (size_t i = 0; i < COUNT(graphemes); i++)
        check_against_system(graphemes[i], count);
}

int main(void) {
    test_texts();
    test_ranges();
    test_surfaces();
    test_reads();
    test_refused_reads();
    test_two_handles();
    test_narrow_source();
    test_system();
    printf("%d checks\n", checks);
    return failures != 0;
}
