/* What is set beside the rows, and how texts are cut and measured: what each call sets or reads,
 * and each of its errors. It ends with `N checks`, and with status 1 where any of them failed. */
#include "checks.h"
#include "tikeburo.h"
#include <stdint.h>
#include <stdio.h>
#include <string.h>

static const tk_color ORANGE = {.kind = TK_COLOR_TRUE, .red = 255, .green = 128};
static const tk_color NO_SUCH_COLOR = {.kind = 4};

/* The settings of a handle. Each byte of them is written. */
static tk_settings state_of(tk_handle *handle) {
    tk_settings state;
    memset(&state, 0xee, sizeof state);
    check(tk_state(handle, &state) == TK_DONE, "tk_state", __LINE__);
    return state;
}

static bool has_pen(const tk_settings *state, tk_attributes pen) {
    return memcmp(&state->pen, &pen, sizeof pen) == 0;
}

static bool pen_link_is(tk_handle *handle, const char *wanted) {
    char uri[64];
    size_t len = 0;
    tk_status status = tk_pen_link(handle, uri, sizeof uri, &len);
    return is(status, uri, len, wanted) && state_of(handle).has_link == (*wanted != 0);
}

static uint8_t line_of(tk_handle *handle, size_t row) {
    uint8_t attribute = 99;
    check(tk_line_attribute(handle, row, &attribute) == TK_DONE, "tk_line_attribute", __LINE__);
    return attribute;
}

static void test_setters(void) {
    tk_handle surface = made(4, 2), none = TK_NONE;
    char text[4];
    size_t len = 99;
    CHECK(tk_set_title(&surface, "notes", 5) == TK_DONE && title_is(&surface, "notes"));
    CHECK(tk_title(&surface, text, sizeof text, &len) == TK_SHORT && len == 5);
    CHECK(tk_set_title(&surface, "\xc3", 1) == TK_UNREADABLE && title_is(&surface, "notes"));
    CHECK(tk_set_title(&surface, "", 0) == TK_DONE && title_is(&surface, ""));
    CHECK(tk_set_title(&none, "x", 1) == TK_NO_HANDLE);
    CHECK(tk_show_cursor(&surface, false) == TK_DONE && is_visible(&surface, false));
    CHECK(tk_show_cursor(&surface, true) == TK_DONE && is_visible(&surface, true));
    CHECK(tk_show_cursor(&none, true) == TK_NO_HANDLE);
    CHECK(tk_set_cursor_shape(&surface, TK_CURSOR_STEADY_BAR) == TK_DONE);
    CHECK(tk_set_cursor_shape(&surface, 7) == TK_RANGE);
    CHECK(tk_set_cursor_shape(&none, 0) == TK_NO_HANDLE);
    CHECK(tk_set_cursor_color(&surface, &ORANGE) == TK_DONE);
    CHECK(tk_set_cursor_color(&surface, &NO_SUCH_COLOR) == TK_RANGE);
    CHECK(tk_set_cursor_color(&none, &ORANGE) == TK_NO_HANDLE);
    CHECK(tk_set_line_attribute(&surface, TK_LINE_DOUBLE_WIDTH) == TK_DONE);
    CHECK(tk_set_line_attribute(&surface, 4) == TK_RANGE);
    CHECK(tk_set_line_attribute(&none, 3) == TK_NO_HANDLE);
    CHECK(number_is(&surface, 7));
    tk_free(&surface);
}

static void test_blank(void) {
    tk_handle surface = made(4, 2), none = TK_NONE;
    tk_settings state = state_of(&surface), untouched = {.source = 7, .has_link = true};
    CHECK(state.source > 0 && state.number == 0 && state.is_full);
    CHECK(state.cursor_shape == TK_CURSOR_DEFAULT);
    CHECK(state.cursor_color.kind == TK_COLOR_DEFAULT);
    CHECK(has_pen(&state, (tk_attributes)TK_DEFAULT_ATTRIBUTES) && !state.has_link);
    CHECK(tk_state(&none, &untouched) == TK_NO_HANDLE);
    CHECK(untouched.source == 7 && untouched.has_link);
    tk_free(&surface);
}

static void test_cursors(void) {
    tk_handle surface = made(4, 2);
    for (uint8_t shape = TK_CURSOR_DEFAULT; shape <= TK_CURSOR_STEADY_BAR; shape++) {
        CHECK(tk_set_cursor_shape(&surface, shape) == TK_DONE);
        CHECK(state_of(&surface).cursor_shape == shape);
    }
    CHECK(tk_set_cursor_color(&surface, &ORANGE) == TK_DONE);
    CHECK(same_color(state_of(&surface).cursor_color, ORANGE));
    CHECK(tk_set_cursor_color(&surface, &(tk_color){0}) == TK_DONE);
    CHECK(state_of(&surface).cursor_color.kind == TK_COLOR_DEFAULT);
    CHECK(state_of(&surface).number == 9);
    tk_free(&surface);
}

/* A pen that is read can be set again, with its link. */
static void test_pens(void) {
    tk_handle surface = made(8, 1), none = TK_NONE;
    const tk_attributes pen = {.underline = TK_UNDERLINE_CURLY,
                               .semantic_type = TK_SEMANTIC_INPUT,
                               .overline = true,
                               .foreground = ORANGE,
                               .underline_color = {.kind = TK_COLOR_PALETTE, .index = 200}};
    char uri[8] = "kept";
    size_t len = 99;
    CHECK(tk_set_pen(&surface, &pen) == TK_DONE);
    CHECK(tk_set_link(&surface, "http://a/", 9) == TK_DONE);
    tk_settings state = state_of(&surface);
    CHECK(has_pen(&state, pen) && pen_link_is(&surface, "http://a/"));
    CHECK(tk_pen_link(&surface, uri, sizeof uri, &len) == TK_SHORT && len == 9);
    CHECK(tk_pen_link(&none, uri, sizeof uri, &len) == TK_NO_HANDLE && len == 9);
    CHECK(strcmp(uri, "kept") == 0);
    CHECK(tk_clear_screen(&surface, &ORANGE) == TK_DONE);
    CHECK(pen_link_is(&surface, ""));
    CHECK(same_color(state_of(&surface).pen.background, ORANGE));
    CHECK(tk_set_pen(&surface, &state.pen) == TK_DONE);
    CHECK(tk_set_link(&surface, "http://a/", 9) == TK_DONE);
    tk_settings again = state_of(&surface);
    CHECK(has_pen(&again, pen) && pen_link_is(&surface, "http://a/"));
    CHECK(tk_clear_link(&surface) == TK_DONE && pen_link_is(&surface, ""));
    tk_free(&surface);
}

static void test_lines(void) {
    tk_handle surface = made(4, 5), none = TK_NONE;
    uint8_t attribute = 99;
    for (uint8_t line = 0; line <= TK_LINE_SINGLE_WIDTH; line++) {
        CHECK(tk_move_to(&surface, 0, line) == TK_DONE);
        CHECK(tk_set_line_attribute(&surface, line) == TK_DONE);
    }
    for (uint8_t line = 0; line <= TK_LINE_SINGLE_WIDTH; line++)
        CHECK(line_of(&surface, line) == line);
    CHECK(line_of(&surface, 4) == TK_LINE_SINGLE_WIDTH);
    CHECK(tk_line_attribute(&surface, 5, &attribute) == TK_RANGE);
    CHECK(tk_line_attribute(&surface, SIZE_MAX, &attribute) == TK_RANGE);
    CHECK(tk_line_attribute(&none, 0, &attribute) == TK_NO_HANDLE && attribute == 99);
    CHECK(tk_scroll_up(&surface, 0, 5, 2) == TK_DONE);
    CHECK(line_of(&surface, 0) == TK_LINE_DOUBLE_WIDTH);
    tk_free(&surface);
}

/* A copy leaves its own cursor and pen behind, and what is drawn leaves both. */
static void test_regions(void) {
    tk_handle surface = made(4, 2), client = made_client();
    CHECK(tk_set_italic(&surface, true) == TK_DONE && print(&surface, "ab") == TK_DONE);
    CHECK(tk_set_italic(&surface, false) == TK_DONE);
    CHECK(tk_set_link(&surface, "uri:a", 5) == TK_DONE);
    CHECK(tk_move_to(&surface, 0, 1) == TK_DONE && print(&surface, "wxyz") == TK_DONE);
    CHECK(cursor_is(&surface, 4, 1)); /* a wrap is pending */
    tk_settings before = state_of(&surface);
    CHECK(tk_draw_region(&surface, 0, 0, 2, 1, 1, 0) == TK_DONE);
    CHECK(screen_is(&surface, "aab\nwxyz\n") && cursor_is(&surface, 4, 1));
    tk_settings drawn = state_of(&surface);
    CHECK(has_pen(&drawn, before.pen) && pen_link_is(&surface, "uri:a"));
    CHECK(drawn.number > before.number);
    CHECK(tk_draw_region(&surface, 0, 0, 2, 1, 0, 0) == TK_DONE); /* it shows that */
    CHECK(state_of(&surface).number == drawn.number);
    CHECK(tk_copy(&surface, 0, 0, 1, 1, 3, 0) == TK_DONE);
    CHECK(screen_is(&surface, "aaba\nwxyz\n") && cursor_is(&surface, 4, 0));
    CHECK(state_of(&surface).pen.italic && pen_link_is(&surface, ""));
    bytes answer = answer_to(&surface, &client);
    CHECK(feed(&client, &answer) == TK_DONE && screen_is(&client, "aaba\nwxyz\n"));
    tk_free(&client);
    tk_free(&surface);
}

/* A viewer and a client have what the surface has, and know whose it is. */
static void test_shown(void) {
    tk_handle surface = made(6, 2), viewer = TK_NONE, other = TK_NONE, client = made_client();
    CHECK(state_of(&client).source == 0 && state_of(&client).number == 0);
    CHECK(print(&surface, "abc") == TK_DONE);
    CHECK(tk_set_line_attribute(&surface, TK_LINE_DOUBLE_WIDTH) == TK_DONE);
    CHECK(tk_set_cursor_shape(&surface, TK_CURSOR_STEADY_BAR) == TK_DONE);
    CHECK(tk_set_cursor_color(&surface, &ORANGE) == TK_DONE);
    CHECK(tk_set_link(&surface, "uri:a", 5) == TK_DONE);
    tk_settings state = state_of(&surface);
    CHECK(state.number == 5);
    CHECK(tk_viewer_new(&viewer, &surface) == TK_DONE);
    CHECK(state_of(&viewer).source == state.source && state_of(&viewer).number == 0);
    CHECK(tk_follow(&viewer, &surface) == TK_DONE);
    bytes answer = answer_to(&surface, &client);
    CHECK(feed(&client, &answer) == TK_DONE);
    tk_handle *both[] = {&viewer, &client};
    for (size_t i = 0; i < 2; i++) {
        tk_settings shown = state_of(both[i]);
        CHECK(shown.source == state.source && shown.number == state.number && shown.is_full);
        CHECK(shown.cursor_shape == TK_CURSOR_STEADY_BAR);
        CHECK(same_color(shown.cursor_color, ORANGE) && has_pen(&shown, state.pen));
        CHECK(pen_link_is(both[i], "uri:a") && line_of(both[i], 0) == TK_LINE_DOUBLE_WIDTH);
    }
    CHECK(tk_viewer_new(&other, &viewer) == TK_DONE && tk_follow(&other, &viewer) == TK_DONE);
    CHECK(state_of(&other).source == 0 && state_of(&other).number == 0);
    CHECK(state_of(&other).cursor_shape == TK_CURSOR_STEADY_BAR);
    CHECK(print(&surface, "d") == TK_DONE);
    CHECK(state_of(&surface).number == 6 && state_of(&viewer).number == 5);
    tk_free(&other);
    tk_free(&viewer);
    tk_free(&client);
    tk_free(&surface);
}

static bool width_is(const char *text, uint8_t widths, size_t wanted) {
    size_t columns = 99;
    return tk_text_width(text, strlen(text), widths, &columns) == TK_DONE && columns == wanted;
}

static void test_widths(void) {
    size_t columns = 99;
    CHECK(width_is("", TK_WIDTHS_UNICODE, 0));
    CHECK(width_is("hello か", TK_WIDTHS_UNICODE, 8));
    CHECK(width_is("hello か", TK_WIDTHS_ONE_COLUMN, 7));
    CHECK(width_is("e\u0301👩‍🚀☂️", TK_WIDTHS_UNICODE, 5));
    CHECK(width_is("e\u0301👩‍🚀☂️", TK_WIDTHS_ONE_COLUMN, 3));
    CHECK(width_is("\u0301", TK_WIDTHS_UNICODE, 0));
    CHECK(tk_text_width("abc", 2, TK_WIDTHS_UNICODE, &columns) == TK_DONE && columns == 2);
    columns = 99;
    CHECK(tk_text_width("a\xff", 2, TK_WIDTHS_UNICODE, &columns) == TK_UNREADABLE);
    CHECK(tk_text_width("か", 2, TK_WIDTHS_UNICODE, &columns) == TK_UNREADABLE);
    CHECK(tk_text_width("a", 1, 2, &columns) == TK_RANGE);
    CHECK(tk_text_width("\xff", 1, 2, &columns) == TK_RANGE && columns == 99);
}

/* Cuts a text into its graphemes, and what is printed of them into cells. */
static void test_graphemes(void) {
    static const char text[] = "e\u0301か👩‍🚀🇩🇪☂️x";
    static const size_t lengths[] = {3, 3, 11, 8, 6, 1};
    size_t bytes = 99, at = 0, column = 0;
    tk_handle surface = made(12, 1);
    CHECK(print(&surface, text) == TK_DONE);
    for (size_t i = 0; i < sizeof lengths / sizeof *lengths; i++, at += bytes) {
        char grapheme[16] = "";
        CHECK(tk_first_grapheme(text + at, strlen(text + at), &bytes) == TK_DONE);
        CHECK(bytes == lengths[i]);
        memcpy(grapheme, text + at, bytes);
        tk_cell cell = cell_at(&surface, column, 0, grapheme);
        CHECK(width_is(grapheme, TK_WIDTHS_UNICODE, cell.columns));
        column += cell.columns;
    }
    CHECK(at == strlen(text) && cursor_is(&surface, column, 0));
    CHECK(tk_first_grapheme("", 0, &bytes) == TK_DONE && bytes == 0);
    CHECK(tk_first_grapheme("\r\nx", 3, &bytes) == TK_DONE && bytes == 2);
    bytes = 99;
    CHECK(tk_first_grapheme("ab\x80", 3, &bytes) == TK_UNREADABLE);
    CHECK(tk_first_grapheme("か", 1, &bytes) == TK_UNREADABLE && bytes == 99);
    tk_free(&surface);
}

int main(void) {
    test_setters();
    test_blank();
    test_cursors();
    test_pens();
    test_lines();
    test_regions();
    test_shown();
    test_widths();
    test_graphemes();
    printf("%d checks\n", checks);
    return failures != 0;
}
