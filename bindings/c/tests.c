/* Calls the functions of tikeburo.h that no other program of tests here calls: what each does, and
 * each error that it names and that can be brought about. It ends with `N checks`, and with status
 * 1 where any of them failed.
 *
 * Not brought about are TK_NUMBERS, for which 2^64 changes would be needed, and TK_MEMORY, which
 * example.c meets where its memory is refused. */
#include "checks.h"
#include "tikeburo.h"
#include <stdint.h>
#include <stdio.h>
#include <string.h>

static const tk_color NO_COLOR = {.kind = TK_COLOR_DEFAULT};
static const tk_color BLUE = {.kind = TK_COLOR_PALETTE, .index = 4};
static const tk_color ORANGE = {.kind = TK_COLOR_TRUE, .red = 255, .green = 128};
static const tk_color ORANGE_OR_RED = {
    .kind = TK_COLOR_TRUE_OR_PALETTE, .red = 255, .green = 128, .index = 1};
static const tk_color NO_SUCH_COLOR = {.kind = 4};

/* bindings/rust/src/ffi.rs has the same numbers. */
static void test_structs(void) {
    CHECK(sizeof(tk_handle) == 16);
    CHECK(sizeof(tk_color) == 5);
    CHECK(sizeof(tk_attributes) == 26);
    CHECK(sizeof(tk_cell) == 28);
    CHECK(sizeof(tk_change) == 56);
    CHECK(sizeof(tk_settings) == 56);
    CHECK(sizeof(tk_fault) == 24);
    CHECK(sizeof(tk_row_cell) == 32);
    CHECK(sizeof(tk_row_counts) == 24);
    CHECK(sizeof(tk_list_counts) == 24);
}

static void test_surfaces(void) {
    tk_handle surface = TK_NONE;
    CHECK(tk_surface_new(&surface, 4, 2, TK_WIDTHS_UNICODE, 7) == TK_DONE);
    CHECK(surface.is_live);
    CHECK(size_is(&surface, 4, 2));
    CHECK(cursor_is(&surface, 0, 0));
    CHECK(is_visible(&surface, true));
    CHECK(number_is(&surface, 0));
    CHECK(title_is(&surface, ""));
    CHECK(screen_is(&surface, "\n\n"));
    CHECK(tk_surface_new(&surface, 0, 2, TK_WIDTHS_UNICODE, 7) == TK_RANGE);
    CHECK(tk_surface_new(&surface, 4, 0, TK_WIDTHS_UNICODE, 7) == TK_RANGE);
    CHECK(tk_surface_new(&surface, (size_t)1 << 32, 2, TK_WIDTHS_UNICODE, 7) == TK_RANGE);
    CHECK(tk_surface_new(&surface, 4, (size_t)1 << 32, TK_WIDTHS_UNICODE, 7) == TK_RANGE);
    CHECK(tk_surface_new(&surface, 4, 2, 2, 7) == TK_RANGE);
    CHECK(tk_surface_new(&surface, 4, 2, TK_WIDTHS_UNICODE, 0) == TK_RANGE);
    CHECK(size_is(&surface, 4, 2)); /* an error changes nothing */
    CHECK(tk_surface_new(&surface, 6, 1, TK_WIDTHS_ONE_COLUMN, SIZE_MAX) == TK_DONE);
    CHECK(size_is(&surface, 6, 1)); /* what it had is freed */
    CHECK(print(&surface, "かx") == TK_DONE);
    CHECK(cursor_is(&surface, 2, 0)); /* one column each */
    tk_handle moved;
    memcpy(&moved, &surface, sizeof moved);
    memset(&surface, 0xee, sizeof surface);
    CHECK(print(&moved, "y") == TK_DONE && row_is(&moved, 0, "かxy"));
    tk_free(&moved);
    CHECK(!moved.is_live);
    tk_free(&moved);
    CHECK(tk_size(&moved, &(size_t){0}, &(size_t){0}) == TK_NO_HANDLE);
}

static void test_sizes(void) {
    tk_handle surface = made(4, 2), none = TK_NONE;
    CHECK(print(&surface, "abcdef") == TK_DONE);
    CHECK(tk_resize(&surface, 3, 3) == TK_DONE);
    CHECK(screen_is(&surface, "abc\nef\n\n"));
    CHECK(cursor_is(&surface, 2, 1));
    CHECK(tk_resize(&surface, 0, 3) == TK_RANGE);
    CHECK(tk_resize(&surface, 3, 0) == TK_RANGE);
    CHECK(tk_resize(&surface, (size_t)1 << 32, 3) == TK_RANGE);
    CHECK(tk_resize(&none, 3, 3) == TK_NO_HANDLE);
    CHECK(size_is(&surface, 3, 3));
    tk_free(&surface);
}

static void test_prints(void) {
    tk_handle surface = made(4, 2), none = TK_NONE;
    CHECK(print(&surface, "aか\r\nxy") == TK_DONE);
    CHECK(number_is(&surface, 1));
    CHECK(row_is(&surface, 0, "aか"));
    CHECK(row_is(&surface, 1, "xy"));
    CHECK(cursor_is(&surface, 2, 1));
    CHECK(tk_print(&surface, "", 0) == TK_DONE); /* a change too */
    CHECK(number_is(&surface, 2));
    CHECK(tk_print(&surface, "zzzz", 1) == TK_DONE); /* this length alone */
    CHECK(row_is(&surface, 1, "xyz"));
    CHECK(tk_print(&surface, "\xff", 1) == TK_UNREADABLE);
    CHECK(tk_print(&surface, "か", 2) == TK_UNREADABLE);
    CHECK(tk_print(&surface, "\xed\xa0\x80", 3) == TK_UNREADABLE); /* a surrogate */
    CHECK(tk_print(&none, "x", 1) == TK_NO_HANDLE);
    CHECK(number_is(&surface, 3));
    CHECK(row_is(&surface, 1, "xyz"));
    CHECK(print(&surface, "!") == TK_DONE);
    CHECK(cursor_is(&surface, 4, 1)); /* a wrap is pending */
    CHECK(print(&surface, "w") == TK_DONE);
    CHECK(screen_is(&surface, "xyz!\nw\n"));
    tk_free(&surface);
}

/* Texts that are longer than the block that is tested at once. */
static void test_long_texts(void) {
    static const size_t lens[] = {63, 64, 65, 128, 130};
    tk_handle surface = made(4, 2);
    char text[130];
    for (size_t i = 0; i < sizeof lens / sizeof *lens; i++) {
        for (size_t at = 0; at < lens[i]; at++) {
            memset(text, 'x', sizeof text);
            text[at] = '\x80';
            CHECK(tk_print(&surface, text, lens[i]) == TK_UNREADABLE);
        }
        text[lens[i] - 1] = '\xe3'; /* cut after its first byte */
        CHECK(tk_print(&surface, text, lens[i]) == TK_UNREADABLE);
    }
    CHECK(number_is(&surface, 0));
    for (size_t at = 0; at < 129; at += 3)
        memcpy(text + at, "か", 3);
    CHECK(tk_print(&surface, text, 129) == TK_DONE);
    CHECK(screen_is(&surface, "かか\nか\n"));
    tk_free(&surface);
}

static void test_moves(void) {
    tk_handle surface = made(10, 4), none = TK_NONE;
    CHECK(tk_move_to(&surface, 3, 2) == TK_DONE);
    CHECK(cursor_is(&surface, 3, 2));
    CHECK(tk_move_to(&surface, 99, 99) == TK_DONE);
    CHECK(cursor_is(&surface, 9, 3));
    CHECK(tk_move_to(&surface, SIZE_MAX, SIZE_MAX) == TK_DONE);
    CHECK(cursor_is(&surface, 9, 3));
    CHECK(tk_move_by(&surface, -2, -1) == TK_DONE);
    CHECK(cursor_is(&surface, 7, 2));
    CHECK(tk_move_by(&surface, PTRDIFF_MIN, PTRDIFF_MIN) == TK_DONE);
    CHECK(cursor_is(&surface, 0, 0));
    CHECK(tk_move_by(&surface, PTRDIFF_MAX, PTRDIFF_MAX) == TK_DONE);
    CHECK(cursor_is(&surface, 9, 3));
    CHECK(tk_move_to(&none, 0, 0) == TK_NO_HANDLE);
    CHECK(tk_move_by(&none, 0, 0) == TK_NO_HANDLE);
    tk_free(&surface);
}

static void test_whole_pen(void) {
    tk_handle surface = made(8, 1);
    tk_attributes pen = {.intensity = TK_INTENSITY_HALF,
                         .underline = TK_UNDERLINE_DASHED,
                         .blink = TK_BLINK_RAPID,
                         .semantic_type = TK_SEMANTIC_PROMPT,
                         .vertical_align = TK_ALIGN_SUB_SCRIPT,
                         .italic = true,
                         .reverse = true,
                         .strikethrough = true,
                         .invisible = true,
                         .wrapped = true,
                         .overline = true,
                         .foreground = BLUE,
                         .background = ORANGE,
                         .underline_color = ORANGE_OR_RED};
    CHECK(tk_set_pen(&surface, &pen) == TK_DONE);
    CHECK(print(&surface, "か") == TK_DONE);
    tk_cell cell = cell_at(&surface, 0, 0, "か");
    CHECK(cell.columns == 2 && !cell.has_link);
    CHECK(cell.attributes.intensity == TK_INTENSITY_HALF);
    CHECK(cell.attributes.underline == TK_UNDERLINE_DASHED);
    CHECK(cell.attributes.blink == TK_BLINK_RAPID);
    CHECK(cell.attributes.semantic_type == TK_SEMANTIC_PROMPT);
    CHECK(cell.attributes.vertical_align == TK_ALIGN_SUB_SCRIPT);
    CHECK(cell.attributes.italic && cell.attributes.reverse && cell.attributes.strikethrough);
    CHECK(cell.attributes.invisible && cell.attributes.wrapped && cell.attributes.overline);
    CHECK(same_color(cell.attributes.foreground, BLUE));
    CHECK(same_color(cell.attributes.background, ORANGE));
    CHECK(same_color(cell.attributes.underline_color, ORANGE_OR_RED));
    CHECK(cell_at(&surface, 1, 0, " ").columns == 1); /* the second column of a wide cell */
    memset(&pen, 0, sizeof pen);
    CHECK(tk_set_pen(&surface, &pen) == TK_DONE);
    CHECK(print(&surface, "x") == TK_DONE);
    cell = cell_at(&surface, 2, 0, "x");
    CHECK(cell.columns == 1 && memcmp(&cell.attributes, &pen, sizeof pen) == 0);
    tk_free(&surface);
}

static void test_pen_ranges(void) {
    tk_handle surface = made(8, 1), none = TK_NONE;
    tk_attributes pen = {.intensity = 3};
    CHECK(tk_set_pen(&surface, &pen) == TK_RANGE);
    pen.intensity = 0;
    pen.underline = 6;
    CHECK(tk_set_pen(&surface, &pen) == TK_RANGE);
    pen.underline = 0;
    pen.blink = 3;
    CHECK(tk_set_pen(&surface, &pen) == TK_RANGE);
    pen.blink = 0;
    pen.semantic_type = 3;
    CHECK(tk_set_pen(&surface, &pen) == TK_RANGE);
    pen.semantic_type = 0;
    pen.vertical_align = 3;
    CHECK(tk_set_pen(&surface, &pen) == TK_RANGE);
    pen.vertical_align = 0;
    pen.foreground = NO_SUCH_COLOR;
    CHECK(tk_set_pen(&surface, &pen) == TK_RANGE);
    pen.foreground = NO_COLOR;
    pen.background = NO_SUCH_COLOR;
    CHECK(tk_set_pen(&surface, &pen) == TK_RANGE);
    pen.background = NO_COLOR;
    pen.underline_color = NO_SUCH_COLOR;
    CHECK(tk_set_pen(&surface, &pen) == TK_RANGE);
    pen.underline_color = NO_COLOR;
    CHECK(number_is(&surface, 0));
    CHECK(tk_set_pen(&surface, &pen) == TK_DONE);
    CHECK(tk_set_pen(&none, &pen) == TK_NO_HANDLE);
    tk_free(&surface);
}

static void test_one_attribute(void) {
    tk_handle surface = made(8, 1), none = TK_NONE;
    CHECK(tk_set_intensity(&surface, TK_INTENSITY_BOLD) == TK_DONE);
    CHECK(tk_set_underline(&surface, TK_UNDERLINE_CURLY) == TK_DONE);
    CHECK(tk_set_blink(&surface, TK_BLINK_SLOW) == TK_DONE);
    CHECK(tk_set_italic(&surface, true) == TK_DONE);
    CHECK(tk_set_reverse(&surface, true) == TK_DONE);
    CHECK(tk_set_strikethrough(&surface, true) == TK_DONE);
    CHECK(tk_set_invisible(&surface, true) == TK_DONE);
    CHECK(tk_set_foreground(&surface, &ORANGE) == TK_DONE);
    CHECK(tk_set_background(&surface, &ORANGE_OR_RED) == TK_DONE);
    CHECK(tk_set_intensity(&surface, 3) == TK_RANGE);
    CHECK(tk_set_underline(&surface, 6) == TK_RANGE);
    CHECK(tk_set_blink(&surface, 255) == TK_RANGE);
    CHECK(tk_set_foreground(&surface, &NO_SUCH_COLOR) == TK_RANGE);
    CHECK(tk_set_background(&surface, &NO_SUCH_COLOR) == TK_RANGE);
    CHECK(tk_set_intensity(&none, 0) == TK_NO_HANDLE);
    CHECK(tk_set_underline(&none, 0) == TK_NO_HANDLE);
    CHECK(tk_set_blink(&none, 0) == TK_NO_HANDLE);
    CHECK(tk_set_italic(&none, false) == TK_NO_HANDLE);
    CHECK(tk_set_reverse(&none, false) == TK_NO_HANDLE);
    CHECK(tk_set_strikethrough(&none, false) == TK_NO_HANDLE);
    CHECK(tk_set_invisible(&none, false) == TK_NO_HANDLE);
    CHECK(tk_set_foreground(&none, &NO_COLOR) == TK_NO_HANDLE);
    CHECK(tk_set_background(&none, &NO_COLOR) == TK_NO_HANDLE);
    CHECK(print(&surface, "x") == TK_DONE);
    tk_attributes got = cell_at(&surface, 0, 0, "x").attributes;
    CHECK(got.intensity == TK_INTENSITY_BOLD && got.underline == TK_UNDERLINE_CURLY);
    CHECK(got.blink == TK_BLINK_SLOW && got.italic && got.reverse);
    CHECK(got.strikethrough && got.invisible && !got.wrapped && !got.overline);
    CHECK(same_color(got.foreground, ORANGE) && same_color(got.background, ORANGE_OR_RED));
    CHECK(tk_set_italic(&surface, false) == TK_DONE && print(&surface, "y") == TK_DONE);
    got = cell_at(&surface, 1, 0, "y").attributes;
    CHECK(!got.italic && got.reverse);
    tk_free(&surface);
}

static void test_links(void) {
    tk_handle surface = made(8, 1), none = TK_NONE;
    char uri[8];
    size_t len = 99;
    CHECK(tk_set_link(&surface, "http://a/", 9) == TK_DONE);
    CHECK(print(&surface, "a") == TK_DONE);
    CHECK(tk_clear_link(&surface) == TK_DONE);
    CHECK(print(&surface, "b") == TK_DONE);
    CHECK(cell_at(&surface, 0, 0, "a").has_link && !cell_at(&surface, 1, 0, "b").has_link);
    CHECK(link_is(&surface, 0, 0, "http://a/"));
    CHECK(link_is(&surface, 1, 0, ""));
    CHECK(tk_link_at(&surface, 0, 0, uri, sizeof uri, &len) == TK_SHORT && len == 9);
    CHECK(tk_link_at(&surface, 0, 1, uri, sizeof uri, &len) == TK_RANGE);
    CHECK(tk_link_at(&surface, 8, 0, uri, sizeof uri, &len) == TK_RANGE);
    CHECK(tk_link_at(&none, 0, 0, uri, sizeof uri, &len) == TK_NO_HANDLE && len == 9);
    CHECK(tk_set_link(&surface, "\x80", 1) == TK_UNREADABLE);
    CHECK(tk_set_link(&surface, "", 0) == TK_DONE);
    CHECK(tk_set_link(&none, "", 0) == TK_NO_HANDLE);
    CHECK(tk_clear_link(&none) == TK_NO_HANDLE);
    tk_free(&surface);
}

/* Makes a change of this kind with a link, whose text ends with an id of this length. */
static tk_status add_link(tk_handle *surface, uint8_t kind, const char *text, size_t id) {
    const tk_change change = {.kind = kind, .first = strlen(text), .second = id};
    return tk_add_changes(surface, &change, 1, text, strlen(text));
}

/* Whether the pen has a link to this uri, with this id and no other param. */
static bool pen_links_to(tk_handle *surface, const char *wanted, const char *id) {
    char uri[8], key[2], value[2];
    size_t len = 99, other = 99;
    size_t count = id[0] != '\0';
    tk_status status = tk_pen_link(surface, uri, sizeof uri, &len);
    return is(status, uri, len, wanted) && (count == 0 || has_param(surface, NULL, 0, "id", id)) &&
           tk_pen_link_param(surface, count, key, 2, &len, value, 2, &other) == TK_RANGE;
}

/* A link's text ends with its id. */
static void test_link_ids(void) {
    static const uint8_t kinds[] = {TK_CHANGE_LINK, TK_CHANGE_PEN};
    for (size_t k = 0; k < COUNT(kinds); k++) {
        tk_handle surface = made(8, 1);
        const size_t column = 0;
        tk_change link = {.kind = kinds[k], .second = 1};
        CHECK(add_link(&surface, kinds[k], "uri:a7", 1) == TK_DONE);
        CHECK(pen_links_to(&surface, "uri:a", "7"));
        CHECK(print(&surface, "x") == TK_DONE && link_is(&surface, 0, 0, "uri:a"));
        CHECK(has_param(&surface, &column, 0, "id", "7"));
        CHECK(add_link(&surface, kinds[k], "かa:か", 5) == TK_DONE);
        CHECK(pen_links_to(&surface, "か", "a:か"));
        CHECK(add_link(&surface, kinds[k], "id", 2) == TK_DONE);
        CHECK(pen_links_to(&surface, "", "id"));
        CHECK(add_link(&surface, kinds[k], "uri", 0) == TK_DONE);
        CHECK(pen_links_to(&surface, "uri", ""));
        CHECK(number_is(&surface, 5));
        CHECK(add_link(&surface, kinds[k], "id", 3) == TK_RANGE);
        CHECK(add_link(&surface, kinds[k], "id", SIZE_MAX) == TK_RANGE);
        CHECK(add_link(&surface, kinds[k], "", 1) == TK_RANGE);
        CHECK(add_link(&surface, kinds[k], "\xff", 2) == TK_RANGE);
        CHECK(add_link(&surface, kinds[k], "a\xff", 1) == TK_UNREADABLE);
        CHECK(add_link(&surface, kinds[k], "\xff""a", 1) == TK_UNREADABLE);
        CHECK(add_link(&surface, kinds[k], "か", 1) == TK_UNREADABLE); /* which is cut */
        CHECK(tk_add_unlogged(&surface, &link, 1, "", 0) == TK_RANGE);
        CHECK(number_is(&surface, 5) && pen_links_to(&surface, "uri", ""));
        link.first = 4;
        CHECK(tk_add_unlogged(&surface, &link, 1, "uri7", 4) == TK_DONE);
        CHECK(pen_links_to(&surface, "uri", "7"));
        tk_free(&surface);
    }
}

static void test_clears(void) {
    tk_handle surface = made(4, 2), none = TK_NONE;
    CHECK(print(&surface, "abcdefgh") == TK_DONE);
    CHECK(tk_move_to(&surface, 1, 0) == TK_DONE);
    CHECK(tk_clear_to_end_of_line(&surface, &BLUE) == TK_DONE);
    CHECK(screen_is(&surface, "a\nefgh\n"));
    CHECK(same_color(cell_at(&surface, 3, 0, " ").attributes.background, BLUE));
    CHECK(same_color(cell_at(&surface, 0, 0, "a").attributes.background, NO_COLOR));
    CHECK(tk_clear_to_end_of_screen(&surface, &NO_COLOR) == TK_DONE);
    CHECK(screen_is(&surface, "a\n\n"));
    CHECK(tk_clear_screen(&surface, &ORANGE) == TK_DONE);
    CHECK(screen_is(&surface, "\n\n"));
    CHECK(cursor_is(&surface, 0, 0));
    CHECK(same_color(cell_at(&surface, 0, 0, " ").attributes.background, ORANGE));
    CHECK(tk_clear_screen(&surface, &NO_SUCH_COLOR) == TK_RANGE);
    CHECK(tk_clear_to_end_of_line(&surface, &NO_SUCH_COLOR) == TK_RANGE);
    CHECK(tk_clear_to_end_of_screen(&surface, &NO_SUCH_COLOR) == TK_RANGE);
    CHECK(tk_clear_screen(&none, &BLUE) == TK_NO_HANDLE);
    CHECK(tk_clear_to_end_of_line(&none, &BLUE) == TK_NO_HANDLE);
    CHECK(tk_clear_to_end_of_screen(&none, &BLUE) == TK_NO_HANDLE);
    tk_free(&surface);
}

static void test_scrolls(void) {
    tk_handle surface = made(1, 4), none = TK_NONE;
    CHECK(print(&surface, "abcd") == TK_DONE);
    CHECK(tk_scroll_up(&surface, 1, 3, 1) == TK_DONE);
    CHECK(screen_is(&surface, "a\nc\nd\n\n"));
    CHECK(tk_scroll_down(&surface, 0, 2, 1) == TK_DONE);
    CHECK(screen_is(&surface, "\na\nd\n\n"));
    CHECK(tk_scroll_up(&surface, 0, 2, SIZE_MAX) == TK_DONE); /* all of them */
    CHECK(screen_is(&surface, "\n\nd\n\n"));
    CHECK(tk_scroll_up(&surface, 4, 0, 1) == TK_DONE);
    CHECK(tk_scroll_up(&surface, 2, 3, 1) == TK_REGION);
    CHECK(tk_scroll_down(&surface, 2, SIZE_MAX, 1) == TK_REGION);
    CHECK(tk_scroll_up(&none, 0, 1, 1) == TK_NO_HANDLE);
    CHECK(tk_scroll_down(&none, 0, 1, 1) == TK_NO_HANDLE);
    CHECK(screen_is(&surface, "\n\nd\n\n"));
    tk_free(&surface);
}

static void test_draws(void) {
    tk_handle screen = made(6, 2), widget = made(2, 2), viewer = TK_NONE, none = TK_NONE;
    CHECK(print(&widget, "abcd") == TK_DONE);
    CHECK(tk_draw(&screen, &widget, 1, 0) == TK_DONE);
    CHECK(screen_is(&screen, " ab\n cd\n"));
    CHECK(tk_viewer_new(&viewer, &widget) == TK_DONE);
    CHECK(tk_follow(&viewer, &widget) == TK_DONE);
    CHECK(tk_draw(&screen, &viewer, 5, 1) == TK_DONE); /* cut to what fits */
    CHECK(screen_is(&screen, " ab\n cd  a\n"));
    CHECK(tk_draw(&screen, &widget, SIZE_MAX, SIZE_MAX) == TK_DONE);
    CHECK(tk_draw_from(&screen, &widget, 1, 1, 1, SIZE_MAX, 5, 0) == TK_DONE); /* one cell */
    CHECK(screen_is(&screen, " ab  d\n cd  a\n"));
    CHECK(tk_draw_from(&screen, &widget, 2, 0, 1, 1, 5, 0) == TK_DONE); /* it has no such column */
    CHECK(tk_draw_from(&screen, &none, 0, 0, 1, 1, 5, 0) == TK_NO_HANDLE);
    CHECK(tk_draw_from(&screen, &screen, 0, 0, 1, 1, 5, 0) == TK_NO_HANDLE);
    CHECK(tk_draw_from(&screen, &viewer, 0, 1, 9, 9, 5, 0) == TK_DONE); /* cut to what fits */
    CHECK(screen_is(&screen, " ab  c\n cd  a\n"));
    CHECK(print(&widget, "\r\n\r\n  ") == TK_DONE);
    CHECK(tk_draw_from(&screen, &widget, 0, 0, 1, 1, 5, 0) == TK_DONE);
    CHECK(screen_is(&screen, " ab\n cd  a\n"));
    CHECK(tk_draw(&viewer, &widget, 0, 0) == TK_WRONG_KIND);
    CHECK(tk_draw(&none, &widget, 0, 0) == TK_NO_HANDLE);
    CHECK(tk_draw(&screen, &none, 0, 0) == TK_NO_HANDLE);
    CHECK(tk_copy(&screen, 1, 0, 2, 2, 3, 0) == TK_DONE);
    CHECK(screen_is(&screen, " abab\n cdcda\n"));
    CHECK(tk_copy(&screen, 0, 0, SIZE_MAX, SIZE_MAX, SIZE_MAX, SIZE_MAX) == TK_DONE);
    CHECK(tk_copy(&viewer, 0, 0, 1, 1, 0, 0) == TK_WRONG_KIND);
    CHECK(tk_draw_region(&viewer, 0, 0, 1, 1, 0, 0) == TK_WRONG_KIND);
    CHECK(tk_draw_region(&none, 0, 0, 1, 1, 0, 0) == TK_NO_HANDLE);
    CHECK(tk_copy(&none, 0, 0, 1, 1, 0, 0) == TK_NO_HANDLE);
    CHECK(screen_is(&screen, " abab\n cdcda\n"));
    tk_free(&viewer);
    tk_free(&widget);
    tk_free(&screen);
}

static bool sgr_is(tk_attributes attributes, const char *wanted) {
    char text[TK_SGR_ROOM];
    size_t len = tk_to_sgr(&attributes, text);
    return len == strlen(wanted) && strcmp(text, wanted) == 0;
}

static void test_sgr(void) {
    tk_attributes plain = TK_DEFAULT_ATTRIBUTES, most = TK_DEFAULT_ATTRIBUTES;
    tk_attributes pen = {.intensity = TK_INTENSITY_BOLD, .background = {.kind = 1, .index = 4}};
    CHECK(sgr_is(plain, "0"));
    CHECK(sgr_is(pen, "0;1;48;5;4"));
    pen.intensity = TK_INTENSITY_HALF;
    pen.underline = TK_UNDERLINE_DOUBLE;
    pen.blink = TK_BLINK_RAPID;
    pen.background.kind = TK_COLOR_DEFAULT;
    CHECK(sgr_is(pen, "0;2;21;6"));
    most = (tk_attributes){TK_INTENSITY_BOLD, TK_UNDERLINE_DASHED, TK_BLINK_SLOW, 2, 2, true, true,
                           true, true, true, true, {2, 255, 254, 100, 0}, {3, 99, 10, 9, 7},
                           {2, 255, 0, 111, 0}};
    CHECK(sgr_is(most, "0;1;3;5;7;8;9;53;4:5;38;2;255;254;100;48;2;99;10;9;58:2::255:0:111"));
    most.foreground.kind = most.background.kind = 4; /* no colours */
    most.intensity = most.blink = 3;
    most.underline = 6;
    most.underline_color = (tk_color){.kind = TK_COLOR_PALETTE, .index = 200};
    CHECK(sgr_is(most, "0;3;7;8;9;53;58:5:200"));
}

static void test_reads(void) {
    tk_handle surface = made(4, 2), none = TK_NONE;
    tk_cell cell = {.columns = 9};
    char text[16] = "untouched";
    size_t number = 7, len = 7;
    bool visible = true;
    CHECK(print(&surface, "か\u0301!") == TK_DONE);
    CHECK(cell_at(&surface, 0, 0, "か\u0301").columns == 2); /* one grapheme */
    CHECK(cell_at(&surface, 3, 1, " ").columns == 1);
    CHECK(tk_cell_at(&surface, 0, 0, &cell, text, 4, &len) == TK_SHORT && len == 5);
    CHECK(cell.columns == 9 && strcmp(text, "untouched") == 0);
    CHECK(tk_cell_at(&surface, 4, 0, &cell, text, sizeof text, &len) == TK_RANGE);
    CHECK(tk_cell_at(&surface, 0, 2, &cell, text, sizeof text, &len) == TK_RANGE);
    CHECK(tk_cell_at(&surface, SIZE_MAX, SIZE_MAX, &cell, text, sizeof text, &len) == TK_RANGE);
    CHECK(tk_cell_at(&none, 0, 0, &cell, text, sizeof text, &len) == TK_NO_HANDLE);
    CHECK(tk_row_text(&surface, 0, false, text, 6, &len) == TK_SHORT && len == 7);
    CHECK(tk_row_text(&surface, 0, false, text, 0, &len) == TK_SHORT && len == 7);
    CHECK(tk_row_text(&surface, 2, false, text, sizeof text, &len) == TK_RANGE);
    CHECK(tk_row_text(&none, 0, false, text, sizeof text, &len) == TK_NO_HANDLE);
    CHECK(tk_screen_text(&surface, text, 12, &len) == TK_SHORT && len == 13);
    CHECK(tk_screen_text(&none, text, sizeof text, &len) == TK_NO_HANDLE && len == 13);
    CHECK(strcmp(text, "untouched") == 0);
    /* Just enough room. */
    CHECK(tk_row_text(&surface, 0, false, text, 7, &len) == TK_DONE && text[7] == 'e');
    /* What is cleared is stored no longer, and shown as blanks. */
    CHECK(tk_clear_to_end_of_line(&surface, &NO_COLOR) == TK_DONE);
    CHECK(tk_row_text(&surface, 0, false, text, sizeof text, &len) == TK_DONE && len == 6);
    CHECK(tk_row_text(&surface, 0, true, text, 6, &len) == TK_SHORT && len == 7);
    CHECK(tk_row_text(&surface, 0, true, text, 7, &len) == TK_DONE && len == 7);
    CHECK(memcmp(text, "か\u0301! ", 7) == 0);
    CHECK(tk_row_text(&surface, 1, true, text, sizeof text, &len) == TK_DONE && len == 4);
    CHECK(memcmp(text, "    ", 4) == 0);
    CHECK(tk_row_text(&surface, 2, true, text, sizeof text, &len) == TK_RANGE && len == 4);
    CHECK(tk_row_text(&none, 0, true, text, sizeof text, &len) == TK_NO_HANDLE && len == 4);
    CHECK(tk_title(&surface, text, 0, &len) == TK_DONE && len == 0);
    CHECK(tk_title(&none, text, 0, &len) == TK_NO_HANDLE);
    CHECK(tk_size(&none, &number, &len) == TK_NO_HANDLE && number == 7);
    CHECK(tk_cursor(&none, &number, &len) == TK_NO_HANDLE && number == 7);
    CHECK(tk_cursor_is_visible(&none, &visible) == TK_NO_HANDLE && visible);
    CHECK(tk_number(&none, &number) == TK_NO_HANDLE && number == 7);
    tk_free(&surface);
}

/* Lengths are asked for with no buffer. */
static void test_lengths(void) {
    tk_handle surface = made(4, 2), client = made_client(), lines = TK_NONE, other = made(4, 2);
    size_t len = 7, value_len = 7, ask_len = 0;
    uint8_t kind = 9, ask[20];
    tk_cell cell = {.columns = 9};
    tk_row_counts row = {7, 7, 7};
    tk_list_counts list = {7, 7, 7};
    CHECK(tk_set_title(&surface, "ls", 2) == TK_DONE);
    CHECK(tk_set_link(&surface, "uri", 3) == TK_DONE);
    CHECK(print(&surface, "か!") == TK_DONE);
    CHECK(tk_title(&surface, NULL, 0, &len) == TK_SHORT && len == 2);
    CHECK(tk_title(&other, NULL, 0, &len) == TK_DONE && len == 0);
    CHECK(tk_pen_link(&surface, NULL, 0, &len) == TK_SHORT && len == 3);
    CHECK(tk_pen_link_param(&surface, 0, NULL, 0, &len, NULL, 0, &value_len) == TK_RANGE);
    CHECK(tk_link_at(&surface, 0, 0, NULL, 0, &len) == TK_SHORT && len == 3);
    CHECK(tk_link_param_at(&surface, 0, 0, 0, NULL, 0, &len, NULL, 0, &value_len) == TK_RANGE);
    CHECK(tk_widths(&surface, &kind, NULL, 0, &len) == TK_DONE && kind == TK_WIDTHS_UNICODE);
    CHECK(tk_changed_rows(&surface, 0, NULL, 0, &len) == TK_SHORT && len == 2);
    CHECK(tk_screen_text(&surface, NULL, 0, &len) == TK_SHORT && len == 6 + 5);
    CHECK(tk_row_text(&surface, 0, false, NULL, 0, &len) == TK_SHORT && len == 5);
    CHECK(tk_cell_at(&surface, 0, 0, &cell, NULL, 0, &len) == TK_SHORT && len == 3);
    CHECK(tk_row_cells(&surface, 0, NULL, 0, NULL, 0, NULL, 0, &row) == TK_SHORT);
    CHECK(row.cells == 3 && row.attributes == 2 && row.text == 5);
    CHECK(tk_shown_cells(&surface, 0, NULL, 0, NULL, 0, NULL, 0, &row) == TK_SHORT);
    CHECK(tk_get_changes(&surface, 0, NULL, 0, NULL, 0, &list) == TK_SHORT && list.changes > 3);
    CHECK(tk_diff_screens(&other, &surface, NULL, 0, NULL, 0, &list) == TK_SHORT);
    CHECK(tk_diff_region(&other, 0, 0, 4, 1, &surface, 0, 0, NULL, 0, NULL, 0, &list) == TK_SHORT);
    CHECK(tk_diff_screens(&other, &other, NULL, 0, NULL, 0, &list) == TK_NO_HANDLE);
    CHECK(tk_client_ask(&client, NULL, 0, &len) == TK_SHORT && len > 0);
    CHECK(tk_make_ask(0, 0, NULL, 0, &len) == TK_SHORT && len > 0);
    CHECK(tk_make_ask(0, 0, ask, sizeof ask, &ask_len) == TK_DONE);
    CHECK(tk_respond(&surface, ask, ask_len, NULL, 0, &len) == TK_SHORT && len > 0);
    CHECK(tk_lines_new(&lines) == TK_DONE);
    CHECK(tk_line_cells(&lines, 0, NULL, 0, NULL, 0, NULL, 0, &row) == TK_RANGE);
    tk_free(&surface);
    tk_free(&client);
    tk_free(&lines);
    tk_free(&other);
}

static void test_streams(void) {
    tk_handle surface = made(6, 2), client = made_client();
    CHECK(print(&surface, "hello") == TK_DONE);
    bytes ask = ask_of(&client);
    CHECK(ask.len == 4 && memcmp(ask.at, "\x83\2\0\0", 4) == 0);
    bytes repaint = answer_to(&surface, &client);
    CHECK(feed(&client, &repaint) == TK_DONE);
    CHECK(size_is(&client, 6, 2) && screen_is(&client, "hello\n\n") && cursor_is(&client, 5, 0));
    CHECK(print(&surface, "\r\nx") == TK_DONE);
    bytes delta = answer_to(&surface, &client);
    CHECK(delta.len < repaint.len);
    CHECK(feed(&client, &delta) == TK_DONE);
    CHECK(screen_is(&client, "hello\nx\n"));
    CHECK(feed(&client, &delta) == TK_DONE); /* late, and nothing comes of it */
    CHECK(screen_is(&client, "hello\nx\n"));
    CHECK(tk_resize(&surface, 3, 3) == TK_DONE);
    for (bytes next = answer_to(&surface, &client), one = {.len = 1}; next.len > 0; next.len--) {
        one.at[0] = next.at[0]; /* byte by byte */
        CHECK(feed(&client, &one) == TK_DONE);
        memmove(next.at, next.at + 1, next.len - 1);
    }
    CHECK(size_is(&client, 3, 3) && screen_is(&client, "hel\nx\n\n"));
    tk_free(&client);
    tk_free(&surface);
}

/* Brings the surface's answer to a client by this buffer, over a connection that is new. */
static tk_status carry(tk_handle *surface, tk_handle *client, uint8_t *room, size_t len,
                       tk_fault *fault) {
    uint8_t ask[20];
    size_t ask_len;
    tk_status status = tk_client_reset(client);
    if (status == TK_DONE)
        status = tk_client_ask(client, ask, sizeof ask, &ask_len);
    if (status == TK_DONE)
        status = tk_respond(surface, ask, ask_len, room, len, &len);
    size_t taken;
    return status != TK_DONE ? status : tk_client_feed(client, room, len, &taken, fault);
}

static void test_carried_answers(void) {
    tk_handle surface = TK_NONE, client = TK_NONE;
    tk_fault fault = {.kind = 99};
    uint8_t room[200];
    CHECK(carry(&surface, &client, room, sizeof room, &fault) == TK_NO_HANDLE);
    surface = made(6, 2);
    CHECK(carry(&surface, &client, room, sizeof room, &fault) == TK_NO_HANDLE);
    /* The screen is past the client's limits. */
    CHECK(tk_client_new(&client, TK_WIDTHS_UNICODE, 11, 200) == TK_DONE);
    CHECK(carry(&surface, &client, room, sizeof room, &fault) == TK_UNREADABLE);
    CHECK(fault.kind == TK_FAULT_LIMIT && size_is(&client, 1, 1));
    CHECK(tk_client_new(&client, TK_WIDTHS_UNICODE, 12, 200) == TK_DONE);
    CHECK(carry(&surface, &client, room, sizeof room, &fault) == TK_DONE);
    CHECK(size_is(&client, 6, 2));
    /* A buffer that is too short leaves the client as it is, for the next one. */
    CHECK(tk_resize(&surface, 4, 3) == TK_DONE);
    CHECK(carry(&surface, &client, room, 3, &fault) == TK_SHORT && size_is(&client, 6, 2));
    CHECK(carry(&surface, &client, room, sizeof room, &fault) == TK_DONE);
    CHECK(size_is(&client, 4, 3));
    /* A client carries nothing. */
    CHECK(carry(&client, &surface, room, sizeof room, &fault) == TK_WRONG_KIND);
    tk_free(&client);
    tk_free(&surface);
}

/* Two surfaces of the same history but for their texts. */
static void test_other_surface(void) {
    tk_handle first = made(6, 1), second = made(6, 1);
    tk_handle client = made_client(), other = made_client();
    CHECK(print(&first, "aaa") == TK_DONE && print(&second, "bbb") == TK_DONE);
    bytes answer = answer_to(&first, &client), delta;
    CHECK(feed(&client, &answer) == TK_DONE);
    answer = answer_to(&second, &other);
    CHECK(feed(&other, &answer) == TK_DONE);
    CHECK(print(&second, "c") == TK_DONE);
    delta = answer_to(&second, &other);
    CHECK(feed(&client, &delta) == TK_DONE && screen_is(&client, "aaa\n"));
    answer = answer_to(&second, &client); /* a repaint, since it asks with the first */
    CHECK(feed(&client, &answer) == TK_DONE && screen_is(&client, "bbbc\n"));
    tk_free(&other);
    tk_free(&client);
    tk_free(&second);
    tk_free(&first);
}

static void test_asks(void) {
    tk_handle surface = made(6, 2), client = made_client(), viewer = TK_NONE, none = TK_NONE;
    bytes ask = ask_of(&client), answer = {.len = 99};
    size_t room = sizeof answer.at, len = 99;
    CHECK(tk_client_ask(&client, answer.at, 3, &len) == TK_SHORT && len == 4);
    CHECK(tk_viewer_new(&viewer, &surface) == TK_DONE);
    for (size_t front = 0; front < ask.len; front++)
        CHECK(tk_respond(&surface, ask.at, front, answer.at, room, &len) == TK_TRUNCATED);
    CHECK(tk_respond(&surface, ask.at, ask.len + 1, answer.at, room, &len) == TK_UNREADABLE);
    ask.at[3] = 1; /* a number of no surface */
    CHECK(tk_respond(&surface, ask.at, ask.len, answer.at, room, &len) == TK_UNREADABLE);
    ask.at[2] = 1;
    CHECK(tk_respond(&surface, ask.at, ask.len, answer.at, room, &len) == TK_DONE);
    ask.at[1] = 1; /* the version */
    CHECK(tk_respond(&surface, ask.at, ask.len, answer.at, room, &len) == TK_UNREADABLE);
    ask = ask_of(&client);
    CHECK(tk_respond(&surface, ask.at, ask.len, answer.at, room, &answer.len) == TK_DONE);
    answer.at[0] = 0xee;
    CHECK(tk_respond(&surface, ask.at, ask.len, answer.at, answer.len - 1, &len) == TK_SHORT);
    CHECK(len == answer.len && answer.at[0] == 0xee); /* nothing is written */
    CHECK(tk_respond(&surface, ask.at, ask.len, answer.at, len, &len) == TK_DONE);
    CHECK(len == answer.len && answer.at[0] == 0x87);
    CHECK(tk_respond(&client, ask.at, ask.len, answer.at, room, &len) == TK_WRONG_KIND);
    CHECK(tk_respond(&viewer, ask.at, ask.len, answer.at, room, &len) == TK_WRONG_KIND);
    CHECK(tk_respond(&none, ask.at, ask.len, answer.at, room, &len) == TK_NO_HANDLE);
    CHECK(tk_client_ask(&surface, ask.at, 20, &len) == TK_WRONG_KIND);
    CHECK(tk_client_ask(&viewer, ask.at, 20, &len) == TK_WRONG_KIND);
    CHECK(tk_client_ask(&none, ask.at, 20, &len) == TK_NO_HANDLE && len == answer.len);
    tk_free(&viewer);
    tk_free(&client);
    tk_free(&surface);
}

/* The client is fed these bytes, and finds this fault at this place. */
static void check_fault(const char *wrong, size_t len, uint8_t kind, size_t at, bool has_change,
                        size_t change) {
    tk_handle client = made_client();
    tk_fault fault = {.kind = 99};
    size_t taken = 99;
    tk_status status = tk_client_feed(&client, (const uint8_t *)wrong, len, &taken, &fault);
    CHECK(status == TK_UNREADABLE && taken == 99);
    CHECK(fault.kind == kind && fault.at == at);
    CHECK(fault.has_change == has_change && fault.change == change);
    tk_free(&client);
}

static void test_faults(void) {
    check_fault("\x87\1", 2, TK_FAULT_VERSION, 1, false, 0);
    check_fault("\x80", 1, TK_FAULT_TYPE, 0, false, 0);
    check_fault("\x87\2\0", 3, TK_FAULT_RANGE, 2, false, 0);
    check_fault("\x87\2\1\1\0", 5, TK_FAULT_RANGE, 4, false, 0);
    check_fault("\x87\2\1\x1a\0\x10\0\0\2", 9, TK_FAULT_LIMIT, 8, false, 0);
    check_fault("\x87\2\1\1\1\0\0\x9a\1\0\0\0", 12, TK_FAULT_LIMIT, 7, false, 0);
    check_fault("\x87\2\1\1\1\0\0\x81\x82\2\x61\xff", 12, TK_FAULT_UTF8, 10, true, 0);
    check_fault("\x87\2\1\1\1\0\0\x82\x82\2\x61x\x84\x0a\0\2\0", 17, TK_FAULT_REGION, 15, true, 1);
    check_fault("\x87\2\1\1\1\0\0\x81\x82\2\x63か", 14, TK_FAULT_MEASURE, 10, true, 0);
    check_fault("\x87\2\1\1\1\0\0\x81\x83\2\x61x\x83\1\1\1", 16, TK_FAULT_RANGE, 12, true, 0);
}

static void test_clients(void) {
    tk_handle surface = made(6, 2), client = TK_NONE, viewer = TK_NONE, none = TK_NONE;
    tk_fault fault = {.kind = 99};
    size_t taken = 99;
    CHECK(tk_client_new(&client, 2, 100, 100) == TK_RANGE && !client.is_live);
    CHECK(tk_client_new(&client, TK_WIDTHS_UNICODE, 100, 0) == TK_RANGE && !client.is_live);
    CHECK(tk_client_new(&client, TK_WIDTHS_UNICODE, 0, 1) == TK_DONE); /* it takes no answer */
    CHECK(tk_client_feed(&client, (const uint8_t *)"\x87\2", 2, &taken, &fault) == TK_UNREADABLE);
    CHECK(fault.kind == TK_FAULT_LIMIT);
    CHECK(tk_client_new(&client, TK_WIDTHS_UNICODE, 0, 0) == TK_RANGE && client.is_live);
    CHECK(tk_client_new(&client, TK_WIDTHS_UNICODE, 11, TK_USUAL_BYTES) == TK_DONE);
    CHECK(title_is(&client, "") && cursor_is(&client, 0, 0));
    CHECK(tk_viewer_new(&viewer, &surface) == TK_DONE);
    CHECK(print(&surface, "hello") == TK_DONE);
    bytes repaint = answer_to(&surface, &client);
    CHECK(tk_client_feed(&client, repaint.at, repaint.len, &taken, &fault) == TK_UNREADABLE);
    CHECK(fault.kind == TK_FAULT_LIMIT && fault.at == 4 && !fault.has_change);
    CHECK(tk_client_new(&client, TK_WIDTHS_UNICODE, 12, repaint.len - 1) == TK_DONE);
    CHECK(tk_client_feed(&client, repaint.at, repaint.len, &taken, &fault) == TK_UNREADABLE);
    CHECK(fault.kind == TK_FAULT_LIMIT && fault.at > 4);
    CHECK(tk_client_new(&client, TK_WIDTHS_UNICODE, 12, repaint.len) == TK_DONE);
    fault.kind = 99;
    CHECK(tk_client_feed(&client, repaint.at, repaint.len - 1, &taken, &fault) == TK_DONE);
    CHECK(title_is(&client, "") && cursor_is(&client, 0, 0)); /* it isn't whole yet */
    CHECK(tk_client_reset(&client) == TK_DONE);
    CHECK(tk_client_feed(&client, repaint.at, repaint.len, &taken, &fault) == TK_DONE);
    CHECK(screen_is(&client, "hello\n\n") && fault.kind == 99);
    repaint.at[1] = 1;
    CHECK(tk_client_feed(&client, repaint.at, repaint.len, &taken, &fault) == TK_UNREADABLE);
    CHECK(fault.kind == TK_FAULT_VERSION && screen_is(&client, "hello\n\n"));
    CHECK(tk_client_reset(&client) == TK_DONE);
    CHECK(print(&surface, "!") == TK_DONE);
    bytes delta = answer_to(&surface, &client);
    CHECK(feed(&client, &delta) == TK_DONE && screen_is(&client, "hello!\n\n"));
    CHECK(tk_client_feed(&surface, delta.at, delta.len, &taken, &fault) == TK_WRONG_KIND);
    CHECK(tk_client_feed(&viewer, delta.at, delta.len, &taken, &fault) == TK_WRONG_KIND);
    CHECK(tk_client_feed(&none, delta.at, delta.len, &taken, &fault) == TK_NO_HANDLE);
    CHECK(tk_client_reset(&surface) == TK_WRONG_KIND && tk_client_reset(&none) == TK_NO_HANDLE);
    CHECK(tk_print(&client, "x", 1) == TK_WRONG_KIND);
    CHECK(tk_resize(&client, 2, 2) == TK_WRONG_KIND);
    CHECK(tk_follow(&client, &surface) == TK_WRONG_KIND);
    CHECK(tk_draw(&client, &surface, 0, 0) == TK_WRONG_KIND);
    CHECK(tk_draw(&surface, &client, 0, 1) == TK_DONE && row_is(&surface, 1, "hello!"));
    CHECK(screen_is(&client, "hello!\n\n"));
    tk_free(&viewer);
    tk_free(&client);
    tk_free(&surface);
}

/* Takes the next answer of the bytes that the client keeps. */
static tk_taken next_of(tk_handle *client) {
    tk_taken taken = {.kind = 99, .at = 99};
    tk_fault fault;
    CHECK(tk_client_take_answer(client, &taken, &fault) == TK_DONE);
    return taken;
}

static void test_answers_one_by_one(void) {
    tk_handle surface = TK_NONE, client = made_client(), none = TK_NONE;
    tk_fault fault = {.kind = 99};
    tk_taken taken = {.kind = 99};
    size_t count = 99;
    CHECK(tk_surface_new(&surface, 6, 2, TK_WIDTHS_UNICODE, 1) == TK_DONE);
    CHECK(print(&surface, "a") == TK_DONE);
    bytes repaint = answer_to(&surface, &client);
    CHECK(feed(&client, &repaint) == TK_DONE);
    CHECK(print(&surface, "b") == TK_DONE);
    bytes delta = answer_to(&surface, &client);
    /* the delta twice, and a repaint that isn't whole yet */
    CHECK(tk_client_keep(&client, delta.at, delta.len, &fault) == TK_DONE);
    CHECK(tk_client_keep(&client, delta.at, delta.len, &fault) == TK_DONE);
    CHECK(tk_client_keep(&client, repaint.at, repaint.len - 1, &fault) == TK_DONE);
    CHECK(screen_is(&client, "a\n\n"));
    taken = next_of(&client);
    CHECK(taken.kind == TK_TAKEN_SHOWN && taken.at == 0 && screen_is(&client, "ab\n\n"));
    taken = next_of(&client);
    CHECK(taken.kind == TK_TAKEN_STALE && taken.at == 5 && screen_is(&client, "ab\n\n"));
    taken = next_of(&client);
    CHECK(taken.kind == TK_TAKEN_NONE && taken.at == 0);
    /* the repaint's last byte, and a delta that leads on from it */
    CHECK(tk_client_keep(&client, repaint.at + repaint.len - 1, 1, &fault) == TK_DONE);
    CHECK(tk_client_feed(&client, delta.at, delta.len, &count, &fault) == TK_DONE && count == 2);
    CHECK(screen_is(&client, "ab\n\n") && fault.kind == 99);
    /* bytes that are no answer stop it, and it keeps none after them */
    CHECK(tk_client_keep(&client, (const uint8_t *)"\x80", 1, &fault) == TK_DONE);
    CHECK(tk_client_take_answer(&client, &taken, &fault) == TK_UNREADABLE);
    CHECK(fault.kind == TK_FAULT_TYPE && taken.kind == TK_TAKEN_NONE);
    fault.kind = 99;
    CHECK(tk_client_keep(&client, delta.at, delta.len, &fault) == TK_UNREADABLE);
    CHECK(fault.kind == TK_FAULT_TYPE);
    CHECK(tk_client_take_answer(&surface, &taken, &fault) == TK_WRONG_KIND);
    CHECK(tk_client_take_answer(&none, &taken, &fault) == TK_NO_HANDLE);
    CHECK(tk_client_keep(&surface, delta.at, delta.len, &fault) == TK_WRONG_KIND);
    CHECK(tk_client_keep(&none, delta.at, delta.len, &fault) == TK_NO_HANDLE);
    tk_free(&client);
    tk_free(&surface);
}

static void test_follows(void) {
    tk_handle surface = made(6, 2), viewer = TK_NONE, other = TK_NONE, none = TK_NONE;
    CHECK(tk_viewer_new(&viewer, &none) == TK_NO_HANDLE && !viewer.is_live);
    CHECK(tk_viewer_new(&viewer, &surface) == TK_DONE);
    CHECK(size_is(&viewer, 6, 2) && screen_is(&viewer, "\n\n"));
    CHECK(print(&surface, "abc") == TK_DONE);
    CHECK(tk_resize(&surface, 4, 3) == TK_DONE);
    CHECK(tk_follow(&viewer, &surface) == TK_DONE);
    CHECK(size_is(&viewer, 4, 3) && screen_is(&viewer, "abc\n\n\n"));
    CHECK(print(&surface, "d") == TK_DONE);
    CHECK(tk_follow(&viewer, &surface) == TK_DONE && screen_is(&viewer, "abcd\n\n\n"));
    CHECK(print(&surface, "e") == TK_DONE);
    CHECK(tk_follow(&viewer, &surface) == TK_DONE && screen_is(&viewer, "abcd\ne\n\n"));
    CHECK(tk_follow(&surface, &viewer) == TK_WRONG_KIND);
    CHECK(tk_follow(&none, &surface) == TK_NO_HANDLE);
    CHECK(tk_follow(&viewer, &none) == TK_NO_HANDLE);
    CHECK(tk_print(&viewer, "x", 1) == TK_WRONG_KIND);
    CHECK(tk_add_encoded(&viewer, (const uint8_t[]){0x80}, 1) == TK_WRONG_KIND);
    CHECK(tk_set_italic(&viewer, true) == TK_WRONG_KIND);
    CHECK(tk_set_title(&viewer, "x", 1) == TK_WRONG_KIND);
    CHECK(tk_resize(&viewer, 2, 2) == TK_WRONG_KIND);
    CHECK(screen_is(&viewer, "abcd\ne\n\n"));
    CHECK(tk_viewer_new(&other, &viewer) == TK_DONE && tk_follow(&other, &viewer) == TK_DONE);
    CHECK(screen_is(&other, "abcd\ne\n\n")); /* a viewer's viewer */
    tk_free(&surface);
    CHECK(screen_is(&viewer, "abcd\ne\n\n")); /* it keeps what it shows */
    tk_free(&viewer);
    tk_free(&other);
}

/* A viewer that comes to another surface of as many changes shows that one alone. */
static void test_follows_others(void) {
    tk_handle first = made(6, 1), second = made(6, 1), narrow = TK_NONE, viewer = TK_NONE;
    CHECK(tk_surface_new(&narrow, 6, 1, TK_WIDTHS_ONE_COLUMN, SIZE_MAX) == TK_DONE);
    CHECK(print(&first, "aaa") == TK_DONE && print(&second, "b") == TK_DONE);
    CHECK(tk_viewer_new(&viewer, &first) == TK_DONE);
    CHECK(tk_follow(&viewer, &first) == TK_DONE && screen_is(&viewer, "aaa\n"));
    CHECK(tk_follow(&viewer, &second) == TK_DONE && screen_is(&viewer, "b\n"));
    CHECK(print(&narrow, "かか") == TK_DONE);
    CHECK(tk_follow(&viewer, &narrow) == TK_OTHER_WIDTHS && screen_is(&viewer, "b\n"));
    CHECK(tk_follow(&viewer, &first) == TK_DONE && screen_is(&viewer, "aaa\n"));
    CHECK(tk_viewer_new(&viewer, &narrow) == TK_DONE);
    CHECK(tk_follow(&viewer, &narrow) == TK_DONE && screen_is(&viewer, "かか\n"));
    CHECK(cursor_is(&viewer, 2, 0));
    tk_free(&viewer);
    tk_free(&narrow);
    tk_free(&second);
    tk_free(&first);
}

/* A repaint says also that there is no title. */
static void test_repaints_are_full(void) {
    tk_handle surface = made(4, 1), client = made_client(), client_again;
    CHECK(tk_set_title(&surface, "notes", 5) == TK_DONE);
    bytes repaint = answer_to(&surface, &client);
    CHECK(feed(&client, &repaint) == TK_DONE && title_is(&client, "notes"));
    CHECK(tk_set_title(&surface, "", 0) == TK_DONE);
    client_again = made_client();
    repaint = answer_to(&surface, &client_again);
    CHECK(feed(&client, &repaint) == TK_DONE && title_is(&client, ""));
    tk_free(&client_again);
    tk_free(&client);
    tk_free(&surface);
}

int main(void) {
    test_structs();
    test_surfaces();
    test_sizes();
    test_prints();
    test_long_texts();
    test_moves();
    test_whole_pen();
    test_pen_ranges();
    test_one_attribute();
    test_links();
    test_link_ids();
    test_clears();
    test_scrolls();
    test_draws();
    test_sgr();
    test_reads();
    test_lengths();
    test_streams();
    test_carried_answers();
    test_other_surface();
    test_asks();
    test_faults();
    test_clients();
    test_answers_one_by_one();
    test_follows();
    test_follows_others();
    test_repaints_are_full();
    printf("%d checks\n", checks);
    return failures != 0;
}
