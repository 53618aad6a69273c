/* Rows that are read at once, and lists of changes that are read back. It ends with `N checks`, and
 * with status 1 where any of them failed. */
#include "checks.h"
#include "tikeburo.h"
#include <stdint.h>
#include <stdio.h>
#include <string.h>

/* Reads a row with the blanks that stand behind its stored cells. */
static tk_status read_shown(tk_handle *handle, size_t number, row *read) {
    return tk_shown_cells(handle, number, read->cells, COUNT(read->cells), read->attributes,
                          COUNT(read->attributes), read->text, sizeof read->text, &read->counts);
}

/* Each cell is the one that tk_cell_at has at its column. */
static void same_cells(tk_handle *handle, size_t number, const row *read) {
    size_t column = 0, end = 0;
    for (size_t k = 0; k < read->counts.cells; k++) {
        const tk_row_cell *cell = &read->cells[k];
        tk_cell at;
        char text[16];
        size_t len = 0;
        CHECK(tk_cell_at(handle, column, number, &at, text, sizeof text, &len) == TK_DONE);
        CHECK(cell->begin == end && cell->len == len && cell->columns == at.columns);
        CHECK(memcmp(read->text + cell->begin, text, len) == 0);
        CHECK(cell->has_link == at.has_link && cell->run < read->counts.attributes);
        CHECK(memcmp(&read->attributes[cell->run], &at.attributes, sizeof at.attributes) == 0);
        column += cell->columns;
        end += cell->len;
    }
    CHECK(end == read->counts.text);
}

static void test_rows(void) {
    tk_handle surface = made(8, 2), none = TK_NONE;
    const tk_change list[] = {
        {.kind = TK_CHANGE_TEXT, .first = 1},
        {.kind = TK_CHANGE_REVERSE, .attributes.reverse = true},
        {.kind = TK_CHANGE_TEXT, .first = 4},
        {.kind = TK_CHANGE_LINK, .first = 1},
        {.kind = TK_CHANGE_TEXT, .first = 1},
        {.kind = TK_CHANGE_NO_LINK},
        {.kind = TK_CHANGE_TEXT, .first = 1},
    };
    row read;
    CHECK(tk_add_changes(&surface, list, COUNT(list), "aかbucd", 8) == TK_DONE);
    CHECK(read_row(&surface, 0, &read) == TK_DONE);
    CHECK(read.counts.cells >= 5 && read.cells[1].columns == 2 && read.cells[1].len == 3);
    CHECK(read.cells[0].run == 0 && read.cells[1].run == 1 && read.cells[2].run == 1);
    CHECK(read.cells[3].run == 2 && read.cells[3].has_link && read.cells[4].run == 3);
    same_cells(&surface, 0, &read);
    CHECK(read_row(&surface, 1, &read) == TK_DONE);
    same_cells(&surface, 1, &read);
    read.counts.cells = 99;
    CHECK(read_row(&surface, 2, &read) == TK_RANGE && read.counts.cells == 99);
    CHECK(read_row(&none, 0, &read) == TK_NO_HANDLE && read.counts.cells == 99);
    tk_free(&surface);
}

/* Where one array is too short, the counts alone are written. */
static void test_short_rows(void) {
    tk_handle surface = made(4, 1);
    row read;
    tk_row_counts needed;
    CHECK(tk_print(&surface, "か!", 4) == TK_DONE && read_row(&surface, 0, &read) == TK_DONE);
    needed = read.counts;
    for (int which = 0; which < 3; which++) {
        size_t rooms[] = {needed.cells, needed.attributes, needed.text};
        row kept;
        memset(&read, 0xee, sizeof read);
        memcpy(&kept, &read, sizeof kept);
        rooms[which]--;
        CHECK(tk_row_cells(&surface, 0, read.cells, rooms[0], read.attributes, rooms[1], read.text,
                           rooms[2], &read.counts) == TK_SHORT);
        CHECK(memcmp(&read.counts, &needed, sizeof needed) == 0);
        read.counts = kept.counts;
        CHECK(memcmp(&read, &kept, sizeof read) == 0);
    }
    CHECK(tk_row_cells(&surface, 0, read.cells, needed.cells, read.attributes, needed.attributes,
                       read.text, needed.text, &read.counts) == TK_DONE);
    tk_free(&surface);
}

/* How many columns the cells of a row take that was read. */
static size_t columns_of(const row *read) {
    size_t columns = 0;
    for (size_t k = 0; k < read->counts.cells; k++)
        columns += read->cells[k].columns;
    return columns;
}

/* The cells that a row shows take all of its columns, whatever is stored. */
static void test_shown_rows(void) {
    tk_handle surface = made(8, 3), none = TK_NONE;
    const tk_change list[] = {
        {.kind = TK_CHANGE_TEXT, .first = 6},
        {.kind = TK_CHANGE_CLEAR_TO_END_OF_LINE},
        {.kind = TK_CHANGE_REVERSE, .attributes.reverse = true},
        {.kind = TK_CHANGE_MOVE, .first = 7, .second = 1},
        {.kind = TK_CHANGE_TEXT, .first = 1},
    };
    row read, stored;
    CHECK(tk_add_changes(&surface, list, COUNT(list), "aか b!", 7) == TK_DONE);
    CHECK(read_row(&surface, 0, &stored) == TK_DONE && columns_of(&stored) == 5);
    CHECK(read_shown(&surface, 0, &read) == TK_DONE && columns_of(&read) == 8);
    CHECK(read.counts.cells == 7 && read.counts.attributes == 1 && read.counts.text == 9);
    CHECK(memcmp(read.text, "aか b   ", 9) == 0);
    CHECK(read.cells[3].begin == 5 && read.cells[4].begin == 6 && read.cells[4].len == 1);
    for (size_t number = 0; number < 3; number++) {
        CHECK(read_shown(&surface, number, &read) == TK_DONE && columns_of(&read) == 8);
        same_cells(&surface, number, &read);
    }
    read.counts.cells = 99;
    CHECK(read_shown(&surface, 3, &read) == TK_RANGE && read.counts.cells == 99);
    CHECK(read_shown(&none, 0, &read) == TK_NO_HANDLE && read.counts.cells == 99);
    CHECK(tk_shown_cells(&surface, 0, read.cells, 6, read.attributes, 1, read.text, 9,
                         &read.counts) == TK_SHORT);
    CHECK(read.counts.cells == 7 && read.counts.attributes == 1 && read.counts.text == 9);
    tk_free(&surface);
}

/* A list of changes that was read. */
typedef struct changes {
    tk_change list[32];
    char texts[128];
    tk_list_counts counts;
} changes;

static tk_status read_changes(tk_handle *handle, size_t since, changes *read) {
    return tk_get_changes(handle, since, read->list, COUNT(read->list), read->texts,
                          sizeof read->texts, &read->counts);
}

/* The list that is read back is the one that was made, and makes of another surface the same. */
static void test_changes(void) {
    tk_handle surface = made(8, 3), copy = made(8, 3), none = TK_NONE;
    tk_change pen = {.kind = TK_CHANGE_PEN, .first = 1};
    pen.attributes.italic = true;
    pen.attributes.foreground = (tk_color){.kind = TK_COLOR_TRUE_OR_PALETTE, .red = 1, .index = 9};
    const tk_change list[] = {
        pen,
        {.kind = TK_CHANGE_TEXT, .first = 4},
        {.kind = TK_CHANGE_TITLE, .first = 2},
        {.kind = TK_CHANGE_LINK, .first = 3},
        {.kind = TK_CHANGE_NO_LINK},
        {.kind = TK_CHANGE_INTENSITY, .attributes.intensity = TK_INTENSITY_HALF},
        {.kind = TK_CHANGE_UNDERLINE, .attributes.underline = TK_UNDERLINE_DASHED},
        {.kind = TK_CHANGE_BLINK, .attributes.blink = TK_BLINK_RAPID},
        {.kind = TK_CHANGE_ITALIC, .attributes.italic = true},
        {.kind = TK_CHANGE_REVERSE, .attributes.reverse = true},
        {.kind = TK_CHANGE_STRIKETHROUGH, .attributes.strikethrough = true},
        {.kind = TK_CHANGE_INVISIBLE, .attributes.invisible = true},
        {.kind = TK_CHANGE_FOREGROUND, .attributes.foreground = {.kind = TK_COLOR_TRUE, .blue = 7}},
        {.kind = TK_CHANGE_BACKGROUND, .attributes.background = {.kind = TK_COLOR_PALETTE}},
        {.kind = TK_CHANGE_MOVE,
         .first = (size_t)-1,
         .second = 1,
         .third = TK_COLUMN_RELATIVE + TK_ROW_FROM_END},
        {.kind = TK_CHANGE_CLEAR_TO_END_OF_LINE},
        {.kind = TK_CHANGE_CLEAR_TO_END_OF_SCREEN},
        {.kind = TK_CHANGE_SCROLL_UP, .first = 0, .second = 2, .third = 1},
        {.kind = TK_CHANGE_SCROLL_DOWN, .first = 1, .second = 2, .third = 1},
        {.kind = TK_CHANGE_CURSOR_VISIBILITY, .first = 0},
        {.kind = TK_CHANGE_CURSOR_SHAPE, .first = TK_CURSOR_STEADY_BAR},
        {.kind = TK_CHANGE_CURSOR_COLOR, .attributes.foreground = {.kind = TK_COLOR_PALETTE}},
        {.kind = TK_CHANGE_LINE_ATTRIBUTE, .first = TK_LINE_DOUBLE_WIDTH},
    };
    const char *texts = "uaかtturi";
    changes read;
    CHECK(tk_print(&surface, "x", 1) == TK_DONE);
    CHECK(tk_add_changes(&surface, list, COUNT(list), texts, strlen(texts)) == TK_DONE);
    CHECK(read_changes(&surface, 1, &read) == TK_DONE && read.counts.changes == COUNT(list));
    CHECK(read.counts.texts == strlen(texts) && memcmp(read.texts, texts, strlen(texts)) == 0);
    CHECK(number_is(&surface, read.counts.number));
    for (size_t k = 0; k < COUNT(list); k++)
        CHECK(read.list[k].kind == list[k].kind && read.list[k].first == list[k].first &&
              read.list[k].second == list[k].second && read.list[k].third == list[k].third &&
              memcmp(&read.list[k].attributes, &list[k].attributes, sizeof pen.attributes) == 0);
    CHECK(read_changes(&surface, read.counts.number, &read) == TK_DONE && read.counts.changes == 0);
    /* A repaint shows on another surface what this one shows. */
    CHECK(read_changes(&surface, 0, &read) == TK_DONE && read.counts.changes > 0);
    CHECK(tk_add_changes(&copy, read.list, read.counts.changes, read.texts, read.counts.texts) ==
          TK_DONE);
    for (size_t number = 0; number < 3; number++) {
        row one, other;
        memset(&one, 0, sizeof one);
        memset(&other, 0, sizeof other);
        CHECK(read_row(&surface, number, &one) == TK_DONE);
        CHECK(read_row(&copy, number, &other) == TK_DONE);
        same_cells(&surface, number, &one);
    }
    read.counts.number = 99;
    CHECK(tk_get_changes(&surface, 0, read.list, 1, read.texts, 0, &read.counts) == TK_SHORT);
    CHECK(number_is(&surface, read.counts.number));
    read.counts.number = 99;
    CHECK(read_changes(&none, 0, &read) == TK_NO_HANDLE && read.counts.number == 99);
    tk_free(&surface);
    tk_free(&copy);
}

/* The rows that may have changed since a number, of a surface whose rows show a text each. */
static void test_changed_rows(void) {
    static const struct {
        const char *text;
        size_t column, row;
        uint8_t changed[4];
    } cases[] = {
        {"", 1, 2, {0, 0, 0, 0}},    {"x", 1, 1, {0, 1, 0, 0}},  {"wxyz", 0, 3, {0, 0, 0, 1}},
        {"xyz", 2, 0, {1, 1, 0, 0}}, {"\n", 0, 1, {0, 0, 0, 0}}, {"\n", 0, 3, {1, 1, 1, 1}},
    };
    static const uint8_t none[4] = {0}, all[4] = {1, 1, 1, 1};
    for (size_t k = 0; k < sizeof cases / sizeof *cases; k++) {
        tk_handle surface = made(4, 4);
        uint8_t rows[4];
        size_t since = 0, now = 0, count = 0;
        CHECK(print(&surface, "a\r\nb\r\nc\r\nd") == TK_DONE);
        CHECK(tk_number(&surface, &since) == TK_DONE);
        CHECK(tk_move_to(&surface, cases[k].column, cases[k].row) == TK_DONE);
        CHECK(print(&surface, cases[k].text) == TK_DONE && tk_number(&surface, &now) == TK_DONE);
        CHECK(tk_changed_rows(&surface, since, rows, 3, &count) == TK_SHORT && count == 4);
        CHECK(tk_changed_rows(&surface, since, rows, 4, &count) == TK_DONE && count == 4);
        CHECK(memcmp(rows, cases[k].changed, 4) == 0);
        CHECK(tk_changed_rows(&surface, now, rows, 4, &count) == TK_DONE);
        CHECK(memcmp(rows, none, 4) == 0);
        CHECK(tk_changed_rows(&surface, 0, rows, 4, &count) == TK_DONE);
        CHECK(memcmp(rows, all, 4) == 0);
        tk_free(&surface);
        CHECK(tk_changed_rows(&surface, 0, rows, 4, &count) == TK_NO_HANDLE);
    }
}

/* A resize that keeps the width changes the rows that it adds, and any other all rows. */
static void test_changed_rows_of_resizes(void) {
    static const uint8_t added[3] = {0, 0, 1}, all[3] = {1, 1, 1};
    tk_handle surface = made(4, 2);
    uint8_t rows[3];
    size_t since = 0, count = 0;
    CHECK(print(&surface, "a\r\nb") == TK_DONE && tk_number(&surface, &since) == TK_DONE);
    CHECK(tk_resize(&surface, 4, 3) == TK_DONE);
    CHECK(tk_changed_rows(&surface, since, rows, 3, &count) == TK_DONE && count == 3);
    CHECK(memcmp(rows, added, 3) == 0 && tk_number(&surface, &since) == TK_DONE);
    CHECK(tk_resize(&surface, 5, 3) == TK_DONE);
    CHECK(tk_changed_rows(&surface, since, rows, 3, &count) == TK_DONE && count == 3);
    CHECK(memcmp(rows, all, 3) == 0);
    tk_free(&surface);
}

static bool changed_since(tk_handle *handle, size_t since, const uint8_t wanted[2]) {
    uint8_t rows[2];
    size_t count = 0;
    return tk_changed_rows(handle, since, rows, 2, &count) == TK_DONE && count == 2 &&
           memcmp(rows, wanted, 2) == 0;
}

/* A viewer or a client that shows all anew has numbers above those that it had. */
static void test_changed_rows_of_followers(void) {
    static const uint8_t second[2] = {0, 1}, all[2] = {1, 1};
    tk_handle wide = made(4, 2), other = made(4, 2), viewer = TK_NONE, client = made_client();
    bytes answer;
    size_t since = 0;
    CHECK(tk_viewer_new(&viewer, &wide) == TK_DONE);
    for (size_t k = 0; k < 20; k++)
        CHECK(print(&wide, "a\r\nb") == TK_DONE && tk_follow(&viewer, &wide) == TK_DONE);
    CHECK(tk_number(&viewer, &since) == TK_DONE && since >= 20);
    CHECK(print(&wide, "c") == TK_DONE && tk_follow(&viewer, &wide) == TK_DONE);
    CHECK(changed_since(&viewer, since, second));
    CHECK(tk_number(&viewer, &since) == TK_DONE && tk_follow(&viewer, &other) == TK_DONE);
    CHECK(changed_since(&viewer, since, all));
    for (size_t k = 0; k < 20; k++) {
        CHECK(print(&other, "a\r\nb") == TK_DONE);
        answer = answer_to(&other, &client);
        CHECK(feed(&client, &answer) == TK_DONE);
    }
    CHECK(tk_number(&client, &since) == TK_DONE && since >= 20);
    CHECK(print(&other, "c") == TK_DONE);
    answer = answer_to(&other, &client);
    CHECK(feed(&client, &answer) == TK_DONE && changed_since(&client, since, second));
    CHECK(tk_number(&client, &since) == TK_DONE);
    answer = answer_to(&wide, &client);
    CHECK(feed(&client, &answer) == TK_DONE && changed_since(&client, since, all));
    tk_free(&wide);
    tk_free(&other);
    tk_free(&viewer);
    tk_free(&client);
}

int main(void) {
    test_rows();
    test_short_rows();
    test_shown_rows();
    test_changes();
    test_changed_rows();
    test_changed_rows_of_resizes();
    test_changed_rows_of_followers();
    printf("%d checks\n", checks);
    return failures != 0;
}
