/* Diffs of what two handles show, and the params of links. It ends with `N checks`, and with status
 * 1 where any of them failed. */
#include "checks.h"
#include "tikeburo.h"
#include <stdint.h>
#include <stdio.h>
#include <string.h>

/* A list of changes that was read. */
typedef struct changes {
    tk_change list[64];
    char texts[256];
    tk_list_counts counts;
} changes;

static tk_status diff(tk_handle *handle, tk_handle *other, changes *read) {
    return tk_diff_screens(handle, other, read->list, COUNT(read->list), read->texts,
                           sizeof read->texts, &read->counts);
}

/* Of two regions of this size, each by its column and row. */
static tk_status diff_region(tk_handle *handle, const size_t at[2], const size_t size[2],
                             tk_handle *other, const size_t other_at[2], changes *read) {
    return tk_diff_region(handle, at[0], at[1], size[0], size[1], other, other_at[0], other_at[1],
                          read->list, COUNT(read->list), read->texts, sizeof read->texts,
                          &read->counts);
}

static tk_status make(tk_handle *surface, const changes *read) {
    return tk_add_changes(surface, read->list, read->counts.changes, read->texts,
                          read->counts.texts);
}

/* A move, a pen and a text for each run of cells that isn't shown yet. */
static void test_list(void) {
    tk_handle one = made(8, 2), other = made(8, 2);
    const tk_color red = {.kind = TK_COLOR_PALETTE, .index = 1};
    changes read;
    CHECK(print(&one, "abcd") == TK_DONE && print(&other, "axy") == TK_DONE);
    CHECK(tk_set_foreground(&other, &red) == TK_DONE && print(&other, "d\r\n e") == TK_DONE);
    CHECK(diff(&one, &other, &read) == TK_DONE && read.counts.changes == 7);
    CHECK(read.counts.texts == 5 && memcmp(read.texts, "xyd e", 5) == 0);
    CHECK(read.counts.number == 0);
    const uint8_t kinds[] = {TK_CHANGE_MOVE, TK_CHANGE_PEN,  TK_CHANGE_TEXT, TK_CHANGE_PEN,
                             TK_CHANGE_TEXT, TK_CHANGE_MOVE, TK_CHANGE_TEXT};
    for (size_t k = 0; k < COUNT(kinds); k++)
        CHECK(read.list[k].kind == kinds[k]);
    CHECK(read.list[0].first == 1 && read.list[0].second == 0 && read.list[0].third == 0);
    CHECK(read.list[2].first == 2 && read.list[4].first == 1 && read.list[6].first == 2);
    CHECK(same_color(read.list[3].attributes.foreground, red));
    tk_free(&one);
    tk_free(&other);
}

/* What is made of a diff shows what the other one shows, and then there is none. */
static void test_screens(void) {
    tk_handle one = made(8, 3), other = made(8, 3), small = made(3, 1);
    changes read;
    CHECK(print(&one, "one かx\r\nsame") == TK_DONE);
    CHECK(print(&other, "か other\r\nsame\r\ne\u0301") == TK_DONE);
    CHECK(tk_set_title(&other, "title", 5) == TK_DONE);
    CHECK(diff(&one, &other, &read) == TK_DONE && make(&one, &read) == TK_DONE);
    CHECK(screen_is(&one, "か other\nsame\ne\u0301\n") && title_is(&one, ""));
    CHECK(diff(&one, &other, &read) == TK_DONE && read.counts.changes == 0);
    CHECK(read.counts.texts == 0);
    /* Where the sizes differ, what fits in both is compared. */
    CHECK(print(&small, "か") == TK_DONE);
    CHECK(diff(&small, &other, &read) == TK_DONE && read.counts.changes == 0);
    CHECK(print(&small, "!") == TK_DONE);
    CHECK(diff(&small, &other, &read) == TK_DONE && make(&small, &read) == TK_DONE);
    CHECK(screen_is(&small, "か\n"));
    tk_free(&one);
    tk_free(&other);
    tk_free(&small);
}

static void test_regions(void) {
    tk_handle one = made(8, 2), other = made(8, 2);
    changes read;
    CHECK(print(&one, "abcdefgh") == TK_DONE && print(&other, "\r\n12345678") == TK_DONE);
    CHECK(diff_region(&one, (size_t[]){1, 0}, (size_t[]){3, 1}, &other, (size_t[]){4, 1}, &read) ==
          TK_DONE);
    CHECK(make(&one, &read) == TK_DONE && screen_is(&one, "a567efgh\n\n"));
    /* Both regions are cut to what fits. */
    CHECK(diff_region(&one, (size_t[]){6, 0}, (size_t[]){SIZE_MAX, SIZE_MAX}, &other,
                      (size_t[]){7, 1}, &read) == TK_DONE);
    CHECK(make(&one, &read) == TK_DONE && screen_is(&one, "a567ef8h\n\n"));
    CHECK(diff_region(&one, (size_t[]){8, 0}, (size_t[]){1, 1}, &other, (size_t[]){0, 0}, &read) ==
          TK_DONE);
    CHECK(read.counts.changes == 0);
    CHECK(diff_region(&one, (size_t[]){0, 0}, (size_t[]){1, 1}, &other, (size_t[]){0, 2}, &read) ==
          TK_DONE);
    CHECK(read.counts.changes == 0);
    tk_free(&one);
    tk_free(&other);
}

/* A viewer and a client lack what the surface shows, until they are brought up. */
static void test_shown(void) {
    tk_handle surface = made(6, 2), viewer = TK_NONE, client = made_client();
    changes read;
    CHECK(tk_viewer_new(&viewer, &surface) == TK_DONE && print(&surface, "hi") == TK_DONE);
    CHECK(diff(&viewer, &surface, &read) == TK_DONE && read.counts.changes == 3);
    CHECK(tk_follow(&viewer, &surface) == TK_DONE);
    CHECK(diff(&viewer, &surface, &read) == TK_DONE && read.counts.changes == 0);
    bytes answer = answer_to(&surface, &client);
    CHECK(feed(&client, &answer) == TK_DONE);
    CHECK(diff(&surface, &client, &read) == TK_DONE && read.counts.changes == 0);
    CHECK(print(&surface, "!") == TK_DONE);
    CHECK(diff(&client, &viewer, &read) == TK_DONE && read.counts.changes == 0);
    CHECK(diff(&client, &surface, &read) == TK_DONE && read.counts.texts == 1);
    CHECK(number_is(&surface, 2) && screen_is(&viewer, "hi\n\n") && screen_is(&client, "hi\n\n"));
    tk_free(&surface);
    tk_free(&viewer);
    tk_free(&client);
}

/* Where an array is too short, the counts alone are written, and with no handle nothing. */
static void test_short(void) {
    tk_handle one = made(4, 1), other = made(4, 1), none = TK_NONE;
    changes read, kept;
    CHECK(print(&other, "か!") == TK_DONE && diff(&one, &other, &read) == TK_DONE);
    const tk_list_counts needed = read.counts;
    for (int which = 0; which < 2; which++) {
        size_t rooms[] = {needed.changes, needed.texts};
        rooms[which]--;
        memset(&read, 0xee, sizeof read);
        memcpy(&kept, &read, sizeof kept);
        CHECK(tk_diff_screens(&one, &other, read.list, rooms[0], read.texts, rooms[1],
                              &read.counts) == TK_SHORT);
        CHECK(memcmp(&read.counts, &needed, sizeof needed) == 0);
        read.counts = kept.counts;
        CHECK(memcmp(&read, &kept, sizeof read) == 0);
        CHECK(tk_diff_region(&one, 0, 0, 4, 1, &other, 0, 0, read.list, rooms[0], read.texts,
                             rooms[1], &read.counts) == TK_SHORT);
        CHECK(memcmp(&read.counts, &needed, sizeof needed) == 0);
    }
    CHECK(tk_diff_screens(&one, &other, read.list, needed.changes, read.texts, needed.texts,
                          &read.counts) == TK_DONE);
    memset(&read, 0xee, sizeof read);
    CHECK(diff(&none, &other, &read) == TK_NO_HANDLE && diff(&one, &none, &read) == TK_NO_HANDLE);
    const size_t at[] = {0, 0}, size[] = {1, 1};
    CHECK(diff_region(&none, at, size, &other, at, &read) == TK_NO_HANDLE);
    CHECK(diff_region(&one, at, size, &none, at, &read) == TK_NO_HANDLE);
    CHECK(memcmp(&read, &kept, sizeof read) == 0);
    CHECK(screen_is(&one, "\n") && screen_is(&other, "か!\n"));
    tk_free(&one);
    tk_free(&other);
}

/* The pen's link gets the params `id=7` and `x=`. */
static tk_status set_link(tk_handle *surface) {
    const uint8_t list[] = {0x81, 0x82, 0,    0x82, 9,    0x83, 0x61, 'u',  0xf4, 0x82,
                            0x82, 0x62, 'i', 'd',  0x61, '7',  0x82, 0x61, 'x',  0x60};
    return tk_add_encoded(surface, list, sizeof list);
}

static void test_params(void) {
    tk_handle surface = made(4, 1), client = made_client(), none = TK_NONE;
    char key[2] = "..", value[2] = "..";
    size_t len = 99, other = 99;
    CHECK(tk_pen_link_param(&surface, 0, key, 2, &len, value, 2, &other) == TK_RANGE);
    CHECK(tk_set_link(&surface, "v", 1) == TK_DONE && print(&surface, "a") == TK_DONE);
    CHECK(tk_pen_link_param(&surface, 0, key, 2, &len, value, 2, &other) == TK_RANGE);
    CHECK(set_link(&surface) == TK_DONE && print(&surface, "b") == TK_DONE);
    bytes answer = answer_to(&surface, &client);
    CHECK(feed(&client, &answer) == TK_DONE);
    tk_handle *both[] = {&surface, &client};
    for (size_t k = 0; k < COUNT(both); k++) {
        const size_t plain = 0, linked = 1;
        CHECK(has_param(both[k], NULL, 0, "id", "7") && has_param(both[k], NULL, 1, "x", ""));
        CHECK(has_param(both[k], &linked, 0, "id", "7"));
        CHECK(has_param(both[k], &linked, 1, "x", ""));
        CHECK(link_is(both[k], plain, 0, "v") && link_is(both[k], linked, 0, "u"));
        CHECK(tk_pen_link_param(both[k], 2, key, 2, &len, value, 2, &other) == TK_RANGE);
        CHECK(tk_link_param_at(both[k], 1, 0, 2, key, 2, &len, value, 2, &other) == TK_RANGE);
        CHECK(tk_link_param_at(both[k], 0, 0, 0, key, 2, &len, value, 2, &other) == TK_RANGE);
        CHECK(tk_link_param_at(both[k], 2, 0, 0, key, 2, &len, value, 2, &other) == TK_RANGE);
        CHECK(tk_link_param_at(both[k], 4, 0, 0, key, 2, &len, value, 2, &other) == TK_RANGE);
        CHECK(tk_link_param_at(both[k], 0, 1, 0, key, 2, &len, value, 2, &other) == TK_RANGE);
    }
    CHECK(tk_pen_link_param(&none, 0, key, 2, &len, value, 2, &other) == TK_NO_HANDLE);
    CHECK(tk_link_param_at(&none, 1, 0, 0, key, 2, &len, value, 2, &other) == TK_NO_HANDLE);
    CHECK(len == 99 && other == 99);
    CHECK(tk_pen_link_param(&surface, 0, key, 1, &len, value, 2, &other) == TK_SHORT);
    CHECK(len == 2 && other == 1);
    len = other = 99;
    CHECK(tk_link_param_at(&surface, 1, 0, 0, key, 2, &len, value, 0, &other) == TK_SHORT);
    CHECK(len == 2 && other == 1 && memcmp(key, "..", 2) == 0 && memcmp(value, "..", 2) == 0);
    CHECK(tk_pen_link_param(&surface, 0, key, 2, &len, value, 1, &other) == TK_DONE);
    CHECK(memcmp(key, "id", 2) == 0 && memcmp(value, "7.", 2) == 0);
    tk_free(&surface);
    tk_free(&client);
}

int main(void) {
    test_list();
    test_screens();
    test_regions();
    test_shown();
    test_short();
    test_params();
    printf("%d checks\n", checks);
    return failures != 0;
}
