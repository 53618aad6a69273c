/* Handles that are NULL, and handles that are given twice to a call that takes two. It ends with
 * `N checks`, and with status 1 where any of them failed. */
#include "checks.h"
#include "tikeburo.h"
#include <stdio.h>

/* What a diff writes, which is as it was where the call is refused. */
static tk_change change = {.first = 77};
static char text = 't';
static tk_list_counts counts = {.changes = 7, .texts = 8, .number = 9};

static tk_status draw(tk_handle *handle) { return tk_draw(handle, handle, 1, 0); }
static tk_status draw_from(tk_handle *handle) {
    return tk_draw_from(handle, handle, 0, 0, 1, 1, 1, 0);
}
static tk_status view(tk_handle *handle) { return tk_viewer_new(handle, handle); }
static tk_status follow(tk_handle *handle) { return tk_follow(handle, handle); }
static tk_status push(tk_handle *handle) { return tk_lines_push_row(handle, handle, 0); }
static tk_status draw_line(tk_handle *handle) { return tk_draw_line(handle, 0, handle, 0); }
static tk_status add(tk_handle *handle) {
    return tk_add_changes_scrolling(handle, NULL, 0, NULL, 0, handle);
}
static tk_status add_unlogged(tk_handle *handle) {
    return tk_add_unlogged_scrolling(handle, NULL, 0, NULL, 0, handle);
}
static tk_status diff_screens(tk_handle *handle) {
    return tk_diff_screens(handle, handle, &change, 1, &text, 1, &counts);
}
static tk_status diff_region(tk_handle *handle) {
    return tk_diff_region(handle, 0, 0, 2, 1, handle, 1, 0, &change, 1, &text, 1, &counts);
}

/* Each call that takes two handles, with one. */
static const struct {
    const char *name;
    tk_status (*give_twice)(tk_handle *handle);
} CALLS[] = {{"tk_draw", draw},
             {"tk_draw_from", draw_from},
             {"tk_viewer_new", view},
             {"tk_follow", follow},
             {"tk_lines_push_row", push},
             {"tk_draw_line", draw_line},
             {"tk_add_changes_scrolling", add},
             {"tk_add_unlogged_scrolling", add_unlogged},
             {"tk_diff_screens", diff_screens},
             {"tk_diff_region", diff_region}};

/* Each call refuses the handle, which has what it had. */
static void refuse_each(tk_handle *handle, const char *row, size_t number) {
    for (size_t call = 0; call < sizeof CALLS / sizeof *CALLS; call++) {
        check(CALLS[call].give_twice(handle) == TK_NO_HANDLE, CALLS[call].name, __LINE__);
        check(row_is(handle, 0, row), CALLS[call].name, __LINE__);
        check(number_is(handle, number), CALLS[call].name, __LINE__);
    }
    CHECK(change.first == 77 && text == 't');
    CHECK(counts.changes == 7 && counts.texts == 8 && counts.number == 9);
}

static void test_given_twice(void) {
    tk_handle surface = made(6, 1), viewer = TK_NONE, client = made_client(), none = TK_NONE;
    CHECK(print(&surface, "かx") == TK_DONE);
    CHECK(tk_viewer_new(&viewer, &surface) == TK_DONE);
    CHECK(tk_follow(&viewer, &surface) == TK_DONE);
    bytes answer = answer_to(&surface, &client);
    CHECK(feed(&client, &answer) == TK_DONE);
    refuse_each(&surface, "かx", 1);
    size_t followed = 0, fed = 0;
    CHECK(tk_number(&viewer, &followed) == TK_DONE && tk_number(&client, &fed) == TK_DONE);
    refuse_each(&viewer, "かx", followed);
    refuse_each(&client, "かx", fed);
    for (size_t call = 0; call < sizeof CALLS / sizeof *CALLS; call++)
        check(CALLS[call].give_twice(&none) == TK_NO_HANDLE, CALLS[call].name, __LINE__);
    /* Each of them is used on. */
    CHECK(print(&surface, "y") == TK_DONE && tk_follow(&viewer, &surface) == TK_DONE);
    answer = answer_to(&surface, &client);
    CHECK(feed(&client, &answer) == TK_DONE);
    CHECK(row_is(&viewer, 0, "かxy") && row_is(&client, 0, "かxy"));
    tk_free(&surface);
    tk_free(&viewer);
    tk_free(&client);
}

static void test_null(void) {
    tk_handle surface = made(2, 1);
    tk_free(NULL);
    CHECK(size_is(&surface, 2, 1));
    tk_free(&surface);
    tk_free(&surface);
    tk_free(NULL);
    CHECK(!surface.is_live);
}

int main(void) {
    test_given_twice();
    test_null();
    printf("%d checks\n", checks);
    return failures != 0;
}
