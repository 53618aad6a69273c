/* Moves a handle to another thread after each call by which it may have got links of another
 * handle, and works with both at once. Two handles that had a link together would change its count
 * from two threads, which valgrind's helgrind reports. It ends with `N checks`, and with status 1
 * where any of them failed. */
#include "checks.h"
#include "tikeburo.h"
#include <pthread.h>
#include <stdint.h>
#include <stdio.h>
#include <string.h>

enum { WIDTH = 24, HEIGHT = 4 };

static const tk_color DEFAULT = TK_DEFAULT_COLOR;

/* Two handles, of which one moves to another thread. */
typedef struct pair {
    tk_handle moved;
    tk_handle kept;
} pair;

static tk_handle made_lines(void) {
    tk_handle lines = TK_NONE;
    CHECK(tk_lines_new(&lines) == TK_DONE);
    return lines;
}

static void print_linked(tk_handle *surface, const char *uri, const char *text) {
    CHECK(tk_set_link(surface, uri, strlen(uri)) == TK_DONE);
    CHECK(print(surface, text) == TK_DONE);
}

/* A surface of which each row has links, and so has the pen. */
static tk_handle made_linked(void) {
    tk_handle surface = made(WIDTH, HEIGHT);
    print_linked(&surface, "urn:first", "first link か\r\n");
    print_linked(&surface, "urn:second", "second\r\n");
    print_linked(&surface, "urn:first", "first again\r\nthe last row");
    return surface;
}

static tk_handle made_fed(tk_handle *surface) {
    tk_handle client = made_client();
    bytes answer = answer_to(surface, &client);
    CHECK(feed(&client, &answer) == TK_DONE);
    return client;
}

/* ---- What is done with a handle, on any thread ---- */

static bool is_done(tk_status status) { return status == TK_DONE; }

static bool draws_screen(tk_handle *screen) {
    tk_handle copy = TK_NONE;
    bool done = is_done(tk_surface_new(&copy, WIDTH, HEIGHT, TK_WIDTHS_UNICODE, 1));
    for (int i = 0; i < 20; i++) {
        done &= is_done(tk_draw(&copy, screen, 0, 0));
        done &= is_done(tk_clear_screen(&copy, &DEFAULT));
    }
    tk_free(&copy);
    return done;
}

/* Changes counts of the surface's own links. */
static bool changes_surface(tk_handle *surface) {
    bool done = true;
    for (int i = 0; i < 20; i++) {
        done &= is_done(tk_copy(surface, 0, 0, WIDTH, 2, 0, 2));
        done &= is_done(tk_print(surface, "more\r\n", 6));
    }
    done &= is_done(tk_clear_link(surface));
    return done && is_done(tk_clear_screen(surface, &DEFAULT));
}

static bool changes_lines(tk_handle *lines, size_t count) {
    tk_handle copy = TK_NONE;
    bool done = is_done(tk_surface_new(&copy, WIDTH, HEIGHT, TK_WIDTHS_UNICODE, 1));
    for (size_t i = 0; i < count; i++)
        done &= is_done(tk_draw_line(&copy, i % HEIGHT, lines, i));
    tk_free(&copy);
    done &= is_done(tk_lines_wrap(lines, 5)) && is_done(tk_lines_count(lines, &count));
    done &= is_done(tk_lines_compress(lines, 0, count));
    return done && is_done(tk_lines_remove(lines, 0, count));
}

/* Works with a handle, frees it, and returns NULL unless a call failed. */
static void *use(void *argument) {
    tk_handle *handle = argument;
    size_t count = 0;
    bool done;
    if (tk_lines_count(handle, &count) == TK_DONE) {
        done = changes_lines(handle, count);
    } else {
        done = draws_screen(handle);
        if (tk_print(handle, "", 0) != TK_WRONG_KIND)
            done &= changes_surface(handle);
    }
    tk_free(handle);
    return done ? NULL : argument;
}

static void test_at_once(pair handles, const char *what) {
    pthread_t thread;
    void *failed = &handles;
    check(pthread_create(&thread, NULL, use, &handles.moved) == 0, what, __LINE__);
    check(use(&handles.kept) == NULL, what, __LINE__);
    check(pthread_join(thread, &failed) == 0 && failed == NULL, what, __LINE__);
}

/* ---- How a handle gets links of another one ---- */

static pair drawn(void) {
    pair handles = {made(WIDTH, HEIGHT), made_linked()};
    CHECK(tk_draw(&handles.moved, &handles.kept, 0, 0) == TK_DONE);
    return handles;
}

static pair drawn_from_client(void) {
    tk_handle surface = made_linked();
    pair handles = {made(WIDTH, HEIGHT), made_fed(&surface)};
    CHECK(tk_draw(&handles.moved, &handles.kept, 0, 0) == TK_DONE);
    tk_free(&surface);
    return handles;
}

static pair repainted(void) {
    pair handles = {TK_NONE, made_linked()};
    CHECK(tk_viewer_new(&handles.moved, &handles.kept) == TK_DONE);
    CHECK(tk_follow(&handles.moved, &handles.kept) == TK_DONE);
    return handles;
}

static pair brought_up(void) {
    pair handles = repainted();
    print_linked(&handles.kept, "urn:new", "new");
    CHECK(tk_follow(&handles.moved, &handles.kept) == TK_DONE);
    return handles;
}

static pair following_viewer(void) {
    pair first = repainted();
    pair handles = {TK_NONE, first.moved};
    CHECK(tk_viewer_new(&handles.moved, &handles.kept) == TK_DONE);
    CHECK(tk_follow(&handles.moved, &handles.kept) == TK_DONE);
    tk_free(&first.kept);
    return handles;
}

static pair fed(void) {
    pair handles = {TK_NONE, made_linked()};
    handles.moved = made_fed(&handles.kept);
    return handles;
}

static pair pushed(void) {
    pair handles = {made_lines(), made_linked()};
    for (size_t row = 0; row < HEIGHT; row++)
        CHECK(tk_lines_push_row(&handles.moved, &handles.kept, row) == TK_DONE);
    return handles;
}

/* A surface on which lines are drawn, as they are stored or compressed. */
static pair drawn_line(bool compressed) {
    pair first = pushed();
    pair handles = {made(WIDTH, HEIGHT), first.moved};
    tk_free(&first.kept);
    if (compressed)
        CHECK(tk_lines_compress(&handles.kept, 0, HEIGHT) == TK_DONE);
    for (size_t row = 0; row < HEIGHT; row++)
        CHECK(tk_draw_line(&handles.moved, row, &handles.kept, row) == TK_DONE);
    return handles;
}

static pair drawn_stored_line(void) { return drawn_line(false); }

static pair drawn_compressed_line(void) { return drawn_line(true); }

/* Rows with the link of the pen, which stays, scroll off to lines. */
static pair scrolled(bool logged, bool by_region) {
    pair handles = {made_lines(), made_linked()};
    const tk_change list[] = {
        {.kind = by_region ? TK_CHANGE_SCROLL_UP : TK_CHANGE_TEXT,
         .first = by_region ? 0 : 10,
         .second = HEIGHT,
         .third = 3},
    };
    const char *text = by_region ? "" : "\r\na\r\nb\r\nc\r";
    tk_status status =
        logged
            ? tk_add_changes_scrolling(&handles.kept, list, 1, text, strlen(text), &handles.moved)
            : tk_add_unlogged_scrolling(&handles.kept, list, 1, text, strlen(text), &handles.moved);
    CHECK(status == TK_DONE);
    return handles;
}

static pair scrolled_by_text(void) { return scrolled(true, false); }

static pair scrolled_unlogged(void) { return scrolled(false, false); }

static pair scrolled_by_region(void) { return scrolled(true, true); }

int main(void) {
    static const struct {
        pair (*make)(void);
        const char *name;
    } WAYS[] = {
        {drawn, "drawn"},
        {drawn_from_client, "drawn from a client"},
        {repainted, "repainted"},
        {brought_up, "brought up to date"},
        {following_viewer, "following a viewer"},
        {fed, "fed"},
        {pushed, "pushed"},
        {drawn_stored_line, "a line is drawn"},
        {drawn_compressed_line, "a compressed line is drawn"},
        {scrolled_by_text, "scrolled by a text"},
        {scrolled_unlogged, "scrolled, and not logged"},
        {scrolled_by_region, "scrolled by a region"},
    };
    for (size_t i = 0; i < COUNT(WAYS); i++)
        test_at_once(WAYS[i].make(), WAYS[i].name);
    printf("%d checks\n", checks);
    return failures > 0;
}
