/* Lists of changes, as structs and as bytes: what each kind does, and each fault. It ends with
 * `N checks`, and with status 1 where any of them failed. */
#include "checks.h"
#include "tikeburo.h"
#include <stdint.h>
#include <stdio.h>
#include <string.h>

/* Makes these changes, whose texts are this one. */
static tk_status make(tk_handle *surface, const tk_change *list, size_t count, const char *texts) {
    return tk_add_changes(surface, list, count, texts, strlen(texts));
}

static tk_change text_of(uint8_t kind, size_t len) {
    return (tk_change){.kind = kind, .first = len};
}

static tk_change move_of(size_t column, size_t row, size_t from) {
    return (tk_change){.kind = TK_CHANGE_MOVE, .first = column, .second = row, .third = from};
}

/* Texts stand behind one another, whatever comes between. */
static void test_texts(void) {
    tk_handle surface = made(8, 2), none = TK_NONE;
    const tk_change list[] = {
        text_of(TK_CHANGE_TEXT, 2),  move_of(3, 1, 0),
        text_of(TK_CHANGE_TITLE, 3), text_of(TK_CHANGE_LINK, 1),
        text_of(TK_CHANGE_TEXT, 3),  text_of(TK_CHANGE_NO_LINK, 9),
        text_of(TK_CHANGE_TEXT, 0),  text_of(TK_CHANGE_TEXT, 1),
    };
    CHECK(make(&surface, list, 0, "") == TK_DONE && number_is(&surface, 0));
    CHECK(make(&none, list, COUNT(list), "hinewuかx") == TK_NO_HANDLE);
    CHECK(make(&surface, list, COUNT(list), "hinewuかx") == TK_DONE);
    CHECK(number_is(&surface, COUNT(list)));
    CHECK(screen_is(&surface, "hi\n   かx\n") && title_is(&surface, "new"));
    CHECK(link_is(&surface, 3, 1, "u") && link_is(&surface, 5, 1, ""));
    tk_free(&surface);
}

/* By the first fault a list is refused, and then none of it is made. */
static void test_refused(void) {
    tk_handle surface = made(4, 2);
    const tk_change x = text_of(TK_CHANGE_TEXT, 1), past = text_of(TK_CHANGE_TEXT, 2);
    const tk_change region = {.kind = TK_CHANGE_SCROLL_UP, .first = 1, .second = 2, .third = 1};
    for (unsigned kind = TK_CHANGE_LINE_ATTRIBUTE + 1; kind < 256; kind++) {
        const tk_change list[] = {x, {.kind = (uint8_t)kind}};
        CHECK(make(&surface, list, 2, "x") == TK_RANGE);
    }
    CHECK(make(&surface, (tk_change[]){x, past}, 2, "xy") == TK_RANGE);
    CHECK(make(&surface, (tk_change[]){x}, 1, "xy") == TK_RANGE);
    CHECK(make(&surface, (tk_change[]){x}, 0, "x") == TK_RANGE);
    CHECK(make(&surface, (tk_change[]){x, x}, 2, "x\xff") == TK_UNREADABLE);
    CHECK(make(&surface, (tk_change[]){x, x}, 2, "\u00e9") == TK_UNREADABLE); /* one text is cut */
    CHECK(make(&surface, (tk_change[]){x, region}, 2, "x") == TK_REGION);
    CHECK(make(&surface, (tk_change[]){past, x}, 2, "\xff") == TK_RANGE); /* the first fault */
    CHECK(make(&surface, (tk_change[]){x, past}, 2, "\xff") == TK_UNREADABLE);
    for (size_t from = 0; from < 32; from++) {
        const tk_change move = move_of(0, 0, from);
        CHECK(make(&surface, &move, 1, "") == (from % 4 < 3 && from / 4 < 3 ? TK_DONE : TK_RANGE));
    }
    CHECK(number_is(&surface, 9) && screen_is(&surface, "\n\n"));
    tk_free(&surface);
}

/* A place on each axis is counted from the first one, from the cursor, or from the end. */
static void test_moves(void) {
    tk_handle surface = made(10, 6);
    const tk_change to = move_of(4, 3, 0), by = move_of((size_t)-2, 1, TK_COLUMN_RELATIVE);
    CHECK(tk_add_change(&surface, to) == TK_DONE && cursor_is(&surface, 4, 3));
    CHECK(tk_add_change(&surface, by) == TK_DONE && cursor_is(&surface, 2, 1));
    CHECK(tk_add_change(&surface, move_of(1, (size_t)-1, TK_ROW_RELATIVE)) == TK_DONE);
    CHECK(cursor_is(&surface, 1, 0));
    CHECK(tk_add_change(&surface, move_of(3, 1, TK_COLUMN_FROM_END + TK_ROW_FROM_END)) == TK_DONE);
    CHECK(cursor_is(&surface, 7, 5));
    tk_free(&surface);
}

/* A pen may have a link, which then needs no change of its own. */
static void test_pens(void) {
    tk_handle surface = made(4, 1);
    tk_change pen = {.kind = TK_CHANGE_PEN, .first = 3};
    pen.attributes.italic = true;
    pen.attributes.foreground = (tk_color){.kind = TK_COLOR_PALETTE, .index = 4};
    const tk_change list[] = {pen, text_of(TK_CHANGE_TEXT, 1), {.kind = TK_CHANGE_PEN},
                              text_of(TK_CHANGE_TEXT, 1)};
    CHECK(make(&surface, list, COUNT(list), "uriab") == TK_DONE);
    tk_cell cell = cell_at(&surface, 0, 0, "a");
    CHECK(cell.attributes.italic && cell.has_link && link_is(&surface, 0, 0, "uri"));
    CHECK(same_color(cell.attributes.foreground, pen.attributes.foreground));
    cell = cell_at(&surface, 1, 0, "b");
    CHECK(!cell.attributes.italic && !cell.has_link);
    pen.attributes.underline = TK_UNDERLINE_DASHED + 1;
    CHECK(make(&surface, &pen, 1, "\xff..") == TK_RANGE); /* before its text */
    pen.attributes.underline = TK_UNDERLINE_DASHED;
    CHECK(make(&surface, &pen, 1, "\xff..") == TK_UNREADABLE);
    tk_free(&surface);
}

/* The calls that make one change take no text for a text of no bytes. */
static void test_no_text(void) {
    tk_handle surface = made(4, 1);
    CHECK(tk_set_title(&surface, "x", 1) == TK_DONE && title_is(&surface, "x"));
    CHECK(tk_set_title(&surface, NULL, 0) == TK_DONE && title_is(&surface, ""));
    CHECK(tk_print(&surface, NULL, 0) == TK_DONE && tk_set_link(&surface, NULL, 0) == TK_DONE);
    CHECK(number_is(&surface, 4));
    tk_free(&surface);
}

/* What isn't logged shows and counts like what is, has the same faults, and is sent as a whole. */
static void test_unlogged(void) {
    tk_handle surface = made(8, 2), other = made(8, 2), client = made_client(), none = TK_NONE;
    const tk_change list[] = {
        text_of(TK_CHANGE_TEXT, 2),  move_of(3, 1, 0),
        text_of(TK_CHANGE_TITLE, 3), text_of(TK_CHANGE_LINK, 1),
        text_of(TK_CHANGE_TEXT, 3),  text_of(TK_CHANGE_NO_LINK, 9),
    };
    const char *const texts = "hinewuか";
    const tk_change past = text_of(TK_CHANGE_TEXT, 2), x = text_of(TK_CHANGE_TEXT, 1);
    const tk_change region = {.kind = TK_CHANGE_SCROLL_UP, .first = 1, .second = 2, .third = 1};
    CHECK(tk_add_list(&surface, list, 0, "", 0, true, false, &surface) == TK_NO_HANDLE);
    CHECK(tk_add_list(&surface, list, 0, "", 0, true, true, &none) == TK_NO_HANDLE);
    CHECK(tk_add_list(&surface, list, 0, "", 0, true, true, &client) == TK_WRONG_KIND);
    CHECK(tk_add_list(&surface, list, 0, "", 0, true, false, &client) == TK_DONE); /* unread */
    CHECK(tk_add_unlogged(&surface, list, 0, "", 0) == TK_DONE && number_is(&surface, 0));
    CHECK(tk_add_unlogged(&none, list, COUNT(list), texts, strlen(texts)) == TK_NO_HANDLE);
    CHECK(tk_add_unlogged(&client, list, COUNT(list), texts, strlen(texts)) == TK_WRONG_KIND);
    CHECK(tk_add_unlogged(&surface, list, COUNT(list), texts, strlen(texts)) == TK_DONE);
    CHECK(number_is(&surface, COUNT(list)) && title_is(&surface, "new"));
    CHECK(screen_is(&surface, "hi\n   か\n") && link_is(&surface, 3, 1, "u"));
    bytes answer = answer_to(&surface, &client);
    CHECK(feed(&client, &answer) == TK_DONE && screen_is(&client, "hi\n   か\n"));

    CHECK(tk_add_unlogged(&surface, (tk_change[]){x, past}, 2, "xy", 2) == TK_RANGE);
    CHECK(tk_add_unlogged(&surface, &x, 1, "\xff", 1) == TK_UNREADABLE);
    CHECK(tk_add_unlogged(&surface, (tk_change[]){x, region}, 2, "x", 1) == TK_REGION);
    CHECK(number_is(&surface, COUNT(list)) && screen_is(&surface, "hi\n   か\n"));

    /* Of two surfaces that show the same, one sends the change, and one all. */
    CHECK(make(&other, list, COUNT(list), texts) == TK_DONE);
    tk_handle follower = made_client();
    answer = answer_to(&other, &follower);
    CHECK(feed(&follower, &answer) == TK_DONE);
    CHECK(make(&other, &x, 1, "x") == TK_DONE);
    CHECK(tk_add_unlogged(&surface, &x, 1, "x", 1) == TK_DONE);
    const bytes delta = answer_to(&other, &follower), repaint = answer_to(&surface, &client);
    CHECK(delta.len < repaint.len);
    CHECK(feed(&follower, &delta) == TK_DONE && feed(&client, &repaint) == TK_DONE);
    CHECK(screen_is(&client, "hi\n   かx\n") && screen_is(&follower, "hi\n   かx\n"));
    tk_free(&surface);
    tk_free(&other);
    tk_free(&client);
    tk_free(&follower);
}

static void test_encoded_lists(void) {
    tk_handle surface = made(6, 2), none = TK_NONE;
    const uint8_t nothing[] = {0x80};
    const uint8_t hello[] = {0x82, 0x82, 2, 0x62, 'h', 'i', 0x82, 8, 6}; /* a text, a shape */
    const uint8_t kana[] = {0x81, 0x83, 2, 0x63, 0xe3, 0x81, 0x8b, 0x83, 1, 1, 2};
    const uint8_t no_pieces[] = {0x81, 0x82, 2, 0x63, 0xe3, 0x81, 0x8b};
    const uint8_t region[] = {0x81, 0x84, 10, 1, 2, 1};
    const uint8_t behind[] = {0x80, 0};
    const uint8_t no_text[] = {0x81, 0x82, 2, 0x61, 0xff};
    CHECK(tk_add_encoded(&surface, nothing, sizeof nothing) == TK_DONE);
    CHECK(number_is(&surface, 0));
    CHECK(tk_add_encoded(&surface, hello, sizeof hello) == TK_DONE);
    CHECK(number_is(&surface, 2) && row_is(&surface, 0, "hi"));
    for (size_t len = 0; len < sizeof hello; len++)
        CHECK(tk_add_encoded(&surface, hello, len) == TK_TRUNCATED);
    CHECK(tk_add_encoded(&surface, region, sizeof region) == TK_REGION);
    CHECK(tk_add_encoded(&surface, behind, sizeof behind) == TK_UNREADABLE);
    CHECK(tk_add_encoded(&surface, no_text, sizeof no_text) == TK_UNREADABLE);
    CHECK(tk_add_encoded(&surface, no_pieces, sizeof no_pieces) == TK_UNREADABLE);
    CHECK(tk_add_encoded(&none, hello, sizeof hello) == TK_NO_HANDLE);
    CHECK(number_is(&surface, 2) && row_is(&surface, 0, "hi"));
    CHECK(tk_add_encoded(&surface, kana, sizeof kana) == TK_DONE);
    CHECK(number_is(&surface, 3) && row_is(&surface, 0, "hiか"));
    tk_free(&surface);
}

int main(void) {
    test_texts();
    test_refused();
    test_moves();
    test_pens();
    test_no_text();
    test_unlogged();
    test_encoded_lists();
    printf("%d checks\n", checks);
    return failures != 0;
}
