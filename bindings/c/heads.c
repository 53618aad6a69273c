/* What answers say at their heads, and what asks say. It ends with `N checks`, and with status 1
 * where any of them failed. */
#include "checks.h"
#include "tikeburo.h"
#include <stdint.h>
#include <stdio.h>
#include <string.h>

static bool same_head(const tk_head *a, const tk_head *b) {
    return a->source == b->source && a->width == b->width && a->height == b->height &&
           a->base == b->base && a->number == b->number && a->changes == b->changes;
}

/* Bytes, and what they say at the head of an answer, or why they say nothing. */
static const struct {
    const char *name;
    uint8_t bytes[48];
    size_t len;
    tk_status status;
    tk_head head;
} CASES[] = {
    {"a repaint", {0x87, 2, 1, 4, 3, 0, 4, 0x80}, 8, TK_DONE, {1, 4, 3, 0, 4, 0}},
    {"a delta", {0x87, 2, 7, 4, 3, 5, 6, 0x81, 0x82, 9, 0xf4}, 11, TK_DONE, {7, 4, 3, 5, 6, 1}},
    {"no change is there", {0x87, 2, 1, 4, 3, 0, 4, 0x83}, 8, TK_DONE, {1, 4, 3, 0, 4, 3}},
    {"a change is wrong", {0x87, 2, 1, 4, 3, 0, 4, 0x81, 0xff}, 9, TK_DONE, {1, 4, 3, 0, 4, 1}},
    {"another answer follows",
     {0x87, 2, 1, 4, 3, 0, 4, 0x80, 0x87},
     9,
     TK_DONE,
     {1, 4, 3, 0, 4, 0}},
    {"all are the greatest",
     {0x87, 2,   0x1b, 255, 255, 255, 255, 255,  255, 255, 255, 0x1a, 255, 255,
      255,  255, 0x1a, 255, 255, 255, 255, 0x1b, 255, 255, 255, 255,  255, 255,
      255,  254, 0x1b, 255, 255, 255, 255, 255,  255, 255, 255, 0x80},
     40,
     TK_DONE,
     {SIZE_MAX, 4294967295, 4294967295, SIZE_MAX - 1, SIZE_MAX, 0}},
    {"no bytes", {0}, 0, TK_TRUNCATED, {0}},
    {"no number", {0x87, 2, 1, 4, 3, 0}, 6, TK_TRUNCATED, {0}},
    {"no count of changes", {0x87, 2, 1, 4, 3, 0, 4}, 7, TK_TRUNCATED, {0}},
    {"half a count", {0x87, 2, 1, 4, 3, 0, 4, 0x99, 1}, 9, TK_TRUNCATED, {0}},
    {"another version", {0x87, 1}, 2, TK_UNREADABLE, {0}},
    {"an ask", {0x83, 2, 0, 0}, 4, TK_UNREADABLE, {0}},
    {"no source", {0x87, 2, 0}, 3, TK_UNREADABLE, {0}},
    {"no column", {0x87, 2, 1, 0}, 4, TK_UNREADABLE, {0}},
    {"no row", {0x87, 2, 1, 4, 0}, 5, TK_UNREADABLE, {0}},
    {"a number before the base", {0x87, 2, 1, 4, 3, 5, 4}, 7, TK_UNREADABLE, {0}},
    {"a number of two forms", {0x87, 2, 0x18, 1}, 4, TK_UNREADABLE, {0}},
    {"no list", {0x87, 2, 1, 4, 3, 0, 4, 4}, 8, TK_UNREADABLE, {0}},
    {"more changes than an answer may have bytes",
     {0x87, 2, 1, 4, 3, 0, 4, 0x9b, 255, 255, 255, 255, 255, 255, 255, 255},
     16,
     TK_UNREADABLE,
     {0}},
};

static void test_cases(void) {
    for (size_t i = 0; i < sizeof CASES / sizeof *CASES; i++) {
        tk_head head = {.source = 0};
        tk_status status = tk_answer_head(CASES[i].bytes, CASES[i].len, &head);
        check(status == CASES[i].status, CASES[i].name, __LINE__);
        check(same_head(&head, &CASES[i].head), CASES[i].name, __LINE__);
    }
}

/* Each front of an answer says the same from where its head ends. */
static void test_fronts(const bytes *answer, const tk_head *wanted) {
    size_t end = 0;
    for (size_t len = 0; len <= answer->len; len++) {
        tk_head head = {.source = 0};
        tk_status status = tk_answer_head(answer->at, len, &head);
        CHECK(status == TK_DONE ? same_head(&head, wanted)
                                : status == TK_TRUNCATED && head.source == 0 && end == 0);
        if (status == TK_DONE && end == 0)
            end = len;
    }
    CHECK(end > 0 && end <= answer->len);
}

/* What a surface's answer to the client says, which is fed it. */
static tk_head answered(tk_handle *surface, tk_handle *client) {
    bytes answer = answer_to(surface, client);
    tk_head head = {.source = 0};
    CHECK(tk_answer_head(answer.at, answer.len, &head) == TK_DONE);
    test_fronts(&answer, &head);
    CHECK(feed(client, &answer) == TK_DONE);
    return head;
}

/* They name the surface, and lead on from what the client shows to what the surface shows. */
static void test_answers(void) {
    tk_handle surface = made(8, 2), client = made_client();
    tk_settings state;
    size_t number = 0;
    CHECK(tk_state(&surface, &state) == TK_DONE);
    CHECK(print(&surface, "かx") == TK_DONE && tk_number(&surface, &number) == TK_DONE);
    tk_head head = answered(&surface, &client);
    CHECK(head.source == state.source && head.base == 0 && head.number == number);
    CHECK(head.width == 8 && head.height == 2);
    CHECK(print(&surface, "y") == TK_DONE && tk_clear_link(&surface) == TK_DONE);
    head = answered(&surface, &client);
    CHECK(same_head(&head, &(tk_head){state.source, 8, 2, number, number + 2, 2}));
    head = answered(&surface, &client);
    CHECK(same_head(&head, &(tk_head){state.source, 8, 2, number + 2, number + 2, 0}));
    CHECK(tk_resize(&surface, 300, 2) == TK_DONE);
    head = answered(&surface, &client);
    CHECK(head.base == 0 && head.width == 300 && head.height == 2);
    tk_free(&surface);
    tk_free(&client);
}

/* Two numbers, and the ask that they make. */
static const struct {
    size_t source;
    size_t number;
    uint8_t bytes[20];
    size_t len;
} ASKS[] = {
    {0, 0, {0x83, 2, 0, 0}, 4},
    {7, 0, {0x83, 2, 7, 0}, 4},
    {23, 24, {0x83, 2, 23, 0x18, 24}, 5},
    {256, 70000, {0x83, 2, 0x19, 1, 0, 0x1a, 0, 1, 0x11, 0x70}, 10},
    {SIZE_MAX,
     SIZE_MAX,
     {0x83, 2,    0x1b, 255, 255, 255, 255, 255, 255, 255,
      255,  0x1b, 255,  255, 255, 255, 255, 255, 255, 255},
     20},
};

/* Bytes that are no ask, and why. */
static const struct {
    uint8_t bytes[8];
    size_t len;
    tk_status status;
} NO_ASKS[] = {
    {{0}, 0, TK_TRUNCATED},
    {{0x83, 2, 7}, 3, TK_TRUNCATED},
    {{0x83, 2, 7, 0x19, 1}, 5, TK_TRUNCATED},
    {{0x83, 2, 7, 5, 0x83}, 5, TK_UNREADABLE},
    {{0x83, 1, 7, 5}, 4, TK_UNREADABLE},
    {{0x83, 2, 0, 5}, 4, TK_UNREADABLE},
    {{0x83, 2, 7, 0x18, 5}, 5, TK_UNREADABLE},
    {{0x87, 2, 1, 4, 3, 0, 4, 0x80}, 8, TK_UNREADABLE},
};

static void test_asks(void) {
    for (size_t i = 0; i < COUNT(ASKS); i++) {
        uint8_t bytes[20];
        size_t len = 99, source = 99, number = 99;
        CHECK(tk_make_ask(ASKS[i].source, ASKS[i].number, bytes, sizeof bytes, &len) == TK_DONE);
        CHECK(len == ASKS[i].len && memcmp(bytes, ASKS[i].bytes, len) == 0);
        CHECK(tk_make_ask(ASKS[i].source, ASKS[i].number, bytes, len - 1, &len) == TK_SHORT);
        CHECK(len == ASKS[i].len);
        CHECK(tk_read_ask(bytes, len, &source, &number) == TK_DONE);
        CHECK(source == ASKS[i].source && number == ASKS[i].number);
    }
    for (size_t i = 0; i < COUNT(NO_ASKS); i++) {
        size_t source = 98, number = 99;
        tk_status status = tk_read_ask(NO_ASKS[i].bytes, NO_ASKS[i].len, &source, &number);
        CHECK(status == NO_ASKS[i].status && source == 98 && number == 99);
    }
    uint8_t bytes[20] = {0};
    size_t len = 99;
    CHECK(tk_make_ask(0, 1, bytes, sizeof bytes, &len) == TK_RANGE && len == 99 && bytes[0] == 0);
}

int main(void) {
    test_cases();
    test_answers();
    test_asks();
    printf("%d checks\n", checks);
    return failures != 0;
}
