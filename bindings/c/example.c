/* Carries a screen to a client as bytes, and prints the rows that the client shows.
 *
 *     cc example.c $(pkg-config --cflags --libs tikeburo) -o example && ./example
 *
 * It ends with status 0, with 3 where memory was refused, and with 1 after any other error. */
#include "tikeburo.h"
#include <stdio.h>
#include <stdlib.h>
#include <string.h>
#include <sys/random.h>

/* Returns an error of the call from the function that it stands in. */
#define TRY(call)                                                                                  \
    do {                                                                                           \
        tk_status tried = (call);                                                                  \
        if (tried != TK_DONE)                                                                      \
            return tried;                                                                          \
    } while (0)

/* A buffer that grows to the length that a call needs. */
typedef struct buffer {
    void *at;
    size_t room;
    size_t len;
} buffer;

static tk_status grow(buffer *buffer, size_t room) {
    void *at = realloc(buffer->at, room);
    if (at == NULL)
        return TK_MEMORY;
    buffer->at = at;
    buffer->room = room;
    return TK_DONE;
}

static tk_status print(tk_handle *surface, const char *text) {
    return tk_print(surface, text, strlen(text));
}

/* Draws a heading in bold white on blue, and two lines below it. */
static tk_status draw(tk_handle *surface) {
    tk_color blue = {.kind = TK_COLOR_PALETTE, .index = 4};
    tk_color white = {.kind = TK_COLOR_TRUE, .red = 255, .green = 255, .blue = 255};
    tk_attributes heading = {
        .intensity = TK_INTENSITY_BOLD, .foreground = white, .background = blue};
    tk_attributes plain = {0};

    TRY(tk_set_pen(surface, &heading));
    TRY(print(surface, " notes \r\n"));
    TRY(tk_set_pen(surface, &plain));
    TRY(print(surface, "hello か\r\n"));
    return print(surface, "same screen");
}

/* A number that no other surface has: 64 random bits, but not 0. */
static size_t source_number(void) {
    size_t number = 0;
    while (number == 0 && getrandom(&number, sizeof number, 0) >= 0) {
    }
    return number;
}

/* What the client lacks of the surface goes into the buffer, and from there to the client: ask and
 * answer could go over any connection in between. */
static tk_status deliver(tk_handle *surface, tk_handle *client, buffer *bytes) {
    uint8_t ask[20];
    size_t ask_len, taken;
    tk_fault fault;
    TRY(tk_client_ask(client, ask, sizeof ask, &ask_len));
    tk_status status = tk_respond(surface, ask, ask_len, bytes->at, bytes->room, &bytes->len);
    while (status == TK_SHORT) {
        TRY(grow(bytes, bytes->len));
        status = tk_respond(surface, ask, ask_len, bytes->at, bytes->room, &bytes->len);
    }
    TRY(status);
    TRY(tk_client_feed(client, bytes->at, bytes->len, &taken, &fault));
    printf("%zu bytes ask, %zu answer\n", ask_len, bytes->len);
    return TK_DONE;
}

static tk_status print_rows(tk_handle *client, buffer *text) {
    size_t width, height;
    TRY(tk_size(client, &width, &height));
    for (size_t row = 0; row < height; row++) {
        tk_status status = tk_row_text(client, row, false, text->at, text->room, &text->len);
        if (status == TK_SHORT) {
            TRY(grow(text, text->len));
            status = tk_row_text(client, row, false, text->at, text->room, &text->len);
        }
        TRY(status);
        printf("|%.*s|\n", (int)text->len, (const char *)text->at);
    }
    return TK_DONE;
}

static tk_status run(tk_handle *surface, tk_handle *client, buffer *buffer) {
    TRY(grow(buffer, 16));
    TRY(tk_surface_new(surface, 12, 3, TK_WIDTHS_UNICODE, source_number()));
    TRY(tk_client_new(client, TK_WIDTHS_UNICODE, TK_USUAL_CELLS, TK_USUAL_BYTES));
    TRY(draw(surface));
    TRY(deliver(surface, client, buffer)); /* a repaint, since the client is new */
    TRY(tk_move_to(surface, 6, 1));
    TRY(print(surface, "world"));
    TRY(deliver(surface, client, buffer)); /* these two changes alone */
    return print_rows(client, buffer);
}

int main(void) {
    tk_handle surface = TK_NONE, client = TK_NONE;
    buffer buffer = {0};
    tk_status status = run(&surface, &client, &buffer);
    tk_free(&client);
    tk_free(&surface);
    free(buffer.at);
    if (status == TK_MEMORY) {
        fputs("example: out of memory\n", stderr);
        return 3;
    }
    if (status != TK_DONE) {
        fprintf(stderr, "example: %s\n", tk_strerror(status));
        return 1;
    }
    return 0;
}
