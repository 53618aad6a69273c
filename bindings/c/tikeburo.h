/* tikeburo.h: surfaces of a terminal, viewers and clients that show them, and the bytes between.
 *
 * A surface holds what a terminal's screen shows, with no terminal behind it. Changes go in, as a
 * list of structs, one by one, or as bytes. A viewer shows what a surface of its process shows. A
 * client shows what a surface of any process shows: it asks by bytes (tk_client_ask), the surface
 * answers by bytes (tk_respond), and tk_client_feed takes them, in whatever chunks they come.
 * A list of lines keeps rows, as a terminal's scrollback does.
 *
 * What a caller keeps, and nothing checks:
 *
 * - No viewer and no client comes to know two surfaces of one number, of this process or another:
 *   64 random bits for each will do (tk_surface_new).
 * - A handle is all zero before its first call, and never written by the caller afterwards. It may
 *   be moved, as by memcpy or realloc, and not used twice: a call takes it at its new place alone.
 *   tk_free frees what it has, and may be called again; the handle may then be used for another
 *   value.
 * - One call at a time has a handle, on any thread. No two handles share memory, so that calls with
 *   others may run meanwhile.
 * - A pointer is never NULL, also where its length is 0, unless a call says that it may be; but a
 *   buffer that a call writes into may be, where its room is 0. A length is not above what lies at
 *   the pointer, buffers don't overlap, and nothing that a call reads is written meanwhile.
 * - A bool is 0 or 1.
 * - malloc, realloc and free are those of one allocator, which aligns blocks as C's own does. No
 *   call comes from a signal handler, or from the forked child of a process with threads.
 *
 * The library keeps no pointer of the caller's after a call, but for one to a table of widths
 * (tk_surface_new_by). No call aborts.
 *
 * A call that takes two handles returns TK_NO_HANDLE where they are one, and has changed nothing.
 * These calls and tk_free are inline functions, which test their handles. A program in another
 * language calls what they stand on, tk_free_handle and the functions whose names end in _distinct:
 * those take no NULL, and two handles that are distinct.
 *
 * Columns and rows are counted from 0. A text is UTF-8 with no zero at its end, and lengths are in
 * bytes. Where a call writes into a buffer of the caller's, `room` is its length and `*len` gets
 * the length that is needed: where the room is too short, the call returns TK_SHORT and has written
 * nothing but `*len`. After any other error `*len` is as it was too.
 *
 * Link with libtikeburo, as `make install` beside this file makes it: `pkg-config --cflags --libs
 * tikeburo` has the words. What it is made of does too: libtikeburo_c.a, liblibc_c.a and libos_c.a,
 * in this order. */
#ifndef TIKEBURO_H
#define TIKEBURO_H

/* The version of this header, and of the library that it comes with. */
#define TK_VERSION "0.9.0"
#define TK_VERSION_MAJOR 0
#define TK_VERSION_MINOR 9
#define TK_VERSION_PATCH 0
#define TK_VERSION_NUMBER 9000

#include <stdbool.h>
#include <stddef.h>
#include <stdint.h>

#ifdef __cplusplus
extern "C" {
#endif

/* What a call returns. Each call names the errors that it may return beside TK_NO_HANDLE, and
 * TK_MEMORY where it takes memory. Unless it says more, an error has changed nothing. */
typedef int32_t tk_status;
enum {
    TK_DONE = 0,         /* done */
    TK_MEMORY = 1,       /* memory was refused */
    TK_UNREADABLE = 2,   /* a text is no UTF-8, or bytes are no encoding of what is wanted */
    TK_TRUNCATED = 3,    /* bytes end before what is wanted does: more would have to come */
    TK_REGION = 4,       /* the region of a scroll goes past the last row */
    TK_NUMBERS = 5,      /* the numbers of changes are used up */
    TK_NO_HANDLE = 6,    /* a handle has no value, or is given twice */
    TK_WRONG_KIND = 7,   /* a handle has another kind of value than a call takes */
    TK_RANGE = 8,        /* a row, a column, a size or another number is outside of its range */
    TK_SHORT = 9,        /* the buffer is too short: *len is the length that is needed */
    TK_OTHER_WIDTHS = 10 /* what two handles have was measured by different widths (tk_widths) */
};

/* What a status says, in English, with no full stop. The text is never NULL, and stays as it is. */
static inline const char *tk_strerror(tk_status status) {
    switch (status) {
    case TK_DONE:
        return "done";
    case TK_MEMORY:
        return "memory was refused";
    case TK_UNREADABLE:
        return "the text is no UTF-8, or the bytes can't be read";
    case TK_TRUNCATED:
        return "the bytes end too early";
    case TK_REGION:
        return "the region of a scroll goes past the last row";
    case TK_NUMBERS:
        return "the numbers of changes are used up";
    case TK_NO_HANDLE:
        return "a handle has no value, or is given twice";
    case TK_WRONG_KIND:
        return "the handle has a value of another kind";
    case TK_RANGE:
        return "a row, a column, a size or another number is outside of its range";
    case TK_SHORT:
        return "the buffer is too short";
    case TK_OTHER_WIDTHS:
        return "what the two handles have was measured by different widths";
    default:
        return "unknown status";
    }
}

/* TK_VERSION, of the header that a program is compiled with. */
static inline const char *tk_version(void) { return TK_VERSION; }

/* The version of the library that a program runs with, as TK_VERSION_NUMBER is that of its header:
 * 1000000 times the first of its numbers, 1000 times the second, and the third. A shared library
 * may be another than the one that the program was made with. */
size_t tk_version_number(void);

/* A handle on a surface, a viewer, a client or lines, or on none. */
typedef struct tk_handle {
    void *at;
    bool is_live;
} tk_handle;
#define TK_NONE { NULL, false }

/* A colour. What its kind doesn't name is not read, and is 0 where a call writes it. */
typedef struct tk_color {
    uint8_t kind;
    uint8_t red;
    uint8_t green;
    uint8_t blue;
    uint8_t index;
} tk_color;
enum {
    TK_COLOR_DEFAULT = 0,            /* the default */
    TK_COLOR_PALETTE = 1,            /* this index of the palette */
    TK_COLOR_TRUE = 2,               /* red, green, blue; where there are none, the default */
    TK_COLOR_TRUE_OR_PALETTE = 3     /* red, green, blue; where there are none, this index */
};

/* Attributes of a text, but its link. All zero are the default ones. */
typedef struct tk_attributes {
    uint8_t intensity;      /* TK_INTENSITY_NORMAL .. */
    uint8_t underline;      /* TK_UNDERLINE_NONE .. */
    uint8_t blink;          /* TK_BLINK_NONE .. */
    uint8_t semantic_type;  /* TK_SEMANTIC_OUTPUT .. */
    uint8_t vertical_align; /* TK_ALIGN_BASE_LINE .. */
    bool italic;
    bool reverse;
    bool strikethrough;
    bool invisible;
    bool wrapped;           /* the row was wrapped after this cell */
    bool overline;
    tk_color foreground;
    tk_color background;
    tk_color underline_color;
} tk_attributes;
#define TK_DEFAULT_COLOR { 0, 0, 0, 0, 0 }
#define TK_DEFAULT_ATTRIBUTES \
    { 0, 0, 0, 0, 0, false, false, false, false, false, false, TK_DEFAULT_COLOR, \
      TK_DEFAULT_COLOR, TK_DEFAULT_COLOR }
enum { TK_INTENSITY_NORMAL = 0, TK_INTENSITY_BOLD = 1, TK_INTENSITY_HALF = 2 };
enum {
    TK_UNDERLINE_NONE = 0,
    TK_UNDERLINE_SINGLE = 1,
    TK_UNDERLINE_DOUBLE = 2,
    TK_UNDERLINE_CURLY = 3,
    TK_UNDERLINE_DOTTED = 4,
    TK_UNDERLINE_DASHED = 5
};
enum { TK_BLINK_NONE = 0, TK_BLINK_SLOW = 1, TK_BLINK_RAPID = 2 };
enum { TK_SEMANTIC_OUTPUT = 0, TK_SEMANTIC_INPUT = 1, TK_SEMANTIC_PROMPT = 2 };
enum { TK_ALIGN_BASE_LINE = 0, TK_ALIGN_SUPER_SCRIPT = 1, TK_ALIGN_SUB_SCRIPT = 2 };

/* A cell of a screen, but its text and its link. */
typedef struct tk_cell {
    uint8_t columns; /* 1 or 2 */
    bool has_link;
    tk_attributes attributes;
} tk_cell;

/* What is set beside the rows. `source` is the number of the surface, or of the one that a viewer
 * or a client shows, and `number` that of its coming change when it was as it is shown: 0 where it
 * isn't shown yet. Both are 0 where none is shown that has a number. */
typedef struct tk_settings {
    size_t source;
    size_t number;
    bool is_full;          /* whether answers carry all of this too, as all of this library's do */
    bool has_link;         /* whether the pen has a link, which tk_pen_link reads */
    uint8_t cursor_shape;  /* TK_CURSOR_DEFAULT .. */
    tk_color cursor_color; /* the default one where the cursor has none of its own */
    tk_attributes pen;     /* the attributes of coming texts */
} tk_settings;

/* ---- Surfaces ---- */

/* How texts are measured. */
enum {
    TK_WIDTHS_UNICODE = 0,    /* by the Unicode tables: 0 to 2 columns */
    TK_WIDTHS_ONE_COLUMN = 1, /* one column for each grapheme */
    TK_WIDTHS_TABLE = 2       /* by a table, which tk_surface_new_by and its siblings take */
};

/* Makes a blank surface of this width in columns and height in rows, each from 1 to 2^32 - 1, with
 * the cursor home and shown, and no change so far. `source` is its number as a source of answers,
 * from 1 on: by it viewers and clients know it from other surfaces. What the handle had is freed.
 * TK_RANGE: width, height, widths or source. */
tk_status tk_surface_new(tk_handle *surface, size_t width, size_t height, uint8_t widths,
                         size_t source);

/* The characters from the first to the last, by their numbers in Unicode, of this many columns. */
typedef struct tk_width_range {
    uint32_t first;
    uint32_t last;
    uint8_t columns; /* 0, 1 or 2, and 1 where one of them is printable ASCII */
} tk_width_range;

/* Makes a surface as tk_surface_new does, which measures by a table, as by what wcwidth says. Its
 * ranges rise, and no two have the same character. A grapheme has the columns of its characters
 * together, and at most 2. Unicode says those of a character that is in no range, and those of a
 * grapheme none of whose characters is in one. The table is not copied: it stays as it is, and
 * where it is, as long as the program runs. TK_RANGE: width, height, the table or source. */
tk_status tk_surface_new_by(tk_handle *surface, size_t width, size_t height,
                            const tk_width_range *ranges, size_t len, size_t source);

void tk_free_handle(tk_handle *handle);

/* Frees what the handle has, of any kind, if it has anything. It has nothing then. Nothing is done
 * where it is NULL. */
static inline void tk_free(tk_handle *handle) {
    if (handle != NULL)
        tk_free_handle(handle);
}

/* Takes another size, each from 1 to 2^32 - 1: rows are cut or filled with blanks, and the cursor
 * stays inside. TK_RANGE, TK_NUMBERS, TK_WRONG_KIND. */
tk_status tk_resize(tk_handle *surface, size_t width, size_t height);

/* The number of the coming change, 0 at first. A viewer or a client has one of its own. */
tk_status tk_number(tk_handle *handle, size_t *number);

/* ---- Reading: of a surface, or of what a viewer or a client shows ----
 *
 * TK_WRONG_KIND: the handle has lines. */

/* The width in columns and the height in rows. */
tk_status tk_size(tk_handle *handle, size_t *width, size_t *height);

/* By which widths texts are measured: *kind is TK_WIDTHS_UNICODE .., and a table has *count ranges,
 * which are copied; other widths have 0. TK_SHORT: it is a table, and *kind is as it was too.
 *
 * A call that draws, compares or follows returns TK_OTHER_WIDTHS where its two handles have widths
 * of two kinds, or tables whose ranges differ. Where a table lies makes no difference. */
tk_status tk_widths(tk_handle *handle, uint8_t *kind, tk_width_range *ranges, size_t room,
                    size_t *count);

/* The cursor's column and row. The column is the width where a wrap is pending. */
tk_status tk_cursor(tk_handle *handle, size_t *column, size_t *row);

/* Whether the cursor is shown. */
tk_status tk_cursor_is_visible(tk_handle *handle, bool *is_visible);

/* The title, empty at first. TK_SHORT. */
tk_status tk_title(tk_handle *handle, char *text, size_t room, size_t *len);

/* What is set beside the rows: the pen, and the cursor's shape and colour. */
tk_status tk_state(tk_handle *handle, tk_settings *state);

/* The uri of the pen's link, which is empty where it has none. TK_SHORT. */
tk_status tk_pen_link(tk_handle *handle, char *uri, size_t room, size_t *len);

/* A param of the pen's link by its index from 0, in the order of their keys: the `id` of OSC 8, and
 * what else it may have. TK_RANGE: the link has no param of this index, or there is no link.
 * TK_SHORT: one of the two buffers is too short, and nothing is written but the lengths that are
 * needed, *key_len and *value_len. */
tk_status tk_pen_link_param(tk_handle *handle, size_t index, char *key, size_t key_room,
                            size_t *key_len, char *value, size_t value_room, size_t *value_len);

/* For each row from the top 1 if it may show something else than when what is shown had the number
 * since (tk_number), in its cells or in how large it is shown, and 0 if it doesn't: *count rows.
 * Each row may where since is 0. TK_SHORT. */
tk_status tk_changed_rows(tk_handle *handle, size_t since, uint8_t *rows, size_t room,
                          size_t *count);

/* The texts of all rows' visible cells within their stored lengths, with a line feed after each
 * row. TK_SHORT. */
tk_status tk_screen_text(tk_handle *handle, char *text, size_t room, size_t *len);

/* The texts of a row's visible cells: with `filled` of all that the row shows, up to the width, and
 * else of those within its stored length, after which it shows default blanks. TK_RANGE: the row.
 * TK_SHORT. */
tk_status tk_row_text(tk_handle *handle, size_t row, bool filled, char *text, size_t room,
                      size_t *len);

/* How large a row is shown: TK_LINE_DOUBLE_HEIGHT_TOP_HALF .. TK_RANGE: the row. */
tk_status tk_line_attribute(tk_handle *handle, size_t row, uint8_t *attribute);

/* The cell at a column of a row: its text into the buffer, and the rest into *cell. The next
 * cell is `cell->columns` further: the second column of a wide cell holds a blank one.
 * TK_RANGE: the row or the column. TK_SHORT: *cell is as it was too. */
tk_status tk_cell_at(tk_handle *handle, size_t column, size_t row, tk_cell *cell, char *text,
                     size_t room, size_t *len);

/* The uri of the link that the cell at a column of a row has, which is empty where it has none.
 * TK_RANGE: the row or the column. TK_SHORT. */
tk_status tk_link_at(tk_handle *handle, size_t column, size_t row, char *uri, size_t room,
                     size_t *len);

/* A param of the link that the cell at a column of a row has, as tk_pen_link_param has those of the
 * pen's. TK_RANGE: the row, the column or the index. TK_SHORT. */
tk_status tk_link_param_at(tk_handle *handle, size_t column, size_t row, size_t index, char *key,
                           size_t key_room, size_t *key_len, char *value, size_t value_room,
                           size_t *value_len);

/* A visible cell of a row that is read at once. */
typedef struct tk_row_cell {
    size_t begin;    /* where its text begins in the row's text */
    size_t len;      /* how long its text is */
    size_t run;      /* which of the row's attributes it has */
    uint8_t columns; /* 1 or 2 */
    bool has_link;
} tk_row_cell;

/* How many of each a row has. */
typedef struct tk_row_counts {
    size_t cells;
    size_t attributes;
    size_t text;
} tk_row_counts;

/* A row at once: its visible cells from the left, within its stored length; the attributes of each
 * run of cells that have the same ones and the same link; and the texts of the cells, one after
 * another. After the last cell the row shows default blanks. *counts says how many there are of
 * each. TK_RANGE: the row. TK_SHORT: one of the three is too short, and nothing is written but
 * *counts. After any other error *counts is as it was too. */
tk_status tk_row_cells(tk_handle *handle, size_t row, tk_row_cell *cells, size_t cell_room,
                       tk_attributes *attributes, size_t attribute_room, char *text, size_t room,
                       tk_row_counts *counts);

/* Reads all that the row shows, as tk_row_cells reads what is stored: default blanks stand behind
 * the stored cells, so that the cells take each column of the width. */
tk_status tk_shown_cells(tk_handle *handle, size_t row, tk_row_cell *cells, size_t cell_room,
                         tk_attributes *attributes, size_t attribute_room, char *text, size_t room,
                         tk_row_counts *counts);

/* ---- Texts, as surfaces cut and measure them. They are read whole, at each call. ---- */

/* The columns of a text by these widths: the sum over its graphemes, each of which has 0 to 2. A
 * cell has at least 1, also where its grapheme has none, as a combining mark by itself.
 * TK_RANGE: widths. TK_UNREADABLE: the text is no UTF-8. */
tk_status tk_text_width(const char *text, size_t len, uint8_t widths, size_t *columns);

/* The same by a table of widths (tk_surface_new_by), which is read whole, and not kept.
 * TK_RANGE: the table. TK_UNREADABLE: the text is no UTF-8. */
tk_status tk_text_width_by(const char *text, size_t len, const tk_width_range *ranges,
                           size_t count, size_t *columns);

/* The length of the first grapheme of a text, 0 of the empty one. What follows it is cut as a text
 * of its own. TK_UNREADABLE: the text is no UTF-8. */
tk_status tk_first_grapheme(const char *text, size_t len, size_t *bytes);

/* ---- Changes of a surface ----
 *
 * Each call takes a surface. Each change is logged with a number, one above the one before. What no
 * answer can need is forgotten by itself, also where a change is refused. TK_WRONG_KIND: the handle
 * has another kind. TK_NUMBERS: there are too few numbers left. TK_MEMORY: either there was none
 * for the changes themselves, and nothing has changed, or the surface may show anything in its
 * size, and its log is empty. */

/* A change. Its kind says what of it is read. */
typedef struct tk_change {
    uint8_t kind; /* TK_CHANGE_TEXT .. */
    tk_attributes attributes;
    size_t first;
    size_t second;
    size_t third;
} tk_change;
enum {
    /* The next `first` bytes of the list's texts: are printed at the cursor with the pen, where CR
     * goes to the first column, LF to the next row, and other control characters of ASCII are
     * spaces; are the title; or are the pen's link. The last `second` bytes of a link are its id,
     * which is its one param, `id`, as OSC 8 has it, and the others its uri. Where `second` is 0 it
     * has no param. TK_RANGE: `second` is above `first`. */
    TK_CHANGE_TEXT = 0,
    TK_CHANGE_TITLE = 1,
    TK_CHANGE_LINK = 2,
    TK_CHANGE_NO_LINK = 3,
    /* The pen, the attributes of coming texts, is `attributes`, with the link that the next `first`
     * bytes of the texts are, as above, where `first` isn't 0; or the pen has this one of the
     * attributes. */
    TK_CHANGE_PEN = 4,
    TK_CHANGE_INTENSITY = 5,
    TK_CHANGE_UNDERLINE = 6,
    TK_CHANGE_BLINK = 7,
    TK_CHANGE_ITALIC = 8,
    TK_CHANGE_REVERSE = 9,
    TK_CHANGE_STRIKETHROUGH = 10,
    TK_CHANGE_INVISIBLE = 11,
    TK_CHANGE_FOREGROUND = 12,
    TK_CHANGE_BACKGROUND = 13,
    /* The cursor goes to column `first` and row `second`, as far as it goes, which `third` says how
     * to count: the sum of one of TK_COLUMN_* and one of TK_ROW_*. */
    TK_CHANGE_MOVE = 14,
    /* All is cleared, and the cursor goes home; or from the cursor to its row's end; or from there
     * to the last row's end. What is cleared, and the pen, have the background of `attributes` and
     * no other attribute. */
    TK_CHANGE_CLEAR_SCREEN = 15,
    TK_CHANGE_CLEAR_TO_END_OF_LINE = 16,
    TK_CHANGE_CLEAR_TO_END_OF_SCREEN = 17,
    /* `third` rows, at most all, are taken off the top or the bottom of the region of `second` rows
     * that begins at row `first`, and as many default ones are added at its other end. */
    TK_CHANGE_SCROLL_UP = 18,
    TK_CHANGE_SCROLL_DOWN = 19,
    /* The cursor is shown unless `first` is 0; has the shape of number `first`, TK_CURSOR_DEFAULT
     * ..; or has the foreground of `attributes` as its colour. */
    TK_CHANGE_CURSOR_VISIBILITY = 20,
    TK_CHANGE_CURSOR_SHAPE = 21,
    TK_CHANGE_CURSOR_COLOR = 22,
    /* The cursor's line is shown as `first` says, TK_LINE_DOUBLE_HEIGHT_TOP_HALF .. */
    TK_CHANGE_LINE_ATTRIBUTE = 23
};
/* From the first column or row on; from the cursor, where (size_t)-1 is one to the left or up; or
 * so far from the end. */
#define TK_COLUMN_ABSOLUTE ((size_t)0)
#define TK_COLUMN_RELATIVE ((size_t)1)
#define TK_COLUMN_FROM_END ((size_t)2)
#define TK_ROW_ABSOLUTE ((size_t)0)
#define TK_ROW_RELATIVE ((size_t)4)
#define TK_ROW_FROM_END ((size_t)8)
enum {
    TK_CURSOR_DEFAULT = 0,
    TK_CURSOR_BLINKING_BLOCK = 1,
    TK_CURSOR_STEADY_BLOCK = 2,
    TK_CURSOR_BLINKING_UNDERLINE = 3,
    TK_CURSOR_STEADY_UNDERLINE = 4,
    TK_CURSOR_BLINKING_BAR = 5,
    TK_CURSOR_STEADY_BAR = 6
};
enum {
    TK_LINE_DOUBLE_HEIGHT_TOP_HALF = 0,
    TK_LINE_DOUBLE_HEIGHT_BOTTOM_HALF = 1,
    TK_LINE_DOUBLE_WIDTH = 2,
    TK_LINE_SINGLE_WIDTH = 3
};

tk_status tk_add_list_distinct(tk_handle *surface, const tk_change *changes, size_t count,
                               const char *texts, size_t len, bool is_logged, bool keeps_lines,
                               tk_handle *lines);

/* Makes a list of changes in order, whose texts stand behind one another in `texts`, and logs it or
 * not. Where lines are kept, the rows that the changes scroll off the top of the surface go to the
 * end of the lines, the first one first: a text scrolls rows off, and a scroll up of a region that
 * begins with row 0. Where none are kept, `lines` is any other handle, as one of TK_NONE. The four
 * calls below are this one.
 *
 * A list that has a fault changes nothing, and its first fault is returned. TK_RANGE: a change's
 * kind or another of its numbers is out of its range, its text goes past the end of the texts, or
 * bytes of these are left after the last change. TK_UNREADABLE: a text is no UTF-8. TK_REGION.
 * TK_WRONG_KIND: `lines` has no lines, where they are kept. After an error no line is added, but
 * after TK_MEMORY the first of these rows may have been. */
static inline tk_status tk_add_list(tk_handle *surface, const tk_change *changes, size_t count,
                                    const char *texts, size_t len, bool is_logged,
                                    bool keeps_lines, tk_handle *lines) {
    if (surface == lines)
        return TK_NO_HANDLE;
    return tk_add_list_distinct(surface, changes, count, texts, len, is_logged, keeps_lines, lines);
}

/* Makes a list of changes and logs it. */
static inline tk_status tk_add_changes(tk_handle *surface, const tk_change *changes, size_t count,
                                       const char *texts, size_t len) {
    tk_handle none = TK_NONE;
    return tk_add_list(surface, changes, count, texts, len, true, false, &none);
}

/* Makes a list of changes and logs none of them: no text is copied, and no memory is taken for
 * answers. It is for a surface that nobody follows: whoever does is sent the whole screen the next
 * time, unless nothing has changed. What was logged before is forgotten, and the number grows as by
 * tk_add_changes. */
static inline tk_status tk_add_unlogged(tk_handle *surface, const tk_change *changes, size_t count,
                                        const char *texts, size_t len) {
    tk_handle none = TK_NONE;
    return tk_add_list(surface, changes, count, texts, len, false, false, &none);
}

/* Makes a list of changes, as tk_add_changes does, and keeps the rows that they scroll off. */
static inline tk_status tk_add_changes_scrolling(tk_handle *surface, const tk_change *changes,
                                                 size_t count, const char *texts, size_t len,
                                                 tk_handle *lines) {
    return tk_add_list(surface, changes, count, texts, len, true, true, lines);
}

/* Makes a list of changes, as tk_add_unlogged does, and keeps the rows that they scroll off. */
static inline tk_status tk_add_unlogged_scrolling(tk_handle *surface, const tk_change *changes,
                                                  size_t count, const char *texts, size_t len,
                                                  tk_handle *lines) {
    return tk_add_list(surface, changes, count, texts, len, false, true, lines);
}

/* How many changes and bytes of texts a list has, and the number that it leads to. */
typedef struct tk_list_counts {
    size_t changes;
    size_t texts;
    size_t number;
} tk_list_counts;

/* The changes that a viewer of your own lacks which was last given the number `since`, 0 at first,
 * as tk_add_changes takes them: those since then, or changes that draw all anew on any screen of
 * this size, where the number is 0, is no longer known, or too many changes came since. It reads a
 * surface, or what a viewer or a client shows. What a change's kind doesn't name is 0. A link has
 * its uri alone, without its params, and a pen no link to an empty uri. counts->number is what to
 * ask with next. TK_SHORT: one of the two is too short, and nothing is written but *counts. After
 * any other error *counts is as it was too. */
tk_status tk_get_changes(tk_handle *handle, size_t since, tk_change *changes, size_t change_room,
                         char *texts, size_t room, tk_list_counts *counts);

/* A buffer, or some other pointer where it is NULL: its room is 0 then, and nothing is written. */
#define TK_BUFFER_OF(name, type)                                                                   \
    static inline type *name(type *buffer) {                                                       \
        static type none;                                                                          \
        return buffer != NULL ? buffer : &none;                                                    \
    }
TK_BUFFER_OF(tk_text_buffer, char)
TK_BUFFER_OF(tk_byte_buffer, uint8_t)
TK_BUFFER_OF(tk_change_buffer, tk_change)
TK_BUFFER_OF(tk_cell_buffer, tk_row_cell)
TK_BUFFER_OF(tk_attribute_buffer, tk_attributes)
TK_BUFFER_OF(tk_range_buffer, tk_width_range)
#undef TK_BUFFER_OF

tk_status tk_diff_screens_distinct(tk_handle *handle, tk_handle *other, tk_change *changes,
                                   size_t change_room, char *texts, size_t room,
                                   tk_list_counts *counts);

/* The changes that turn what the first handle shows into what the other one shows, as
 * tk_get_changes writes changes: each handle has a surface, or a viewer or a client that shows one.
 * They are moves, pens and texts alone, and print each cell that differs once. Moves count from
 * column 0 and row 0, and a move and a whole pen come before the first text. Made by a surface that
 * shows what the first one shows and has its widths, they give it the other one's rows, in which
 * links have their uris alone. There are none where the rows are equal. Where the sizes differ,
 * what fits in both is compared. Cursor, title, and what else is set beside the rows, are not
 * compared. counts->number is 0. TK_OTHER_WIDTHS. TK_SHORT: as above. */
static inline tk_status tk_diff_screens(tk_handle *handle, tk_handle *other, tk_change *changes,
                                        size_t change_room, char *texts, size_t room,
                                        tk_list_counts *counts) {
    if (handle == other)
        return TK_NO_HANDLE;
    return tk_diff_screens_distinct(handle, other, tk_change_buffer(changes), change_room,
                                    tk_text_buffer(texts), room, counts);
}

tk_status tk_diff_region_distinct(tk_handle *handle, size_t column, size_t row, size_t width,
                                  size_t height, tk_handle *other, size_t other_column,
                                  size_t other_row, tk_change *changes, size_t change_room,
                                  char *texts, size_t room, tk_list_counts *counts);

/* As tk_diff_screens, of the region of this column, row, width and height, which is compared with
 * that of this size at another column and row of the other one. Both are cut to what fits, and
 * where one begins outside, there are no changes. A wide grapheme that crosses an edge of its
 * region is printed whole. TK_OTHER_WIDTHS. TK_SHORT: as above. */
static inline tk_status tk_diff_region(tk_handle *handle, size_t column, size_t row, size_t width,
                                       size_t height, tk_handle *other, size_t other_column,
                                       size_t other_row, tk_change *changes, size_t change_room,
                                       char *texts, size_t room, tk_list_counts *counts) {
    if (handle == other)
        return TK_NO_HANDLE;
    return tk_diff_region_distinct(handle, column, row, width, height, other, other_column,
                                   other_row, tk_change_buffer(changes), change_room,
                                   tk_text_buffer(texts), room, counts);
}

/* Makes a list of changes, which these bytes encode: the array `[* change]` of docs/stream.cddl
 * and nothing after it. A text in it has the pieces that the surface cuts and measures: where they
 * aren't known, tk_print prints it. TK_TRUNCATED: the bytes end before the list does.
 * TK_UNREADABLE: they are wrong at a byte, or more follow the list. TK_REGION. */
tk_status tk_add_encoded(tk_handle *surface, const uint8_t *bytes, size_t len);

/* The calls from here on make one change each, of the kind above that has their name, and return
 * what tk_add_changes does. A text may be NULL where its length is 0. */

static inline tk_status tk_add_change(tk_handle *surface, tk_change change) {
    return tk_add_changes(surface, &change, 1, "", 0);
}

static inline tk_status tk_add_text(tk_handle *surface, uint8_t kind, const char *text,
                                    size_t len) {
    tk_change change = { kind, TK_DEFAULT_ATTRIBUTES, len, 0, 0 };
    return tk_add_changes(surface, &change, 1, text != NULL ? text : "", len);
}

static inline tk_status tk_add_pen(tk_handle *surface, uint8_t kind, tk_attributes attributes) {
    tk_change change = { kind, attributes, 0, 0, 0 };
    return tk_add_change(surface, change);
}

static inline tk_status tk_add_numbers(tk_handle *surface, uint8_t kind, size_t first,
                                       size_t second, size_t third) {
    tk_change change = { kind, TK_DEFAULT_ATTRIBUTES, first, second, third };
    return tk_add_change(surface, change);
}

static inline tk_status tk_print(tk_handle *surface, const char *text, size_t len) {
    return tk_add_text(surface, TK_CHANGE_TEXT, text, len);
}
static inline tk_status tk_set_title(tk_handle *surface, const char *title, size_t len) {
    return tk_add_text(surface, TK_CHANGE_TITLE, title, len);
}
static inline tk_status tk_set_link(tk_handle *surface, const char *uri, size_t len) {
    return tk_add_text(surface, TK_CHANGE_LINK, uri, len);
}
static inline tk_status tk_clear_link(tk_handle *surface) {
    return tk_add_numbers(surface, TK_CHANGE_NO_LINK, 0, 0, 0);
}

/* To this column and row, or by this many, below 0 to the left or up. */
static inline tk_status tk_move_to(tk_handle *surface, size_t column, size_t row) {
    return tk_add_numbers(surface, TK_CHANGE_MOVE, column, row, 0);
}
static inline tk_status tk_move_by(tk_handle *surface, ptrdiff_t columns, ptrdiff_t rows) {
    return tk_add_numbers(surface, TK_CHANGE_MOVE, (size_t)columns, (size_t)rows,
                          TK_COLUMN_RELATIVE + TK_ROW_RELATIVE);
}

static inline tk_status tk_set_pen(tk_handle *surface, const tk_attributes *attributes) {
    return tk_add_pen(surface, TK_CHANGE_PEN, *attributes);
}
static inline tk_status tk_set_intensity(tk_handle *surface, uint8_t intensity) {
    tk_attributes attributes = TK_DEFAULT_ATTRIBUTES;
    attributes.intensity = intensity;
    return tk_add_pen(surface, TK_CHANGE_INTENSITY, attributes);
}
static inline tk_status tk_set_underline(tk_handle *surface, uint8_t underline) {
    tk_attributes attributes = TK_DEFAULT_ATTRIBUTES;
    attributes.underline = underline;
    return tk_add_pen(surface, TK_CHANGE_UNDERLINE, attributes);
}
static inline tk_status tk_set_blink(tk_handle *surface, uint8_t blink) {
    tk_attributes attributes = TK_DEFAULT_ATTRIBUTES;
    attributes.blink = blink;
    return tk_add_pen(surface, TK_CHANGE_BLINK, attributes);
}
static inline tk_status tk_set_italic(tk_handle *surface, bool is_on) {
    tk_attributes attributes = TK_DEFAULT_ATTRIBUTES;
    attributes.italic = is_on;
    return tk_add_pen(surface, TK_CHANGE_ITALIC, attributes);
}
static inline tk_status tk_set_reverse(tk_handle *surface, bool is_on) {
    tk_attributes attributes = TK_DEFAULT_ATTRIBUTES;
    attributes.reverse = is_on;
    return tk_add_pen(surface, TK_CHANGE_REVERSE, attributes);
}
static inline tk_status tk_set_strikethrough(tk_handle *surface, bool is_on) {
    tk_attributes attributes = TK_DEFAULT_ATTRIBUTES;
    attributes.strikethrough = is_on;
    return tk_add_pen(surface, TK_CHANGE_STRIKETHROUGH, attributes);
}
static inline tk_status tk_set_invisible(tk_handle *surface, bool is_on) {
    tk_attributes attributes = TK_DEFAULT_ATTRIBUTES;
    attributes.invisible = is_on;
    return tk_add_pen(surface, TK_CHANGE_INVISIBLE, attributes);
}
static inline tk_status tk_set_foreground(tk_handle *surface, const tk_color *color) {
    tk_attributes attributes = TK_DEFAULT_ATTRIBUTES;
    attributes.foreground = *color;
    return tk_add_pen(surface, TK_CHANGE_FOREGROUND, attributes);
}
static inline tk_status tk_set_background(tk_handle *surface, const tk_color *color) {
    tk_attributes attributes = TK_DEFAULT_ATTRIBUTES;
    attributes.background = *color;
    return tk_add_pen(surface, TK_CHANGE_BACKGROUND, attributes);
}

static inline tk_status tk_clear_screen(tk_handle *surface, const tk_color *background) {
    tk_attributes attributes = TK_DEFAULT_ATTRIBUTES;
    attributes.background = *background;
    return tk_add_pen(surface, TK_CHANGE_CLEAR_SCREEN, attributes);
}
static inline tk_status tk_clear_to_end_of_line(tk_handle *surface, const tk_color *background) {
    tk_attributes attributes = TK_DEFAULT_ATTRIBUTES;
    attributes.background = *background;
    return tk_add_pen(surface, TK_CHANGE_CLEAR_TO_END_OF_LINE, attributes);
}
static inline tk_status tk_clear_to_end_of_screen(tk_handle *surface, const tk_color *background) {
    tk_attributes attributes = TK_DEFAULT_ATTRIBUTES;
    attributes.background = *background;
    return tk_add_pen(surface, TK_CHANGE_CLEAR_TO_END_OF_SCREEN, attributes);
}

static inline tk_status tk_scroll_up(tk_handle *surface, size_t first, size_t rows,
                                     size_t count) {
    return tk_add_numbers(surface, TK_CHANGE_SCROLL_UP, first, rows, count);
}
static inline tk_status tk_scroll_down(tk_handle *surface, size_t first, size_t rows,
                                       size_t count) {
    return tk_add_numbers(surface, TK_CHANGE_SCROLL_DOWN, first, rows, count);
}

static inline tk_status tk_show_cursor(tk_handle *surface, bool is_visible) {
    return tk_add_numbers(surface, TK_CHANGE_CURSOR_VISIBILITY, is_visible, 0, 0);
}
static inline tk_status tk_set_cursor_shape(tk_handle *surface, uint8_t shape) {
    return tk_add_numbers(surface, TK_CHANGE_CURSOR_SHAPE, shape, 0, 0);
}
static inline tk_status tk_set_cursor_color(tk_handle *surface, const tk_color *color) {
    tk_attributes attributes = TK_DEFAULT_ATTRIBUTES;
    attributes.foreground = *color;
    return tk_add_pen(surface, TK_CHANGE_CURSOR_COLOR, attributes);
}
static inline tk_status tk_set_line_attribute(tk_handle *surface, uint8_t attribute) {
    return tk_add_numbers(surface, TK_CHANGE_LINE_ATTRIBUTE, attribute, 0, 0);
}

tk_status tk_draw_from_distinct(tk_handle *surface, tk_handle *source, size_t column, size_t row,
                                size_t width, size_t height, size_t to_column, size_t to_row);

/* Draws what the region of this column, row, width and height of the source shows, of any kind, at
 * another column and row. Both are cut to what fits. Cursor and pen are as before. It is logged as
 * a list of changes. TK_OTHER_WIDTHS. */
static inline tk_status tk_draw_from(tk_handle *surface, tk_handle *source, size_t column,
                                     size_t row, size_t width, size_t height, size_t to_column,
                                     size_t to_row) {
    if (surface == source)
        return TK_NO_HANDLE;
    return tk_draw_from_distinct(surface, source, column, row, width, height, to_column, to_row);
}

/* Draws all that the source shows, from this column and row on, as tk_draw_from does. */
static inline tk_status tk_draw(tk_handle *surface, tk_handle *source, size_t column, size_t row) {
    return tk_draw_from(surface, source, 0, 0, SIZE_MAX, SIZE_MAX, column, row);
}

/* Copies what the region of this column, row, width and height shows to the region of this size at
 * another column and row. Both are cut to what fits. It is logged as a list of changes: where they
 * print anything, the cursor is after what they printed last, and the pen is the one of that. */
tk_status tk_copy(tk_handle *surface, size_t column, size_t row, size_t width, size_t height,
                  size_t to_column, size_t to_row);

/* Copies as tk_copy does, and leaves cursor and pen as before. */
tk_status tk_draw_region(tk_handle *surface, size_t column, size_t row, size_t width,
                         size_t height, size_t to_column, size_t to_row);

tk_status tk_draw_line_distinct(tk_handle *surface, size_t row, tk_handle *lines, size_t index);

/* Draws a line of a list on a row: the row shows what the line does, cut or with default blanks
 * after it. Where there is no such row, nothing is drawn. Cursor and pen are as before. It is
 * logged as a list of changes. TK_RANGE: index. TK_OTHER_WIDTHS: a cell of the line has another
 * width than the surface measures for its text; nothing is drawn. */
static inline tk_status tk_draw_line(tk_handle *surface, size_t row, tk_handle *lines,
                                     size_t index) {
    return surface == lines ? TK_NO_HANDLE : tk_draw_line_distinct(surface, row, lines, index);
}

/* ---- Lists of lines: rows that are kept, as a terminal's scrollback ----
 *
 * The lines are counted from 0, the oldest one first. TK_WRONG_KIND: the handle has none. */

/* Makes a list of no lines. What the handle had is freed. */
tk_status tk_lines_new(tk_handle *lines);

/* How many lines there are. */
tk_status tk_lines_count(tk_handle *lines, size_t *count);

tk_status tk_lines_push_row_distinct(tk_handle *lines, tk_handle *source, size_t row);

/* Appends a copy of a row, of a surface, or of what a viewer or a client shows, as it is stored:
 * the row may show more default blanks. TK_RANGE: the row. */
static inline tk_status tk_lines_push_row(tk_handle *lines, tk_handle *source, size_t row) {
    return lines == source ? TK_NO_HANDLE : tk_lines_push_row_distinct(lines, source, row);
}

/* Removes `count` lines from the one of index `first` on. Of the first lines the memory of as many
 * as there are lines left is kept, for rows that scroll in when others scroll off to this list.
 * TK_RANGE: there are fewer. */
tk_status tk_lines_remove(tk_handle *lines, size_t first, size_t count);

/* Reads a line, as tk_row_cells reads a row. A compressed line is read from a copy, which takes
 * memory. TK_RANGE: index. TK_SHORT: as there. */
tk_status tk_line_cells(tk_handle *lines, size_t index, tk_row_cell *cells, size_t cell_room,
                        tk_attributes *attributes, size_t attribute_room, char *text, size_t room,
                        tk_row_counts *counts);

/* Stores `count` lines from the one of index `first` on in less memory: each as one text with its
 * runs of attributes. They show what they did. TK_RANGE: there are fewer. TK_MEMORY: some of them
 * may be compressed. */
tk_status tk_lines_compress(tk_handle *lines, size_t first, size_t count);

/* Wraps each line into lines of at most this many columns, which come in its place: the spaces at
 * its end are dropped, and the last cell of each of its lines but the last one is marked as
 * wrapped. A line has at least one cell, so that it may have 2 columns where width is less. A line
 * of spaces alone, or of no cells, stays as it is. The new lines are not compressed. */
tk_status tk_lines_wrap(tk_handle *lines, size_t width);

/* ---- Viewers: in one process ---- */

tk_status tk_viewer_new_distinct(tk_handle *viewer, tk_handle *source);

/* Makes a viewer for what the source shows, of any kind: blank, and of the source's size and
 * widths. What the first handle had is freed. */
static inline tk_status tk_viewer_new(tk_handle *viewer, tk_handle *source) {
    return viewer == source ? TK_NO_HANDLE : tk_viewer_new_distinct(viewer, source);
}

tk_status tk_follow_distinct(tk_handle *viewer, tk_handle *source);

/* The viewer shows what the source shows: its size too. It makes the changes since it followed
 * last, where that was the same surface and those are known, and else all anew; of a viewer or a
 * client always all. TK_WRONG_KIND: the first handle has no viewer. TK_OTHER_WIDTHS. TK_NUMBERS,
 * TK_MEMORY: either nothing has changed, or the viewer may show anything, and gets all anew the
 * next time. */
static inline tk_status tk_follow(tk_handle *viewer, tk_handle *source) {
    return viewer == source ? TK_NO_HANDLE : tk_follow_distinct(viewer, source);
}

/* ---- Clients: by bytes, as docs/VIEWER.md and docs/stream.cddl describe them ---- */

/* Writes the answer to what a client asks: all that the surface keeps, or the changes since the
 * number that the client shows, where it shows this surface. The ask is that of tk_client_ask, and
 * nothing after it. What no answer can need is forgotten. TK_TRUNCATED: the bytes end before the
 * ask does. TK_UNREADABLE: they are wrong at a byte, or more follow the ask. TK_WRONG_KIND.
 * TK_SHORT: the answer is kept, and is not made anew for the same ask while the surface stays as it
 * is. */
tk_status tk_respond(tk_handle *surface, const uint8_t *ask, size_t ask_len, uint8_t *bytes,
                     size_t room, size_t *len);

/* What an answer says at its head: all but its changes. */
typedef struct tk_head {
    size_t source;  /* the number of the surface that gave it */
    size_t width;   /* the screen's columns */
    size_t height;  /* the screen's rows */
    size_t base;    /* the number that its changes lead on from, or 0: it is the whole screen */
    size_t number;  /* the number that they lead to */
    size_t changes; /* how many there are */
} tk_head;

/* Reads what an answer says at its head, of which these are the first bytes. Its changes need not
 * be there, and are not read: so a server can pass it on to those who lack it. TK_TRUNCATED: the
 * bytes end before the head does. TK_UNREADABLE: they are wrong at a byte of it. After an error
 * *head is as it was. */
tk_status tk_answer_head(const uint8_t *bytes, size_t len, tk_head *head);

/* Makes a client that shows nothing yet: a blank of one column and one row. It measures by these
 * widths, and takes no answer of more cells (width times height) or bytes, nor of more than 65,536
 * rows, nor one whose changes cost more than its screen bears (docs/VIEWER.md, "Limits"). What the
 * handle had is freed. TK_RANGE: widths, or 0 bytes. */
tk_status tk_client_new(tk_handle *client, uint8_t widths, size_t cells, size_t bytes);

/* Makes a client as tk_client_new does, which measures by a table of widths (tk_surface_new_by), as
 * its source does. TK_RANGE: the table, or 0 bytes. */
tk_status tk_client_new_by(tk_handle *client, const tk_width_range *ranges, size_t len,
                           size_t cells, size_t bytes);
#define TK_USUAL_CELLS 1048576
#define TK_USUAL_BYTES 16777216

/* What is wrong with the bytes of an answer. */
typedef struct tk_fault {
    uint8_t kind;    /* TK_FAULT_VERSION .. */
    bool has_change; /* whether it is in a change */
    size_t at;       /* the byte where the item begins that shows it, from the answer's first on */
    size_t change;   /* that change's index; 0 where there is none */
} tk_fault;
enum {
    TK_FAULT_VERSION = 0, /* they are of another version */
    TK_FAULT_TYPE = 1,    /* an item has a type that doesn't stand here */
    TK_FAULT_UTF8 = 2,    /* a text is no UTF-8 */
    TK_FAULT_RANGE = 3,   /* a number is out of its range, or not in its shortest form */
    TK_FAULT_REGION = 4,  /* the region of a scroll goes past the last row */
    TK_FAULT_SIZE = 5,    /* a delta has another size than what it leads on from */
    TK_FAULT_MEASURE = 6, /* a text is cut or measured in another way than the client does it */
    TK_FAULT_LIMIT = 7    /* there are more cells, rows or bytes than the client takes,
                             or the changes cost more than their screen bears */
};

/* Takes the next bytes of a stream of answers, and writes how many answers are whole then. Of each
 * the client shows what the surface showed when it gave it. An answer that is late, comes twice, or
 * leads on from what another surface showed changes nothing, counts too, and is no error.
 *
 * After an error tk_client_reset begins another stream. The answers before the error are taken, and
 * *taken is as it was. TK_UNREADABLE: *fault says what is wrong, and that answer has changed
 * nothing. TK_NUMBERS: the client shows what it showed, and asks for all. TK_MEMORY: either that
 * answer has changed nothing, or the client may show anything, and asks for all. After any other
 * outcome *fault is as it was. TK_WRONG_KIND. */
tk_status tk_client_feed(tk_handle *client, const uint8_t *bytes, size_t len, size_t *taken,
                         tk_fault *fault);

/* Keeps the next bytes of a stream of answers, and takes none: tk_client_take_answer does. The
 * errors are those of tk_client_feed; after TK_MEMORY it takes no more bytes, until
 * tk_client_reset. */
tk_status tk_client_keep(tk_handle *client, const uint8_t *bytes, size_t len, tk_fault *fault);

/* What came of the next answer. */
typedef struct tk_taken {
    uint8_t kind; /* TK_TAKEN_NONE .. */
    size_t at;    /* of a stale one, the byte where its source begins, or else its base */
} tk_taken;
enum {
    TK_TAKEN_NONE = 0,  /* the bytes that the client keeps make no whole answer */
    TK_TAKEN_SHOWN = 1, /* the client shows what the answer leads to */
    TK_TAKEN_STALE = 2  /* it is late, comes twice or is another surface's, and changes nothing */
};

/* Takes the next answer of the bytes that the client keeps, and writes what came of it. A client
 * that is fed by tk_client_keep, and by this until there is none, shows each screen in turn. The
 * errors are those of tk_client_feed. */
tk_status tk_client_take_answer(tk_handle *client, tk_taken *taken, tk_fault *fault);

/* Writes what to ask for the next answer, 20 bytes at most. TK_WRONG_KIND, TK_SHORT. */
tk_status tk_client_ask(tk_handle *client, uint8_t *bytes, size_t room, size_t *len);

/* Writes the ask of a client that shows what `number` names of the surface `source`, as
 * tk_client_ask writes it; of 0 and 0, that of a client that shows nothing. TK_RANGE: there is a
 * number and no source. TK_SHORT. */
tk_status tk_make_ask(size_t source, size_t number, uint8_t *bytes, size_t room, size_t *len);

/* Reads the two numbers of an ask, and nothing after it. TK_TRUNCATED: the bytes end before the ask
 * does. TK_UNREADABLE: they are wrong at a byte, or more follow the ask. */
tk_status tk_read_ask(const uint8_t *bytes, size_t len, size_t *source, size_t *number);

/* Begins a new stream: drops the bytes that make no whole answer yet. The client shows and
 * asks for what it did before. TK_WRONG_KIND. */
tk_status tk_client_reset(tk_handle *client);

/* ---- Attributes as a terminal takes them ---- */

/* Room for all that tk_to_sgr writes. */
#define TK_SGR_ROOM 80

/* Two parts of tk_to_sgr: each writes at a place of the text, and returns the place after that. */
static inline size_t tk_put_param(char *text, size_t at, char mark, unsigned number) {
    text[at++] = mark;
    if (number >= 100)
        text[at++] = (char)('0' + number / 100);
    if (number >= 10)
        text[at++] = (char)('0' + number / 10 % 10);
    text[at++] = (char)('0' + number % 10);
    return at;
}

static inline size_t tk_put_color(char *text, size_t at, unsigned place, const tk_color *color) {
    char mark = place == 58 ? ':' : ';'; /* what doesn't know the 58 passes over what it has */
    if (color->kind < TK_COLOR_PALETTE || color->kind > TK_COLOR_TRUE_OR_PALETTE)
        return at;
    at = tk_put_param(text, at, ';', place);
    if (color->kind == TK_COLOR_PALETTE) {
        at = tk_put_param(text, at, mark, 5);
        return tk_put_param(text, at, mark, color->index);
    }
    at = tk_put_param(text, at, mark, 2);
    if (mark == ':')
        text[at++] = ':'; /* no colour space */
    at = tk_put_param(text, at, mark, color->red);
    at = tk_put_param(text, at, mark, color->green);
    return tk_put_param(text, at, mark, color->blue);
}

/* Writes the parameters of the escape sequence SGR that sets these attributes, whatever was set
 * before, as they stand between CSI and `m`, with a zero after them. Returns their length, without
 * the zero. What a text is to a shell, where it is placed on its line, and numbers that are out of
 * their range, are left out. */
static inline size_t tk_to_sgr(const tk_attributes *attributes, char text[TK_SGR_ROOM]) {
    uint8_t underline = attributes->underline;
    const struct {
        bool is_on;
        uint8_t param;
    } flags[] = {
        { attributes->intensity == TK_INTENSITY_BOLD, 1 },
        { attributes->intensity == TK_INTENSITY_HALF, 2 },
        { attributes->italic, 3 },
        { underline == TK_UNDERLINE_SINGLE, 4 },
        { underline == TK_UNDERLINE_DOUBLE, 21 },
        { attributes->blink == TK_BLINK_SLOW, 5 },
        { attributes->blink == TK_BLINK_RAPID, 6 },
        { attributes->reverse, 7 },
        { attributes->invisible, 8 },
        { attributes->strikethrough, 9 },
        { attributes->overline, 53 },
    };
    size_t at = 0;
    text[at++] = '0';
    for (size_t i = 0; i < sizeof flags / sizeof *flags; i++)
        if (flags[i].is_on)
            at = tk_put_param(text, at, ';', flags[i].param);
    if (underline >= TK_UNDERLINE_CURLY && underline <= TK_UNDERLINE_DASHED)
        at = tk_put_param(text, tk_put_param(text, at, ';', 4), ':', underline);
    at = tk_put_color(text, at, 38, &attributes->foreground);
    at = tk_put_color(text, at, 48, &attributes->background);
    at = tk_put_color(text, at, 58, &attributes->underline_color);
    text[at] = '\0';
    return at;
}

/* ---- Buffers of no room ----
 *
 * tk_title(handle, NULL, 0, &len) returns TK_SHORT and the length of the title, unless that is 0.
 * The macros have the names of the calls that write into buffers, and pass some other pointer where
 * one is NULL. A name without parentheses is the function, which takes no NULL. */

#define tk_widths(handle, kind, ranges, room, count)                                               \
    tk_widths(handle, kind, tk_range_buffer(ranges), room, count)
#define tk_title(handle, text, room, len) tk_title(handle, tk_text_buffer(text), room, len)
#define tk_pen_link(handle, uri, room, len) tk_pen_link(handle, tk_text_buffer(uri), room, len)
#define tk_pen_link_param(handle, index, key, key_room, key_len, value, value_room, value_len)     \
    tk_pen_link_param(handle, index, tk_text_buffer(key), key_room, key_len,                       \
                      tk_text_buffer(value), value_room, value_len)
#define tk_changed_rows(handle, since, rows, room, count)                                          \
    tk_changed_rows(handle, since, tk_byte_buffer(rows), room, count)
#define tk_screen_text(handle, text, room, len)                                                    \
    tk_screen_text(handle, tk_text_buffer(text), room, len)
#define tk_row_text(handle, row, filled, text, room, len)                                          \
    tk_row_text(handle, row, filled, tk_text_buffer(text), room, len)
#define tk_cell_at(handle, column, row, cell, text, room, len)                                     \
    tk_cell_at(handle, column, row, cell, tk_text_buffer(text), room, len)
#define tk_link_at(handle, column, row, uri, room, len)                                            \
    tk_link_at(handle, column, row, tk_text_buffer(uri), room, len)
#define tk_link_param_at(handle, column, row, index, key, key_room, key_len, value, value_room,    \
                         value_len)                                                                \
    tk_link_param_at(handle, column, row, index, tk_text_buffer(key), key_room, key_len,           \
                     tk_text_buffer(value), value_room, value_len)
#define tk_row_cells(handle, row, cells, cell_room, attributes, attribute_room, text, room,        \
                     counts)                                                                       \
    tk_row_cells(handle, row, tk_cell_buffer(cells), cell_room, tk_attribute_buffer(attributes),   \
                 attribute_room, tk_text_buffer(text), room, counts)
#define tk_shown_cells(handle, row, cells, cell_room, attributes, attribute_room, text, room,      \
                       counts)                                                                     \
    tk_shown_cells(handle, row, tk_cell_buffer(cells), cell_room, tk_attribute_buffer(attributes), \
                   attribute_room, tk_text_buffer(text), room, counts)
#define tk_line_cells(lines, index, cells, cell_room, attributes, attribute_room, text, room,      \
                      counts)                                                                      \
    tk_line_cells(lines, index, tk_cell_buffer(cells), cell_room, tk_attribute_buffer(attributes), \
                  attribute_room, tk_text_buffer(text), room, counts)
#define tk_get_changes(handle, since, changes, change_room, texts, room, counts)                   \
    tk_get_changes(handle, since, tk_change_buffer(changes), change_room, tk_text_buffer(texts),   \
                   room, counts)
#define tk_respond(surface, ask, ask_len, bytes, room, len)                                        \
    tk_respond(surface, ask, ask_len, tk_byte_buffer(bytes), room, len)
#define tk_client_ask(client, bytes, room, len)                                                    \
    tk_client_ask(client, tk_byte_buffer(bytes), room, len)
#define tk_make_ask(source, number, bytes, room, len)                                              \
    tk_make_ask(source, number, tk_byte_buffer(bytes), room, len)

#ifdef __cplusplus
}
#endif

#endif
