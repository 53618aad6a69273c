/* Tests the versions of tikeburo.h and of the library, and the texts of statuses. It prints the
 * version, and ends with status 1 where anything is wrong. */
#include "tikeburo.h"
#include <stdio.h>
#include <string.h>

static int failures = 0;

static void check(bool holds, const char *what) {
    if (!holds) {
        failures++;
        printf("FAILED: %s\n", what);
    }
}

#define CHECK(what) check(what, #what)

static bool same(const char *one, const char *other) { return strcmp(one, other) == 0; }

static void test_versions(void) {
    char version[48];
    snprintf(version, sizeof version, "%d.%d.%d", TK_VERSION_MAJOR, TK_VERSION_MINOR,
             TK_VERSION_PATCH);
    CHECK(same(version, TK_VERSION));
    CHECK(same(tk_version(), TK_VERSION));
    CHECK(TK_VERSION_NUMBER ==
          1000000 * TK_VERSION_MAJOR + 1000 * TK_VERSION_MINOR + TK_VERSION_PATCH);
    CHECK(tk_version_number() == TK_VERSION_NUMBER);
}

/* Each status has a text of its own, and all other numbers have one. */
static void test_texts(void) {
    const tk_status others[] = {-1, TK_OTHER_WIDTHS + 1, 255, INT32_MIN, INT32_MAX};
    for (size_t i = 0; i < sizeof others / sizeof *others; i++)
        CHECK(same(tk_strerror(others[i]), "unknown status"));
    for (tk_status status = TK_DONE; status <= TK_OTHER_WIDTHS; status++) {
        CHECK(!same(tk_strerror(status), "unknown status"));
        for (tk_status other = TK_DONE; other < status; other++)
            CHECK(!same(tk_strerror(status), tk_strerror(other)));
    }
    CHECK(same(tk_strerror(TK_DONE), "done"));
    CHECK(same(tk_strerror(TK_MEMORY), "memory was refused"));
    CHECK(same(tk_strerror(TK_SHORT), "the buffer is too short"));
}

int main(void) {
    test_versions();
    test_texts();
    puts(tk_version());
    return failures != 0;
}
