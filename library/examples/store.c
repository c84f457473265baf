/* Saves the setting on standard input in a fresh store, under the table that the argument names, goes back to it, keeps the newest
 * version alone, and reads that one to standard output. Each call's code and value go to standard error; the status is 0 where all
 * are done. */
#include <errno.h>
#include <inttypes.h>
#include <stdint.h>
#include <stdio.h>
#include <stdlib.h>

#include "lamptwin.h"

static void fail(const char *what)
{
    perror(what);
    exit(EXIT_FAILURE);
}

/* Says what a call gave, and ends the program if it was refused. */
static void expect_done(const char *call, uint64_t code, uint64_t value)
{
    fprintf(stderr, "%s: code=%" PRIu64 " value=%" PRIu64 "\n", call, code, value);
    if (code != 0)
        exit(EXIT_FAILURE);
}

/* 1 for a decimal that fits. */
static int read_number(const char *text, uint64_t *number)
{
    char *end;
    errno = 0;
    *number = strtoull(text, &end, 10);
    return text[0] >= '0' && text[0] <= '9' && *end == '\0' && errno == 0;
}

int main(int count, char **arguments)
{
    uint64_t table;
    if (count != 2 || !read_number(arguments[1], &table)) {
        fprintf(stderr, "usage: %s TABLE < SETTING\n", arguments[0]);
        return EXIT_FAILURE;
    }

    /* A byte more than any setting has, so that what is longer is refused too. */
    uint8_t setting[LAMPTWIN_SETTING_ROOM + 1];
    size_t length = fread(setting, 1, sizeof setting, stdin);
    if (ferror(stdin))
        fail("input");

    uint8_t store[LAMPTWIN_STORE_SIZE];
    expect_done("fresh", lamptwin_store_fresh(store, sizeof store), 0);
    uint64_t version;
    uint64_t code = lamptwin_store_save(store, sizeof store, table, setting, length, &version);
    expect_done("save", code, version);
    uint64_t newest;
    code = lamptwin_store_return(store, sizeof store, table, version, &newest);
    expect_done("return", code, newest);

    /* A list that names no version; its pointer is not null all the same. */
    uint64_t freed;
    code = lamptwin_store_keep(store, sizeof store, &table, 0, &freed);
    expect_done("keep", code, freed);

    uint8_t buffer[LAMPTWIN_SETTING_ROOM];
    uint64_t written;
    code = lamptwin_store_read(store, sizeof store, table, newest, buffer, sizeof buffer, &written);
    expect_done("read", code, written);
    if (fwrite(buffer, 1, (size_t)written, stdout) != written || fflush(stdout) != 0)
        fail("output");
    return EXIT_SUCCESS;
}
