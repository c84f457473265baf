/* Answers the log on standard input on standard output, as the program lamptwin does; a recorded log with the argument replay. With
 * the argument totals it gives those at the end of a recorded log instead, a line for each output that has waited. */
#include <inttypes.h>
#include <stdint.h>
#include <stdio.h>
#include <stdlib.h>
#include <string.h>

#include "lamptwin.h"

struct bytes {
    uint8_t *start;
    size_t length;
};

static void fail(const char *what)
{
    perror(what);
    exit(EXIT_FAILURE);
}

/* At least one byte, so that the pointer is never null. */
static uint8_t *allocate(uint8_t *old, size_t length)
{
    uint8_t *new = realloc(old, length > 0 ? length : 1);
    if (new == NULL)
        fail("memory");
    return new;
}

static struct bytes read_all(FILE *input)
{
    size_t room = 65536;
    struct bytes all = {allocate(NULL, room), 0};
    size_t got;
    while ((got = fread(all.start + all.length, 1, room - all.length, input)) > 0) {
        all.length += got;
        if (all.length == room) {
            room *= 2;
            all.start = allocate(all.start, room);
        }
    }
    if (ferror(input))
        fail("input");
    return all;
}

static void print_answers(struct bytes log, int replay)
{
    size_t room = lamptwin_lines(log.start, log.length) * LAMPTWIN_ANSWER_ROOM;
    uint8_t *answers = allocate(NULL, room);
    size_t length = (replay ? lamptwin_replay : lamptwin_run)(log.start, log.length, answers, room);
    if (fwrite(answers, 1, length, stdout) != length)
        fail("output");
    free(answers);
}

static void print_totals(struct bytes log)
{
    uint64_t totals[LAMPTWIN_TOTALS_ROOM];
    if (lamptwin_totals(log.start, log.length, totals, LAMPTWIN_TOTALS_ROOM) != 0) {
        fprintf(stderr, "totals: the row is too short\n");
        exit(EXIT_FAILURE);
    }
    for (int place = 0; place < LAMPTWIN_TOTALS_ROOM; place += 2) {
        uint64_t lit = totals[place];
        uint64_t unlit = totals[place + 1];
        if (lit > 0 || unlit > 0)
            printf("dev=%d out=%d lit=%" PRIu64 " unlit=%" PRIu64 "\n", place / 32, place % 32 / 2, lit, unlit);
    }
}

int main(int count, char **arguments)
{
    const char *use = count == 1 ? "run" : arguments[1];
    int replay = strcmp(use, "replay") == 0;
    int totals = strcmp(use, "totals") == 0;
    if (count > 2 || (count == 2 && !replay && !totals)) {
        fprintf(stderr, "usage: %s [replay | totals]\n", arguments[0]);
        return EXIT_FAILURE;
    }
    struct bytes log = read_all(stdin);
    if (totals)
        print_totals(log);
    else
        print_answers(log, replay);
    if (fflush(stdout) != 0)
        fail("output");
    free(log.start);
    return EXIT_SUCCESS;
}
