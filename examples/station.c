/*
 * A small station: it formats a store, enters two measurements, corrects one while an inspector is
 * still reading, refuses the inspector's own correction and then the commit, withdraws that session,
 * sweeps, seals, and prints what it gets.
 *
 *   cc -Wall -Wextra -Iinclude examples/station.c target/staticlib/libstation.a -o station
 */
#define _POSIX_C_SOURCE 200809L /* strnlen */

#include <inttypes.h>
#include <stdio.h>
#include <stdlib.h>
#include <string.h>

#include "chirimok.h"

/* What the station lends. */
static uint8_t data[2 * CHIRIMOK_PAGE];
static uint8_t undo[CHIRIMOK_PAGE];
static uint8_t status[CHIRIMOK_PAGE];
static struct chirimok_desk desk;

/* The areas in the order in which every call takes them. */
#define AREAS data, sizeof data, undo, sizeof undo, status, sizeof status

/* Stops the station if a call was refused. */
static void must(const char *call, uint32_t answer)
{
    if (answer != CHIRIMOK_DONE) {
        fprintf(stderr, "%s: %s (%" PRIu32 ")\n", call, chirimok_refusal(answer), answer);
        exit(EXIT_FAILURE);
    }
}

static uint64_t begin(void)
{
    uint64_t out[1];
    must("begin", chirimok_begin(AREAS, &desk, out));
    printf("begin: session %" PRIu64 "\n", out[0]);
    return out[0];
}

static void commit(uint64_t session)
{
    must("commit", chirimok_commit(AREAS, &desk, session));
    printf("commit: session %" PRIu64 "\n", session);
}

/* A session that lost a conflict is refused its commit, and the station withdraws it. */
static void commit_or_withdraw(uint64_t session)
{
    uint32_t answer = chirimok_commit(AREAS, &desk, session);
    printf("commit: session %" PRIu64 ": %s (%" PRIu32 ")\n",
           session, chirimok_refusal(answer), answer);
    if (answer == CHIRIMOK_SESSION_SPOILED) {
        must("withdraw", chirimok_withdraw(AREAS, &desk, session));
        printf("withdraw: session %" PRIu64 "\n", session);
    }
}

/* A body is 32 bytes; the station keeps a short text in it, filled up with zeros. */
static void make_body(uint8_t body[CHIRIMOK_BODY], const char *text)
{
    memset(body, 0, CHIRIMOK_BODY);
    memcpy(body, text, strnlen(text, CHIRIMOK_BODY));
}

static uint64_t enter(uint64_t session, const char *text)
{
    uint8_t body[CHIRIMOK_BODY];
    uint64_t out[1];
    make_body(body, text);
    must("insert", chirimok_insert(AREAS, &desk, session, body, sizeof body, out));
    printf("insert: row %" PRIu64 " \"%s\"\n", out[0], text);
    return out[0];
}

/* A correction may be refused: another may have been quicker. After 10 the session is spoiled. */
static uint32_t correct(uint64_t session, uint64_t row, const char *text)
{
    uint8_t body[CHIRIMOK_BODY];
    make_body(body, text);
    uint32_t answer = chirimok_update(AREAS, &desk, session, row, body, sizeof body);
    printf("update: row %" PRIu64 " \"%s\": %s (%" PRIu32 ")\n",
           row, text, chirimok_refusal(answer), answer);
    return answer;
}

/* The body is used where it lies. */
static void show(uint64_t session, uint64_t row)
{
    uint64_t out[3];
    must("read", chirimok_read(AREAS, &desk, session, row, out));
    const uint8_t *area = out[1] == CHIRIMOK_IN_DATA ? data : undo;
    printf("read: session %" PRIu64 " finds \"%.*s\" in row %" PRIu64
           ", %s area, after %" PRIu64 " version(s)\n",
           session, CHIRIMOK_BODY, (const char *)(area + out[2]), row,
           out[1] == CHIRIMOK_IN_DATA ? "data" : "undo", out[0]);
}

static void sweep(void)
{
    uint64_t out[2];
    must("sweep", chirimok_sweep(AREAS, &desk, 0, UINT64_MAX, out));
    printf("sweep: next row %" PRIu64 ", %" PRIu64 " version(s) removed\n", out[0], out[1]);
}

int main(void)
{
    must("format", chirimok_format(AREAS, &desk));
    puts("format: done");

    uint64_t writer = begin();
    uint64_t bolt = enter(writer, "bolt 8.01 mm");
    enter(writer, "nut 7.98 mm");
    commit(writer);

    uint64_t inspector = begin();
    writer = begin();
    must("update", correct(writer, bolt, "bolt 8.02 mm"));
    commit(writer);
    show(inspector, bolt);
    if (correct(inspector, bolt, "bolt 8.03 mm") == CHIRIMOK_WRITER_COMMITTED) {
        puts("the inspector only reads on");
    }
    show(inspector, bolt);
    sweep(); /* The inspector may still read the old measurement: nothing goes. */
    commit_or_withdraw(inspector);
    sweep();

    inspector = begin();
    show(inspector, bolt);
    commit(inspector);

    must("seal", chirimok_seal(AREAS, &desk));
    must("open", chirimok_open(AREAS, &desk));
    printf("seal and open: done, next session %" PRIu32 "\n", desk.next);
    return EXIT_SUCCESS;
}
