/*
 * chirimok.h - a page store for an inspection station (libstation.a).
 *
 * The library keeps nothing between calls and allocates nothing. It works on memory that the caller
 * lends for the length of a call:
 *
 *   data    1 to CHIRIMOK_PAGES pages of CHIRIMOK_PAGE bytes; CHIRIMOK_ROWS_PER_PAGE rows in each
 *   undo    1 to CHIRIMOK_PAGES pages; CHIRIMOK_ENTRIES_PER_PAGE older versions of rows in each
 *   status  exactly 1 page; the states of CHIRIMOK_LAST_NUMBER session numbers
 *   desk    the open sessions, struct chirimok_desk
 *
 * Areas are passed as a pointer and a length in bytes and need no alignment. The desk must be
 * aligned for uint32_t (4 bytes), the out arrays for uint64_t (8 bytes). No two of the lent parts
 * may overlap. No pointer may be NULL, even where its length is 0. A call never writes where a
 * parameter points to const. It writes the out array always, and the areas and the desk only if it
 * is accepted, with one exception: an update or delete that answers 10 sets its session's mark in
 * the desk. How many pages a store has is not kept in it: lend as many as were formatted.
 *
 * Threads: calls on different stores may run at the same time. Calls on one store may not, unless
 * all of them are reads, each with an out array of its own.
 *
 * The usual course: format once, or open what was sealed; then begin, any number of reads and
 * writes with next between statements, commit or withdraw; now and then a sweep; at the end, when
 * no session is open, seal. Store the three areas then; the desk need not be stored, open makes a
 * new one. A session that was answered 10 is spoiled: it can read, and has to be withdrawn.
 *
 * Warning: a store has one desk, the one that the last call left. Keep no copies of it. Who lends
 * an older copy works with sessions and numbers that are past: a spoiled session can commit, a
 * closed one is open again, or begin hands a number out a second time, and withdrawing it takes
 * back what was committed under it. Rows can be lost while every call answers CHIRIMOK_DONE: as
 * long as it is sound, the store cannot tell an older desk, or another store's, from the last one.
 * CHIRIMOK_UNSOUND_DESK is answered only where a desk breaks one of its rules. One sign can be
 * looked for, which not every wrong desk shows: desk.next should be one more than the highest
 * number handed out, which stands in bytes 8 to 15 of the status page, little-endian. Work that is
 * put away unsealed is put away with its desk.
 *
 * Answers: each call answers CHIRIMOK_DONE or the number of its refusal. Where several refusals
 * apply, the lowest is given, but that 17 stands between 6 and 7, and 18 directly after 4. A
 * refused call leaves areas and desk as they were and fills its out array with zeros; alone 10, of
 * update and delete, sets the session's mark in the desk, and nothing else. Every call can answer
 * 1; every call but format and open can answer 2. The other numbers are listed at each call, in
 * their order. What each says, and what a station does about it:
 *
 *    1  An area's length isn't allowed. Lend whole pages: 1 to CHIRIMOK_PAGES of data, 1 to
 *       CHIRIMOK_PAGES of undo, exactly 1 of status.
 *    2  The desk is unsound: it was never filled in, or was written over. Lend the one that the
 *       last call left, and no copy from before; where it is lost, open the areas as they were
 *       sealed last.
 *    3  A header field is wrong, or a number isn't closed: the areas hold no store, are damaged,
 *       were not sealed after the last write, or were sealed before version 1.1 (CHIRIMOK_VERSION
 *       says what to do then). Open another copy that was sealed; format begins an empty store.
 *    4  The session is not open: it is closed, or was never begun here. Begin one.
 *    5  No such row, or the body isn't CHIRIMOK_BODY bytes long. Mend the argument: a store has
 *       CHIRIMOK_ROWS_PER_PAGE rows for each page of data.
 *    6  The row's chain of older versions is broken: the areas are damaged, or a desk was lent that
 *       was not the last. A store that the calls alone wrote since its format, each with the last
 *       desk, never answers it. Go back to a copy that was sealed; rows whose chains are whole can
 *       still be read.
 *    7  No version of the row is there for the session: the row is empty or deleted, or was written
 *       by someone whom the session does not see. What it inserted itself in this statement is
 *       there after chirimok_next.
 *    8  The session itself wrote the row in this statement, or deleted it. Call chirimok_next
 *       first; a row that it deleted is then gone (7).
 *    9  Another writer of the row is not committed. Try again when that session is closed: after
 *       its withdrawal the row can be written, after its commit the answer is 10.
 *   10  A writer of the row whom the session does not see is committed. The session lost the
 *       conflict and is spoiled from now on: it can still read what it read, and has to be
 *       withdrawn (18). Begin another, which sees that writer.
 *   11  No empty slot (insert), or no free entry (update). Sweep all rows and try again; if nothing
 *       went, end the oldest session and sweep again. With no session open, a sweep frees every
 *       entry; slots are then held by rows alone: delete some and sweep, or move to a larger store.
 *   12  CHIRIMOK_SESSIONS sessions are open. Commit or withdraw one.
 *   13  All numbers are handed out. They never return: format a store anew. What shall be carried
 *       over is read by a session that is open, so keep the last number for that.
 *   14  The session is in its last statement. It can still read, write, commit and withdraw; go on
 *       in another.
 *   15  Seal found an open session. Commit or withdraw those in desk.numbers, and seal again.
 *   17  A version of the row that was looked at names a number, other than the session's own, whose
 *       status is 11: reserved, and written by no call. The status page is damaged, and whether
 *       that number was committed cannot be told. A store that the calls alone wrote since its
 *       format, each with the last desk, never answers it. Go back to a copy that was sealed; rows
 *       whose versions name no such number can still be read.
 *   18  The session is spoiled: an update or delete of it was answered 10 before, so that what it
 *       would commit rests on rows that another has changed since. It can still read. Withdraw it
 *       and begin another.
 *
 * There is no 16: it is what the script's program answers to a line that is ill formed.
 */
#ifndef CHIRIMOK_H
#define CHIRIMOK_H

#include <stddef.h>
#include <stdint.h>

#ifdef __cplusplus
extern "C" {
#endif

/*
 * The version of this interface. The major number grows where a program has to be changed or
 * compiled anew: a name, a parameter, a layout or the meaning of an answer is another. The minor
 * number grows where something is added, or where areas have to be sealed anew. (The format_version
 * in each page is another count.)
 *
 *   1.1  A page's checksum runs over all its bytes, with its own four taken as zero, as the vendor's
 *        tool has it. Areas sealed before are answered 3 by chirimok_open, and are never taken up
 *        by mistake. Open them with the release that sealed them, and lend them to chirimok_seal of
 *        this one, with a desk that has the next of that release's desk and is else all zeros: then
 *        chirimok_open accepts them.
 *   1.2  chirimok_update, chirimok_delete and chirimok_read answer 17 where a number that they meet
 *        has the reserved status. Before, such a number passed for one that is not committed. A
 *        program that takes every answer but CHIRIMOK_DONE for a refusal need not be changed.
 *   2.0  A session that was answered 10 is spoiled: insert, update, delete, next and commit answer
 *        it 18, and it has to be withdrawn. Before, it could go on with other rows and commit. The
 *        desk has 289 words, 16 marks more than the 273 of before, and chirimok_update and
 *        chirimok_delete write it: a program has to be compiled anew. The areas are as they were.
 *        Who has put work away with a desk of 273 words closes its sessions with the release that
 *        made it, and seals.
 */
#define CHIRIMOK_VERSION_MAJOR 2
#define CHIRIMOK_VERSION_MINOR 0
#define CHIRIMOK_VERSION (CHIRIMOK_VERSION_MAJOR * 1000 + CHIRIMOK_VERSION_MINOR)

/* Sizes and limits. */
#define CHIRIMOK_PAGE 8192             /* bytes in a page */
#define CHIRIMOK_PAGES 64              /* most pages of data, and most pages of undo */
#define CHIRIMOK_BODY 32               /* bytes in a body */
#define CHIRIMOK_ROWS_PER_PAGE 127     /* rows in a page of data */
#define CHIRIMOK_ENTRIES_PER_PAGE 101  /* older versions in a page of undo */
#define CHIRIMOK_SESSIONS 16           /* most sessions open at a time */
#define CHIRIMOK_LAST_NUMBER 32575     /* the highest number that a session gets */
#define CHIRIMOK_LAST_STATEMENT 65535  /* the statement from which a session cannot move on */

/* Where a body lies, in out[1] of chirimok_read. */
#define CHIRIMOK_IN_DATA 1
#define CHIRIMOK_IN_UNDO 2

/* Answers. */
enum {
    CHIRIMOK_DONE = 0,
    CHIRIMOK_AREA_LENGTH = 1,
    CHIRIMOK_UNSOUND_DESK = 2,
    CHIRIMOK_UNSOUND_STORE = 3,
    CHIRIMOK_SESSION_NOT_OPEN = 4,
    CHIRIMOK_ROW_OR_BODY = 5,
    CHIRIMOK_BROKEN_CHAIN = 6,
    CHIRIMOK_NO_VERSION = 7,
    CHIRIMOK_OWN_WRITE = 8,
    CHIRIMOK_WRITER_IN_WORK = 9,
    CHIRIMOK_WRITER_COMMITTED = 10,
    CHIRIMOK_NO_ROOM = 11,
    CHIRIMOK_SESSIONS_FULL = 12,
    CHIRIMOK_NUMBERS_USED_UP = 13,
    CHIRIMOK_STATEMENTS_USED_UP = 14,
    CHIRIMOK_SESSION_OPEN = 15,
    CHIRIMOK_RESERVED_STATUS = 17,
    CHIRIMOK_SESSION_SPOILED = 18
};

/* What an answer says, as a text that stays. */
static inline const char *chirimok_refusal(uint32_t code)
{
    switch (code) {
    case CHIRIMOK_DONE:
        return "done";
    case CHIRIMOK_AREA_LENGTH:
        return "an area's length isn't allowed";
    case CHIRIMOK_UNSOUND_DESK:
        return "the desk is unsound";
    case CHIRIMOK_UNSOUND_STORE:
        return "a header field is wrong, or a number isn't closed";
    case CHIRIMOK_SESSION_NOT_OPEN:
        return "the session is not open";
    case CHIRIMOK_ROW_OR_BODY:
        return "no such row, or the body isn't 32 bytes long";
    case CHIRIMOK_BROKEN_CHAIN:
        return "the row's chain is broken";
    case CHIRIMOK_NO_VERSION:
        return "no version of the row is there for the session";
    case CHIRIMOK_OWN_WRITE:
        return "the session itself wrote or deleted the row";
    case CHIRIMOK_WRITER_IN_WORK:
        return "another writer of the row is not committed";
    case CHIRIMOK_WRITER_COMMITTED:
        return "a writer of the row whom the session does not see is committed";
    case CHIRIMOK_NO_ROOM:
        return "no empty slot, or no free undo entry";
    case CHIRIMOK_SESSIONS_FULL:
        return "sixteen sessions are open";
    case CHIRIMOK_NUMBERS_USED_UP:
        return "all numbers are handed out";
    case CHIRIMOK_STATEMENTS_USED_UP:
        return "the session is in its last statement";
    case CHIRIMOK_SESSION_OPEN:
        return "a session is open";
    case CHIRIMOK_RESERVED_STATUS:
        return "a number that the row names has the reserved status";
    case CHIRIMOK_SESSION_SPOILED:
        return "the session lost a conflict and is spoiled";
    default:
        return "no answer of this store";
    }
}

/*
 * The desk: 289 words of 32 bits. format and open fill one in; the caller keeps it and lends it to
 * each call. seal, insert, read and sweep only look at it; begin, next, commit and withdraw change
 * it. update and delete change one word of it, the session's mark, and that only where they answer
 * 10. Reading it is fine; writing it is not, nor is lending an older copy.
 */
struct chirimok_desk {
    /* the number that the next session gets, 1 to CHIRIMOK_LAST_NUMBER + 1 */
    uint32_t next;
    /* the open sessions' numbers, ascending; unused places are 0 */
    uint32_t numbers[CHIRIMOK_SESSIONS];
    /* the statement of each, 0 to CHIRIMOK_LAST_STATEMENT; unused places are 0 */
    uint32_t statements[CHIRIMOK_SESSIONS];
    /* 1 where the session is spoiled, else 0; unused places are 0 */
    uint32_t marks[CHIRIMOK_SESSIONS];
    /* the numbers open when each began, ascending; unused places are 0 */
    uint32_t lists[CHIRIMOK_SESSIONS][CHIRIMOK_SESSIONS - 1];
};

/*
 * Writes empty pages over the three areas, whatever they held, and a desk without sessions and with
 * next = 1 over *desk, whatever it held. Refusal: 1.
 */
uint32_t chirimok_format(uint8_t *data, size_t data_length,
                         uint8_t *undo, size_t undo_length,
                         uint8_t *status, size_t status_length,
                         struct chirimok_desk *desk);

/*
 * Checks the page headers, checksums and session numbers of a sealed store and writes a desk
 * without sessions over *desk, whatever it held; its next number follows the highest handed out.
 * Refusals: 1, 3.
 */
uint32_t chirimok_open(const uint8_t *data, size_t data_length,
                       const uint8_t *undo, size_t undo_length,
                       const uint8_t *status, size_t status_length,
                       struct chirimok_desk *desk);

/*
 * Writes the checksum into every page, so that chirimok_open accepts the areas: CRC32C over all its
 * bytes, the checksum's own four taken as zero. No session may be open. Refusals: 1, 2, 15.
 */
uint32_t chirimok_seal(uint8_t *data, size_t data_length,
                       uint8_t *undo, size_t undo_length,
                       uint8_t *status, size_t status_length,
                       const struct chirimok_desk *desk);

/*
 * Opens a session in statement 0 and writes its number to out[0]. It sees what was committed before
 * this call, and nothing that is committed later. Refusals: 1, 2, 12, 13.
 */
uint32_t chirimok_begin(const uint8_t *data, size_t data_length,
                        const uint8_t *undo, size_t undo_length,
                        uint8_t *status, size_t status_length,
                        struct chirimok_desk *desk,
                        uint64_t out[1]);

/*
 * Moves a session on to its next statement. A session sees its own writes of earlier statements
 * only. Refusals: 1, 2, 4, 18, 14.
 */
uint32_t chirimok_next(const uint8_t *data, size_t data_length,
                       const uint8_t *undo, size_t undo_length,
                       const uint8_t *status, size_t status_length,
                       struct chirimok_desk *desk,
                       uint64_t session);

/*
 * Copies a body of 32 bytes into the lowest empty slot and writes its row number to out[0].
 * Refusals: 1, 2, 4, 18, 5 (body_length isn't 32), 11.
 */
uint32_t chirimok_insert(uint8_t *data, size_t data_length,
                         const uint8_t *undo, size_t undo_length,
                         const uint8_t *status, size_t status_length,
                         const struct chirimok_desk *desk,
                         uint64_t session,
                         const uint8_t *body, size_t body_length,
                         uint64_t out[1]);

/*
 * Replaces the body of a row; the old version moves to the undo area for those who still read it.
 * The desk is written only where the answer is 10: then the session's mark is set, and it can only
 * read and be withdrawn. Refusals: 1, 2, 4, 18, 5, 6, 17, 7 to 11.
 */
uint32_t chirimok_update(uint8_t *data, size_t data_length,
                         uint8_t *undo, size_t undo_length,
                         const uint8_t *status, size_t status_length,
                         struct chirimok_desk *desk,
                         uint64_t session, uint64_t row,
                         const uint8_t *body, size_t body_length);

/*
 * Deletes a row for the session's later statements and, once it commits, for all who begin after.
 * The slot is empty again when a sweep has removed the version. The desk is written only where the
 * answer is 10, as by chirimok_update. Refusals: 1, 2, 4, 18, 5, 6, 17, 7 to 10.
 */
uint32_t chirimok_delete(uint8_t *data, size_t data_length,
                         const uint8_t *undo, size_t undo_length,
                         const uint8_t *status, size_t status_length,
                         struct chirimok_desk *desk,
                         uint64_t session, uint64_t row);

/*
 * Finds the version of a row that the session sees. Nothing is copied:
 *
 *   out[0]  how many versions were looked at, the one found included
 *   out[1]  where the body lies: CHIRIMOK_IN_DATA or CHIRIMOK_IN_UNDO (0 after a refusal)
 *   out[2]  the byte offset of its 32 bytes in that area
 *
 * The bytes stay there until the next call that writes the area. A spoiled session reads like any
 * other. Refusals: 1, 2, 4 to 6, 17, 7.
 */
uint32_t chirimok_read(const uint8_t *data, size_t data_length,
                       const uint8_t *undo, size_t undo_length,
                       const uint8_t *status, size_t status_length,
                       const struct chirimok_desk *desk,
                       uint64_t session, uint64_t row,
                       uint64_t out[3]);

/*
 * Closes a session; those who begin later see what it wrote. Refusals: 1, 2, 4, 18.
 */
uint32_t chirimok_commit(const uint8_t *data, size_t data_length,
                         const uint8_t *undo, size_t undo_length,
                         uint8_t *status, size_t status_length,
                         struct chirimok_desk *desk,
                         uint64_t session);

/*
 * Takes back everything that a session wrote, and closes it, spoiled or not. Refusals: 1, 2, 4, 6.
 */
uint32_t chirimok_withdraw(uint8_t *data, size_t data_length,
                           uint8_t *undo, size_t undo_length,
                           uint8_t *status, size_t status_length,
                           struct chirimok_desk *desk,
                           uint64_t session);

/*
 * Removes the versions that no session can read any more, in quota rows from row first on or in as
 * many as are left. first may be the number of rows; then nothing is left to do.
 *
 *   out[0]  the row behind the last one treated: where the next sweep should start
 *   out[1]  how many versions were removed
 *
 * Refusals: 1, 2, 5, 6.
 */
uint32_t chirimok_sweep(uint8_t *data, size_t data_length,
                        uint8_t *undo, size_t undo_length,
                        const uint8_t *status, size_t status_length,
                        const struct chirimok_desk *desk,
                        uint64_t first, uint64_t quota,
                        uint64_t out[2]);

#ifdef __cplusplus
}
#endif

#endif
