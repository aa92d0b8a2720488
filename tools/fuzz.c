/* One file to the proved reader, as libFuzzer calls it: an answer of document 02's, at the place where it belongs, and all as found where it is a refusal,
 * and the same file again from what was read where it is none. What is lent ends at a page that can't be touched, and begins after one in every other
 * call, so that a byte read or written beside it ends the run. */
#define _DEFAULT_SOURCE
#include "threshcoil.h"

#include <stdio.h>
#include <stdlib.h>
#include <string.h>
#include <sys/mman.h>
#include <unistd.h>

enum { PAGES = 4, FOUND = 0x5a };

/* Room between two pages that can't be touched. */
struct lent {
    uint8_t *from, *to;
};

static void must(int holds, const char *what)
{
    if (!holds) {
        fprintf(stderr, "fuzz: FAILED: %s\n", what);
        abort();
    }
}

static struct lent room(void)
{
    size_t page = (size_t)sysconf(_SC_PAGESIZE);
    uint8_t *all = mmap(NULL, (PAGES + 2) * page, PROT_NONE, MAP_PRIVATE | MAP_ANONYMOUS, -1, 0);
    must(all != MAP_FAILED && mprotect(all + page, PAGES * page, PROT_READ | PROT_WRITE) == 0, "pages");
    return (struct lent){all + page, all + (PAGES + 1) * page};
}

/* So many bytes of the room, at its end or at its beginning. */
static uint8_t *bytes(struct lent lent, size_t count, int at_end)
{
    must(count <= (size_t)(lent.to - lent.from), "a file of a few pages");
    return at_end ? lent.to - count : lent.from;
}

static int untouched(const uint8_t *bytes, size_t count)
{
    for (size_t i = 0; i < count; i++)
        if (bytes[i] != FOUND)
            return 0;
    return 1;
}

/* The account of a file, saved again into just its length and into a byte less. */
static void saved_again(const uint8_t *account, const uint8_t *file, size_t count, uint8_t *again)
{
    memset(again, FOUND, count);
    must(tc_save(account, TC_ACCOUNT_BYTES, again, count - 1) == TC_NO_FILE_ROOM, "19 for a byte less");
    must(untouched(again, count), "the room as found after 19");
    must(tc_save(account, TC_ACCOUNT_BYTES, again, count) == TC_DONE + 256 * (uint64_t)count, "a file of the same length");
    must(memcmp(again, file, count) == 0, "the same file");
}

/* The place of a refusal: the end of the file, the first byte of a number that is looked for there, the first byte after a whole file. */
static void placed(uint64_t answer, const uint8_t *file, size_t count)
{
    uint64_t place = TC_PLACE(answer);
    uint8_t account[TC_ACCOUNT_BYTES];
    switch (TC_ANSWER(answer)) {
    case TC_UNSOUND:
        must(place == 0, "11 without a place");
        break;
    case TC_ENDS_EARLY:
        must(place == count, "16 at the end");
        break;
    case TC_BAD_NUMBER:
        must(place < count, "17 within the file");
        must(tc_load(file, place, account, sizeof account) == TC_ENDS_EARLY + 256 * place, "17 where a number is looked for");
        break;
    case TC_LEFT_OVER:
        must(place < count, "18 within the file");
        answer = tc_load(file, place, account, sizeof account);
        must(answer == TC_DONE || answer == TC_UNSOUND, "18 after a whole file");
        break;
    default:
        must(0, "an answer of a file");
    }
}

int LLVMFuzzerTestOneInput(const uint8_t *data, size_t count)
{
    static struct lent files, accounts, rooms;
    static int at_end;
    if (files.from == NULL) {
        files = room();
        accounts = room();
        rooms = room();
    }
    if (count > (size_t)(files.to - files.from))
        return -1;
    at_end = !at_end;
    uint8_t *file = bytes(files, count, at_end), *account = bytes(accounts, TC_ACCOUNT_BYTES, at_end), cash[TC_CENTS_BYTES];
    if (count > 0)
        memcpy(file, data, count);
    memset(account, FOUND, TC_ACCOUNT_BYTES);
    uint64_t answer = tc_load(file, count, account, TC_ACCOUNT_BYTES);
    must(count == 0 || memcmp(file, data, count) == 0, "the file as found");
    if (answer == TC_DONE) {
        must(tc_cash(account, TC_ACCOUNT_BYTES, cash, sizeof cash) == TC_DONE, "a sound account");
        saved_again(account, file, count, bytes(rooms, count, at_end));
    } else {
        must(untouched(account, TC_ACCOUNT_BYTES), "the account as found after a refusal");
        placed(answer, file, count);
    }
    return 0;
}
