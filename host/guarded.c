#define _DEFAULT_SOURCE
#include "guarded.h"
#include "carbon_account.h"

#include <stdbool.h>
#include <stdio.h>
#include <stdlib.h>
#include <string.h>
#include <sys/mman.h>

enum { PAGE = 4096, WATCHED = 2 * PAGE, FILLED = 0xA5 };

/* The inputs, of which the last is a line, a sheet or a book, and the output. */
enum { STATEMENT, TABLE, GIVEN, OUT, REGIONS };

#define WHOLE_PAGES(bytes) (((bytes) + PAGE - 1) / PAGE * PAGE)

static const size_t size_of[REGIONS] = {WHOLE_PAGES(CARBON_STATEMENT_BYTES), WHOLE_PAGES(CARBON_TABLE_BYTES),
                                        WHOLE_PAGES(CARBON_BOOK_BYTES + 1), WHOLE_PAGES(CARBON_EXPORT_BYTES)};
static uint8_t *region[REGIONS];

static void die(const char *what)
{
    fprintf(stderr, "guarded call: %s\n", what);
    exit(1);
}

static void protect(uint8_t *start, size_t size, int how)
{
    if (mprotect(start, size, how) != 0)
        die("pages cannot be protected");
}

static void make_regions(void)
{
    if (region[OUT] != NULL)
        return;
    for (int i = 0; i < REGIONS; i++) {
        uint8_t *pages = mmap(NULL, size_of[i] + 2 * PAGE, PROT_NONE, MAP_PRIVATE | MAP_ANONYMOUS, -1, 0);
        if (pages == MAP_FAILED)
            die("no pages");
        region[i] = pages + PAGE;
    }
    protect(region[OUT], size_of[OUT], PROT_READ | PROT_WRITE);
}

static uint8_t *flush(int i, size_t length, bool at_end)
{
    if (length > size_of[i])
        die("a buffer is too long");
    return at_end ? region[i] + size_of[i] - length : region[i];
}

static const uint8_t *lend(int i, struct bytes bytes, bool at_end)
{
    uint8_t *place = flush(i, bytes.length, at_end);
    protect(region[i], size_of[i], PROT_READ | PROT_WRITE);
    if (bytes.length > 0)
        memcpy(place, bytes.at, bytes.length);
    protect(region[i], size_of[i], PROT_READ);
    return place;
}

/* What is watched of the output's pages: the buffer, and so many bytes before it and behind it. */
static uint8_t *watched_from(uint8_t *out)
{
    return out - region[OUT] < WATCHED ? region[OUT] : out - WATCHED;
}

static uint8_t *watched_to(uint8_t *end)
{
    uint8_t *last = region[OUT] + size_of[OUT];
    return last - end < WATCHED ? last : end + WATCHED;
}

static void see_untouched(const uint8_t *from, const uint8_t *to)
{
    for (; from < to; from++)
        if (*from != FILLED)
            die("a byte that is not the result's was touched");
}

static uint8_t *filled_out(size_t room, bool at_end)
{
    uint8_t *out = flush(OUT, room, at_end);
    uint8_t *from = watched_from(out);
    memset(from, FILLED, (size_t)(watched_to(out + room) - from));
    return out;
}

static size_t written(int64_t value)
{
    return value > 0 ? (size_t)value : 0;
}

static struct answer seen(int64_t value, uint8_t *out, size_t room)
{
    if (value == 0 || value > (int64_t)room)
        die("the answer is no length");
    see_untouched(watched_from(out), out);
    see_untouched(out + written(value), watched_to(out + room));
    return (struct answer){value, out};
}

/* The answer with its bytes apart, since the next call writes to the same pages. */
static struct answer set_apart(struct answer answer)
{
    static uint8_t bytes[CARBON_EXPORT_BYTES];
    memcpy(bytes, answer.out, written(answer.value));
    return (struct answer){answer.value, bytes};
}

static struct answer same(struct answer one, struct answer other)
{
    if (one.value != other.value || memcmp(one.out, other.out, written(one.value)) != 0)
        die("the same call gave two results");
    return other;
}

typedef int64_t (*call_of_three)(const uint8_t *statement, size_t statement_length,
                                 const uint8_t *table, size_t table_length,
                                 const uint8_t *given, size_t given_length, uint8_t *out, size_t out_length);
typedef int64_t (*call_of_one)(const uint8_t *one, size_t length, uint8_t *out, size_t out_length);

struct three {
    call_of_three call;
    struct bytes statement, table, given;
};

static struct answer three_flush(struct three of, size_t room, bool at_end)
{
    const uint8_t *statement = lend(STATEMENT, of.statement, at_end);
    const uint8_t *table = lend(TABLE, of.table, at_end);
    const uint8_t *given = lend(GIVEN, of.given, at_end);
    uint8_t *out = filled_out(room, at_end);
    int64_t value = of.call(statement, of.statement.length, table, of.table.length, given, of.given.length, out, room);
    return seen(value, out, room);
}

static struct answer guarded_three(struct three of, size_t room)
{
    make_regions();
    struct answer at_start = set_apart(three_flush(of, room, false));
    return same(at_start, three_flush(of, room, true));
}

struct answer guarded_call(struct bytes statement, struct bytes table, struct bytes line, size_t room)
{
    return guarded_three((struct three){carbon_account_line, statement, table, line}, room);
}

struct answer guarded_import(struct bytes statement, struct bytes table, struct bytes sheet, size_t room)
{
    return guarded_three((struct three){carbon_import_sheet, statement, table, sheet}, room);
}

static struct answer one_flush(call_of_one call, struct bytes given, size_t room, bool at_end)
{
    const uint8_t *lent = lend(GIVEN, given, at_end);
    uint8_t *out = filled_out(room, at_end);
    return seen(call(lent, given.length, out, room), out, room);
}

static struct answer guarded_one(call_of_one call, struct bytes given, size_t room)
{
    make_regions();
    struct answer at_start = set_apart(one_flush(call, given, room, false));
    return same(at_start, one_flush(call, given, room, true));
}

struct answer guarded_foot(struct bytes statement, size_t room)
{
    return guarded_one(carbon_foot, statement, room);
}

struct answer guarded_export(struct bytes book, size_t room)
{
    return guarded_one(carbon_export_sheet, book, room);
}

struct bytes text(const char *characters)
{
    return (struct bytes){(const uint8_t *)characters, strlen(characters)};
}
