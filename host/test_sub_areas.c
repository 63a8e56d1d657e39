#include "test_sub_areas.h"
#include "carbon_account.h"
#include "guarded.h"
#include "test_damage.h"

#include <stdarg.h>
#include <stdio.h>
#include <stdlib.h>
#include <string.h>

#define HEADING "area,sub,hectares,type,planted\r\n"
#define QUOTED_HEADING "\"area\",\"sub\",\"hectares\",\"type\",\"planted\"\r\n"

enum { ONE_TOO_MANY = CARBON_MOST_SUBS + 1 };

/* Document 01's limit and one more, and up to the present limit. */
static const int counts[] = {16, 17, CARBON_MOST_SUBS - 1, CARBON_MOST_SUBS};

static const struct bytes no_table = {(const uint8_t *)"", 0};
static const struct bytes odd_table = {(const uint8_t *)"x", 1};

/* A text that is put together piece by piece. */
struct built {
    size_t length;
    char bytes[CARBON_OUT_BYTES];
};

static void put(struct built *built, const char *format, ...)
{
    size_t room = sizeof built->bytes - built->length;
    va_list values;
    va_start(values, format);
    int length = vsnprintf(built->bytes + built->length, room, format, values);
    va_end(values);
    if (length < 0 || (size_t)length >= room)
        exit(1);
    built->length += (size_t)length;
}

static struct bytes bytes_of(const struct built *built)
{
    return (struct bytes){(const uint8_t *)built->bytes, built->length};
}

static bool is_built(struct answer answer, const struct built *expected)
{
    return answer.value == (int64_t)expected->length && memcmp(answer.out, expected->bytes, expected->length) == 0;
}

/* An area of so many sub-areas of bare land: as a statement, as rows, as a book, and as the export of that book. */
static struct built statement_of(int subs)
{
    struct built built = {0};
    put(&built, "H,1\nA,7,2010,2010,0,0,0,0,0,0,%d\n", subs);
    for (int sub = 1; sub <= subs; sub++)
        put(&built, "S,%d,10,B,0,B,0,0\n", sub);
    return built;
}

static struct built sheet_of(int first, int last)
{
    struct built built = {0};
    put(&built, HEADING);
    for (int sub = first; sub <= last; sub++)
        put(&built, "7,%d,1,B,0\r\n", sub);
    return built;
}

static struct built book_of(int subs)
{
    struct built built = {0};
    put(&built, "A,7,2010\n");
    for (int sub = 1; sub <= subs; sub++)
        put(&built, "S,7,%d,1,B,0\n", sub);
    return built;
}

static struct built export_of(int subs)
{
    struct built built = {0};
    put(&built, QUOTED_HEADING);
    for (int sub = 1; sub <= subs; sub++)
        put(&built, "\"7\",\"%d\",\"1\",\"B\",\"0\"\r\n", sub);
    return built;
}

static struct answer line_on(const struct built *statement, const char *line, size_t room)
{
    return guarded_call(bytes_of(statement), no_table, text(line), room);
}

static struct answer sheet_on(const struct built *statement, const struct built *sheet, size_t room)
{
    return guarded_import(bytes_of(statement), no_table, bytes_of(sheet), room);
}

/* A line and a sheet add a sub-area to those before it. */
static void test_added(int sub)
{
    char line[32];
    struct built before = statement_of(sub - 1), after = statement_of(sub), one = sheet_of(sub, sub), all = sheet_of(1, sub);
    struct built opened = statement_of(0);
    snprintf(line, sizeof line, "S,7,%d,1,B,0\n", sub);
    expect(is_built(line_on(&before, line, CARBON_OUT_BYTES), &after), line);
    expect(is_built(line_on(&before, line, after.length), &after), "a sub-area into the exact room");
    expect(line_on(&before, line, after.length - 1).value == -CARBON_ROOM, "too little room for a sub-area is 8");
    expect(is_built(sheet_on(&before, &one, CARBON_STATEMENT_BYTES), &after), "a sheet of one sub-area");
    expect(is_built(sheet_on(&opened, &all, after.length), &after), "a sheet of all of them");
    expect(sheet_on(&opened, &all, after.length - 1).value == -CARBON_ROOM, "too little room for a sheet is 8");
}

/* What is kept of an area of so many is read by every call, and given back. */
static void test_kept(int subs)
{
    static const char foot[] = "F,0,0,0\n";
    struct built statement = statement_of(subs), book = book_of(subs), sheet = export_of(subs), heading = sheet_of(1, 0);
    struct answer answer = guarded_foot(bytes_of(&statement), CARBON_FOOT_BYTES);
    expect(answer.value == (int64_t)strlen(foot) && memcmp(answer.out, foot, strlen(foot)) == 0, "the foot of a large area");
    expect(is_built(sheet_on(&statement, &heading, statement.length), &statement), "a large area comes back");
    expect(line_on(&statement, "R,7,2010", CARBON_OUT_BYTES).value > 0, "a return of a large area");
    expect(is_built(guarded_export(bytes_of(&book), CARBON_EXPORT_BYTES), &sheet), "the export of a large area");
}

/* A full area: every room that is too little, and a statement cut short at every place. */
static void test_full(void)
{
    struct built full = statement_of(CARBON_MOST_SUBS), heading = sheet_of(1, 0);
    int64_t need = line_on(&full, "W,7", CARBON_OUT_BYTES).value;
    expect(need > (int64_t)full.length, "the withdrawal of a full area is reported");
    for (int64_t room = 0; room < need; room++)
        expect(line_on(&full, "W,7", (size_t)room).value == -CARBON_ROOM, "too little room for a full area is 8");
    for (size_t kept = 0; kept < full.length; kept++) {
        struct bytes cut = {bytes_of(&full).at, kept};
        expect(guarded_foot(cut, CARBON_FOOT_BYTES).value == -CARBON_STATEMENT, "a full area cut short has no foot");
        int64_t value = guarded_import(cut, no_table, bytes_of(&heading), CARBON_STATEMENT_BYTES).value;
        expect(value == -CARBON_STATEMENT, "a full area cut short takes no sheet");
    }
}

static void test_refused(const struct built *statement, const char *line, enum carbon_refusal refusal)
{
    int64_t expected = -(int64_t)refusal;
    expect(line_on(statement, line, CARBON_OUT_BYTES).value == expected, line);
    expect(line_on(statement, line, 0).value == expected, "without room the same refusal");
    int64_t with_odd = guarded_call(bytes_of(statement), odd_table, text(line), CARBON_OUT_BYTES).value;
    expect(with_odd == -CARBON_TABLE, "an odd table is 6");
}

static void test_refused_sheet(const struct built *statement, const struct built *sheet, enum carbon_refusal refusal)
{
    int64_t expected = -(int64_t)refusal;
    expect(sheet_on(statement, sheet, CARBON_STATEMENT_BYTES).value == expected, "a sheet that is refused");
    expect(sheet_on(statement, sheet, 0).value == expected, "without room the same refusal of a sheet");
    int64_t with_odd = guarded_import(bytes_of(statement), odd_table, bytes_of(sheet), CARBON_STATEMENT_BYTES).value;
    expect(with_odd == -CARBON_TABLE, "an odd table is 6, before all else");
}

static void test_one_too_many(void)
{
    char more[32], again[32];
    struct built opened = statement_of(0), full = statement_of(CARBON_MOST_SUBS);
    struct built one = sheet_of(ONE_TOO_MANY, ONE_TOO_MANY), all = sheet_of(1, ONE_TOO_MANY);
    struct built doubled = sheet_of(1, CARBON_MOST_SUBS);
    snprintf(more, sizeof more, "S,7,%d,1,D,2011", ONE_TOO_MANY);
    snprintf(again, sizeof again, "S,7,%d,1,D,2011", CARBON_MOST_SUBS);
    put(&doubled, "7,1,1,B,0\r\n");
    test_refused(&full, more, CARBON_SUBS_FULL);
    test_refused(&full, again, CARBON_SUB_USED);
    test_refused_sheet(&full, &one, CARBON_SUBS_FULL);
    test_refused_sheet(&opened, &all, CARBON_SUBS_FULL);
    test_refused_sheet(&opened, &doubled, CARBON_SUB_USED);
}

static void test_statement_of_too_many(void)
{
    struct built statement = statement_of(ONE_TOO_MANY), heading = sheet_of(1, 0);
    struct built book = book_of(ONE_TOO_MANY), sheet = export_of(CARBON_MOST_SUBS);
    test_refused(&statement, "W,7", CARBON_STATEMENT);
    test_refused_sheet(&statement, &heading, CARBON_STATEMENT);
    expect(guarded_foot(bytes_of(&statement), CARBON_FOOT_BYTES).value == -CARBON_STATEMENT, "a foot of too many is 11");
    expect(is_built(guarded_export(bytes_of(&book), CARBON_EXPORT_BYTES), &sheet), "one sub-area too many is not exported");
}

/* Every field has its most digits; of the last area, what stands behind its opening year is given. */
static struct built largest_with(const char *last_fields)
{
    static const char fields[] = "2200,2199,1,192,2880000000000,576000000000,576000000000";
    struct built built = {0};
    put(&built, "H,%d\n", CARBON_MOST_AREAS);
    for (int area = 1000 - CARBON_MOST_AREAS; area < 1000; area++) {
        put(&built, "A,%d,2008,%s,%d\n", area, area < 999 ? fields : last_fields, CARBON_MOST_SUBS);
        for (int sub = 100 - CARBON_MOST_SUBS; sub < 100; sub++)
            put(&built, "S,%d,100000,P9,2199,P9,299,2199\n", sub);
    }
    return built;
}

static void test_largest_statement(void)
{
    static const char foot[] = "F,9216000000000,9216000000000,0\n";
    struct built largest = largest_with("2200,2199,1,192,2880000000000,576000000000,576000000000"), heading = sheet_of(1, 0);
    expect(largest.length == 25701 && largest.length <= CARBON_STATEMENT_BYTES, "the largest statement has its room");
    expect(is_built(sheet_on(&largest, &heading, CARBON_STATEMENT_BYTES), &largest), "the largest statement comes back");
    struct answer answer = guarded_foot(bytes_of(&largest), CARBON_FOOT_BYTES);
    expect(answer.value == (int64_t)strlen(foot) && memcmp(answer.out, foot, strlen(foot)) == 0, "the largest foot");
}

/* Of radiata at any age 3000 tonnes a hectare, and no residue: half of the last area's stock. */
static const uint8_t half_of_all[] = {1, 0, 0, 0, 0, 0, 0, 0, 0, 0, 1, 0, 0, 0, 0, 0, 0, 0, 0, 0, 0x30, 0x75, 0, 0};

/* The most that a call writes: the statement that has the most digits after a return, and the longest line of one. */
static void test_longest_answer(void)
{
    struct bytes table = {half_of_all, sizeof half_of_all};
    struct built before = largest_with("2199,2199,0,191,2880000000000,573000000000,286500000000");
    struct built after = largest_with("2200,2199,0,192,1440000000000,573000000000,287940000000");
    put(&after, "R,999,2199,2199,-1440000000,0,1440000000,285060000000\n");
    const size_t rooms[] = {after.length, after.length + 1, CARBON_OUT_BYTES - 1, CARBON_OUT_BYTES};
    expect(after.length == 25755, "the longest answer has a return of 54 bytes");
    for (size_t i = 0; i < sizeof rooms / sizeof rooms[0]; i++)
        expect(is_built(guarded_call(bytes_of(&before), table, text("R,999,2199"), rooms[i]), &after), "the longest answer");
    int64_t short_by_one = guarded_call(bytes_of(&before), table, text("R,999,2199"), after.length - 1).value;
    expect(short_by_one == -CARBON_ROOM, "too little room for the longest answer is 8");
}

void test_sub_areas(void)
{
    for (size_t i = 0; i < sizeof counts / sizeof counts[0]; i++) {
        test_added(counts[i]);
        test_kept(counts[i]);
    }
    test_full();
    test_one_too_many();
    test_statement_of_too_many();
    test_largest_statement();
    test_longest_answer();
}
