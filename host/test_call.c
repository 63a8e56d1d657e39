/* The calls against documents 01 and 02: the printed case line by line with the foot after each, every refusal that a
 * call can give, and the room of the output. Sheets are tried by test_sheet.c, areas of many sub-areas and 26 by
 * test_sub_areas.c, damaged input by test_damage.c. */
#include "carbon_account.h"
#include "guarded.h"
#include "test_damage.h"
#include "test_sheet.h"
#include "test_sub_areas.h"

#include <stdbool.h>
#include <stdio.h>
#include <string.h>

static int failures;

void expect(bool holds, const char *what)
{
    if (!holds) {
        failures++;
        printf("does not hold: %s\n", what);
    }
}

static const struct bytes no_table = {(const uint8_t *)"", 0};

static bool is_text(struct answer answer, const char *statement, const char *report)
{
    size_t first = strlen(statement), second = strlen(report);
    return answer.value == (int64_t)(first + second) && memcmp(answer.out, statement, first) == 0 &&
           memcmp(answer.out + first, report, second) == 0;
}

static bool is_foot(const char *statement, const char *foot)
{
    return is_text(guarded_foot(text(statement), CARBON_FOOT_BYTES), foot, "");
}

struct step {
    const char *line;
    const char *statement;
    const char *report;
    const char *foot;
};

static const struct step printed_case[] = {
    {"A,7,2010\n", "H,1\nA,7,2010,2010,0,0,0,0,0,0,0\n", "", "F,0,0,0\n"},
    {"S,7,1,10.04,D,2008\n", "H,1\nA,7,2010,2010,0,0,0,45000,0,0,1\nS,1,100,D,2008,B,0,0\n", "", "F,0,0,0\n"},
    {"R,7,2010\n", "H,1\nA,7,2010,2011,0,0,1,100000,55,0,1\nS,1,100,D,2008,B,0,0\n", "R,7,2010,2010,55,55,0,55\n",
     "F,55,0,55\n"},
    {"C,7,1,2011\n", "H,1\nA,7,2010,2011,2011,0,1,100000,55,0,1\nS,1,100,B,0,D,3,2011\n", "", "F,55,0,55\n"},
    {"P,7,1,D,2011\n", "H,1\nA,7,2010,2011,2011,0,1,100000,55,0,1\nS,1,100,D,2011,D,3,2011\n", "", "F,55,0,55\n"},
    {"R,7,2012\n", "H,1\nA,7,2010,2013,2011,0,2,85000,55,15,1\nS,1,100,D,2011,D,3,2011\n", "R,7,2011,2012,-15,0,15,40\n",
     "F,55,15,40\n"},
    {"R,7,2013\n", "H,1\nA,7,2010,2014,2011,0,3,135000,105,15,1\nS,1,100,D,2011,D,3,2011\n", "R,7,2013,2013,50,50,0,90\n",
     "F,105,15,90\n"},
    {"C,7,2,2014\n", NULL, NULL, NULL},
    {"W,7", "H,1\nA,7,2010,2014,2011,1,3,135000,105,105,1\nS,1,100,D,2011,D,3,2011\n", "W,7,90\n", "F,105,105,0\n"},
};

static const uint8_t one_column[] = {0, 0, 5, 0, 0, 0, 0, 0, 0, 0, 0, 0, 0, 0, 0, 0, 0, 0, 0, 0,
                                     0, 0, 10, 0, 45, 0, 100, 0, 200, 0};
static const uint8_t two_columns[] = {0, 0, 5, 0, 0, 0, 0, 0, 0, 0, 0, 0, 5, 0, 0, 0, 0, 0, 0, 0,
                                      0, 0, 10, 0, 45, 0, 100, 0, 200, 0, 0, 0, 5, 0, 20, 0, 50, 0, 80, 0};

static bool is_table(struct answer answer, const uint8_t *table, size_t length)
{
    return answer.value == (int64_t)length && memcmp(answer.out, table, length) == 0;
}

static void test_printed_case(void)
{
    struct bytes statement = text("H,0\n");
    struct bytes first = {one_column, sizeof one_column}, table = {two_columns, sizeof two_columns};
    struct answer answer = guarded_call(statement, no_table, text("T,G,D,0,1,4.5,10,20\n"), CARBON_OUT_BYTES);
    expect(is_table(answer, one_column, sizeof one_column), "the first T line");
    answer = guarded_call(statement, first, text("T,R,D,0,0.5,2,5,8\n"), CARBON_OUT_BYTES);
    expect(is_table(answer, two_columns, sizeof two_columns), "the second T line");
    for (size_t i = 0; i < sizeof printed_case / sizeof printed_case[0]; i++) {
        struct step step = printed_case[i];
        answer = guarded_call(statement, table, text(step.line), CARBON_OUT_BYTES);
        if (step.statement == NULL) {
            expect(answer.value == -CARBON_SUB_UNKNOWN, step.line);
        } else {
            expect(is_text(answer, step.statement, step.report), step.line);
            expect(is_foot(step.statement, step.foot), step.foot);
            statement = text(step.statement);
        }
    }
}

#define FRESH "H,1\nA,7,2010,2010,0,0,0,0,0,0,1\nS,1,10,B,0,B,0,0\n"
#define FILED "H,1\nA,7,2010,2011,2011,0,1,135000,55,0,2\nS,1,100,D,2011,D,3,2011\nS,2,10,B,0,B,0,0\n"
#define WITHDRAWN "H,1\nA,7,2010,2011,0,1,1,0,5,5,0\n"
#define RECEIVED(units) "H,1\nA,7,2010,2012,0,0,2,0," #units ",5,0\n"
#define MOST_RECEIVED RECEIVED(6000000000)
#define ONE_MORE_RECEIVED RECEIVED(6000000001)
#define AREA(number) "A," #number ",2010,2010,0,0,0,0,0,0,0\n"
#define SIXTEEN_AREAS                                                                                             \
    "H,16\n" AREA(1) AREA(2) AREA(3) AREA(4) AREA(5) AREA(6) AREA(7) AREA(8) AREA(9) AREA(10) AREA(11) AREA(12) \
        AREA(13) AREA(14) AREA(15) AREA(16)

static const struct {
    const char *statement;
    const char *line;
    enum carbon_refusal refusal;
} refused[] = {
    {FILED, "", CARBON_FORM},
    {FILED, "\n", CARBON_FORM},
    {FILED, "W,7\n\n", CARBON_FORM},
    {FILED, "W,07", CARBON_FORM},
    {"", "W,0,0", CARBON_FORM},
    {FILED, "W,1000", CARBON_NUMBER},
    {FILED, "C,7,0,1", CARBON_NUMBER},
    {FILED, "P,7,1,B,2011", CARBON_TYPE},
    {FILED, "S,7,3,0.9999,D,2010", CARBON_HECTARES},
    {FILED, "S,7,3,1,B,2010", CARBON_YEAR},
    {FILED, "R,7,2200", CARBON_YEAR},
    {FILED, "T,G,D,3000.1", CARBON_TABLE},
    {"H,0", "W,7", CARBON_STATEMENT},
    {"", "T,G,D,1", CARBON_STATEMENT},
    {ONE_MORE_RECEIVED, "W,7", CARBON_STATEMENT},
    {FILED, "A,7,2010", CARBON_AREA_USED},
    {SIXTEEN_AREAS, "A,16,2010", CARBON_AREA_USED},
    {FILED, "W,8", CARBON_AREA_UNKNOWN},
    {WITHDRAWN, "R,7,2010", CARBON_AREA_WITHDRAWN},
    {SIXTEEN_AREAS, "A,17,2010", CARBON_AREAS_FULL},
    {FILED, "S,7,1,1,B,0", CARBON_SUB_USED},
    {FILED, "S,7,3,1,D,2011", CARBON_AREA_HAS_FILED},
    {FILED, "C,7,3,2008", CARBON_SUB_UNKNOWN},
    {FILED, "C,7,2,2008", CARBON_CLEARING_BARE},
    {FILED, "P,7,1,D,2008", CARBON_PLANTING_UNDER},
    {FILED, "R,7,2010", CARBON_YEAR_TOO_EARLY},
    {FRESH, "S,7,2,1,D,2011", CARBON_PLANTED_AFTER},
    {FRESH, "T,G,D,1", CARBON_TABLE_AFTER_AREA},
    {WITHDRAWN, "T,G,D,1", CARBON_TABLE_AFTER_AREA},
};

static void test_refusals(void)
{
    struct bytes odd = {(const uint8_t *)"x", 1}, table = {two_columns, sizeof two_columns};
    for (size_t i = 0; i < sizeof refused / sizeof refused[0]; i++) {
        struct bytes statement = text(refused[i].statement), line = text(refused[i].line);
        int64_t expected = -(int64_t)refused[i].refusal;
        expect(guarded_call(statement, no_table, line, CARBON_OUT_BYTES).value == expected, refused[i].line);
        expect(guarded_call(statement, no_table, line, 0).value == expected, "without room the same refusal");
        int64_t with_odd = refused[i].refusal < CARBON_TABLE ? expected : -CARBON_TABLE;
        expect(guarded_call(statement, odd, line, CARBON_OUT_BYTES).value == with_odd, "an odd table is 6");
    }
    struct answer taken_column = guarded_call(text("H,0\n"), table, text("T,R,D,1"), CARBON_OUT_BYTES);
    expect(taken_column.value == -CARBON_TABLE, "a column that has cells is 6");
    taken_column = guarded_call(text(FILED), table, text("T,G,P,1"), CARBON_OUT_BYTES);
    expect(taken_column.value == -CARBON_TABLE, "a column before one that has cells is 6, whatever the state");
}

static void test_room_of(const char *statement, const char *line)
{
    struct bytes table = {two_columns, sizeof two_columns};
    int64_t need = guarded_call(text(statement), table, text(line), CARBON_OUT_BYTES).value;
    expect(need > 0, line);
    for (int64_t room = 0; room < need; room++)
        expect(guarded_call(text(statement), table, text(line), (size_t)room).value == -CARBON_ROOM, "too little room is 8");
    for (int64_t room = need; room < need + 9; room++)
        expect(guarded_call(text(statement), table, text(line), (size_t)room).value == need, "the exact room is enough");
}

static void test_room(void)
{
    test_room_of("H,0\n", "A,999,2199\n");
    test_room_of(FRESH, "S,7,99,9999.95,P9,1900\n");
    test_room_of(FILED, "C,7,1,2011\n");
    test_room_of(FILED, "P,7,2,N,2199\n");
    test_room_of(FILED, "R,7,2199\n");
    test_room_of(FILED, "W,7\n");
    test_room_of(MOST_RECEIVED, "W,7\n");
    test_room_of("H,0\n", "T,R,N,3000\n");
}

#define OLDEST_AREA(number) "A," #number ",2008,2200,0,0,192,0,576000000000,288000000000,0\n"
#define OLDEST_FOUR(first, second, third, fourth) \
    OLDEST_AREA(first) OLDEST_AREA(second) OLDEST_AREA(third) OLDEST_AREA(fourth)
#define LONGEST_FOOT_OF                                                                                      \
    "H,16\n" OLDEST_FOUR(1, 2, 3, 4) OLDEST_FOUR(5, 6, 7, 8) OLDEST_FOUR(9, 10, 11, 12) \
        OLDEST_FOUR(13, 14, 15, 16)
#define ONE_WITHDRAWN "H,2\nA,7,2010,2011,0,1,1,0,5,5,0\nA,8,2010,2011,0,0,1,0,30,10,0\n"

static void test_foot(const char *statement, const char *foot)
{
    size_t need = strlen(foot);
    for (size_t room = 0; room < need; room++)
        expect(guarded_foot(text(statement), room).value == -CARBON_ROOM, "too little room for a foot is 8");
    for (size_t room = need; room < need + 9; room++)
        expect(is_text(guarded_foot(text(statement), room), foot, ""), foot);
}

static void test_feet(void)
{
    static const char longest[] = "F,9216000000000,4608000000000,4608000000000\n";
    static const char *const none[] = {"", "H,0", "H,0\n\n", "H,1\n", "H,1\nA,7,2010,2011,0,1,1,0,5,4,0\n",
                                       ONE_MORE_RECEIVED, longest};
    expect(strlen(longest) == CARBON_FOOT_BYTES, "the room for a foot is that of the longest");
    test_foot("H,0\n", "F,0,0,0\n");
    test_foot(FILED, "F,55,0,55\n");
    test_foot(ONE_WITHDRAWN, "F,35,15,20\n");
    test_foot(MOST_RECEIVED, "F,6000000000,5,5999999995\n");
    test_foot(LONGEST_FOOT_OF, longest);
    for (size_t i = 0; i < sizeof none / sizeof none[0]; i++) {
        expect(guarded_foot(text(none[i]), CARBON_FOOT_BYTES).value == -CARBON_STATEMENT, "what is no statement has no foot");
        expect(guarded_foot(text(none[i]), 0).value == -CARBON_STATEMENT, "without room the same refusal");
    }
}

static void test_long_lines(void)
{
    static uint8_t line[1030];
    memset(line, '9', sizeof line);
    memcpy(line, "W,", 2);
    expect(guarded_call(text(FILED), no_table, (struct bytes){line, 1024}, 0).value == -CARBON_NUMBER, "1024 bytes are a line");
    expect(guarded_call(text(FILED), no_table, (struct bytes){line, 1025}, 0).value == -CARBON_FORM, "1025 bytes are none");
    line[1024] = '\n';
    expect(guarded_call(text(FILED), no_table, (struct bytes){line, 1025}, 0).value == -CARBON_NUMBER, "the end is not counted");
    expect(guarded_call(text(FILED), no_table, (struct bytes){line, 1026}, 0).value == -CARBON_FORM, "byte 10 within the line");
}

int main(void)
{
    test_printed_case();
    test_refusals();
    test_room();
    test_feet();
    test_long_lines();
    test_sheets();
    test_sub_areas();
    test_damage();
    if (failures > 0) {
        printf("the calls: %d do not hold\n", failures);
        return 1;
    }
    printf("the calls: all hold\n");
    return 0;
}
