#include "test_sheet.h"
#include "carbon_account.h"
#include "guarded.h"
#include "test_damage.h"

#include <stdio.h>
#include <stdlib.h>
#include <string.h>

#define HEADING "area,sub,hectares,type,planted\r\n"
#define QUOTED_HEADING "\"area\",\"sub\",\"hectares\",\"type\",\"planted\"\r\n"
#define OPENED "H,2\nA,7,2010,2010,0,0,0,0,0,0,0\nA,8,2012,2012,0,0,0,0,0,0,0\n"
#define CLOSED "H,2\nA,7,2010,2011,0,0,1,0,5,0,0\nA,8,2010,2011,0,1,1,0,5,5,0\n"
#define ROW(sub) "7," #sub ",1,B,0\r\n"

static const struct bytes no_table = {(const uint8_t *)"", 0};
static const struct bytes odd_table = {(const uint8_t *)"x", 1};

static bool is_text(struct answer answer, const char *expected)
{
    return answer.value == (int64_t)strlen(expected) && memcmp(answer.out, expected, strlen(expected)) == 0;
}

static const struct {
    const char *statement;
    const char *sheet;
    const char *after;
} taken[] = {
    {"H,0\n", HEADING, "H,0\n"},
    {"H,0\n", "area,sub,hectares,type,planted", "H,0\n"},
    {CLOSED, QUOTED_HEADING, CLOSED},
    {OPENED, HEADING "8,2,45.85,P3,2012\r\n7,1,10.04,D,2000\r\n8,1,\"1\",\"B\",\"0\"",
     "H,2\nA,7,2010,2010,0,0,0,500000,0,0,1\nS,1,100,D,2000,B,0,0\nA,8,2012,2012,0,0,0,0,0,0,2\nS,2,459,P3,2012,B,0,0\n"
     "S,1,10,B,0,B,0,0\n"},
};

static void test_taken(void)
{
    for (size_t i = 0; i < sizeof taken / sizeof taken[0]; i++) {
        struct bytes statement = text(taken[i].statement), sheet = text(taken[i].sheet);
        size_t need = strlen(taken[i].after);
        for (size_t room = need; room < need + 9; room++)
            expect(is_text(guarded_import(statement, no_table, sheet, room), taken[i].after), taken[i].sheet);
        for (size_t room = 0; room < need; room++)
            expect(guarded_import(statement, no_table, sheet, room).value == -CARBON_ROOM, "too little room is 8");
        expect(guarded_import(statement, odd_table, sheet, need).value == -CARBON_TABLE, "an odd table is 6");
    }
}

static const struct {
    const char *statement;
    const char *sheet;
    enum carbon_refusal refusal;
} refused[] = {
    {"", HEADING, CARBON_STATEMENT},
    {"H,0", "\"", CARBON_STATEMENT},
    {OPENED, "area,sub,hectares,type,planted\n", CARBON_SHEET_FORM},
    {OPENED, HEADING ROW(1) "7,2,1,B,0\r", CARBON_SHEET_FORM},
    {OPENED, "x\r\n7\"", CARBON_SHEET_FORM},
    {OPENED, HEADING "\"7\" ,1,1,B,0", CARBON_SHEET_FORM},
    {OPENED, HEADING "7,1,1,B,\"0\r\n", CARBON_SHEET_FORM},
    {OPENED, "", CARBON_SHEET_ROW},
    {OPENED, "\xEF\xBB\xBF" HEADING, CARBON_SHEET_ROW},
    {OPENED, HEADING "\r\n", CARBON_SHEET_ROW},
    {OPENED, HEADING "9,1,1,B,0\r\n7,1,1,B", CARBON_SHEET_ROW},
    {OPENED, ROW(1), CARBON_SHEET_ROW},
    {OPENED, HEADING "\"7\n\",1,1,B,0", CARBON_FORM},
    {OPENED, HEADING "7,1,1,B,\"0\n\"", CARBON_FORM},
    {OPENED, HEADING "7,1,\"1,B\",0,0", CARBON_FORM},
    {OPENED, HEADING "7,1,\"\"\"1\"\"\",B,0", CARBON_FORM},
    {OPENED, HEADING "7,1, 1,B,0", CARBON_FORM},
    {OPENED, HEADING "7,100,1,B,0", CARBON_NUMBER},
    {OPENED, HEADING "7,1,1,Q,0", CARBON_TYPE},
    {OPENED, HEADING "7,1,0.9999,B,0", CARBON_HECTARES},
    {OPENED, HEADING "7,1,1,D,0", CARBON_YEAR},
    {OPENED, HEADING ROW(1) "9,1,1,B,0\r\n0,0,0,0,0", CARBON_AREA_UNKNOWN},
    {CLOSED, HEADING "8,1,1,B,0", CARBON_AREA_WITHDRAWN},
    {OPENED, HEADING ROW(1) ROW(2) ROW(1), CARBON_SUB_USED},
    {CLOSED, HEADING "7,1,1,B,0", CARBON_AREA_HAS_FILED},
    {OPENED, HEADING "7,1,1,D,2011", CARBON_PLANTED_AFTER},
};

static void test_refused(void)
{
    for (size_t i = 0; i < sizeof refused / sizeof refused[0]; i++) {
        struct bytes statement = text(refused[i].statement), sheet = text(refused[i].sheet);
        int64_t expected = -(int64_t)refused[i].refusal;
        expect(guarded_import(statement, no_table, sheet, CARBON_STATEMENT_BYTES).value == expected, refused[i].sheet);
        expect(guarded_import(statement, no_table, sheet, 0).value == expected, "without room the same refusal");
        int64_t with_odd = guarded_import(statement, odd_table, sheet, CARBON_STATEMENT_BYTES).value;
        expect(with_odd == -CARBON_TABLE, "an odd table is 6, before all else");
    }
}

/* A byte 0 is part of its field, as any other. */
static void test_noughts(void)
{
    static const char heading[] = "area,sub,hectares,type,planted\0\r\n", row[] = HEADING "7,1,1,\0,0\r\n";
    struct bytes in_heading = {(const uint8_t *)heading, sizeof heading - 1}, in_row = {(const uint8_t *)row, sizeof row - 1};
    expect(guarded_import(text(OPENED), no_table, in_heading, 0).value == -CARBON_SHEET_ROW, "a name with byte 0 is 42");
    expect(guarded_import(text(OPENED), no_table, in_row, 0).value == -CARBON_TYPE, "a type of byte 0 is 3");
}

/* The line that a row comes to has 1024 bytes at most. */
static void test_long_rows(void)
{
    static const char before[] = HEADING, behind[] = ",1,1,B,0\r\n";
    enum { MOST_DIGITS = 1024 - (sizeof "S,,1,1,B,0" - 1) };
    for (size_t digits = MOST_DIGITS; digits <= MOST_DIGITS + 1; digits++) {
        uint8_t sheet[sizeof before + MOST_DIGITS + sizeof behind];
        size_t start = sizeof before - 1, end = start + digits;
        memcpy(sheet, before, start);
        memset(sheet + start, '9', digits);
        memcpy(sheet + end, behind, sizeof behind - 1);
        struct bytes whole = {sheet, end + sizeof behind - 1};
        int64_t expected = digits == MOST_DIGITS ? -CARBON_NUMBER : -CARBON_FORM;
        expect(guarded_import(text(OPENED), no_table, whole, 0).value == expected, "1024 bytes are a row's line, 1025 none");
    }
}

/* A sheet that is far longer than a statement, a book or a page. */
static void test_long_sheet(void)
{
    enum { ROWS = 100000 };
    static const char row[] = "7,1,1,B,0\r\n";
    size_t start = sizeof HEADING - 1, width = sizeof row - 1, length = start + ROWS * width;
    uint8_t *sheet = malloc(length), out[CARBON_STATEMENT_BYTES];
    if (sheet == NULL)
        return expect(false, "there is room for a long sheet");
    memcpy(sheet, HEADING, start);
    for (size_t i = 0; i < ROWS; i++)
        memcpy(sheet + start + i * width, row, width);
    const uint8_t *opened = (const uint8_t *)OPENED;
    int64_t whole = carbon_import_sheet(opened, strlen(OPENED), opened, 0, sheet, length, out, sizeof out);
    int64_t cut = carbon_import_sheet(opened, strlen(OPENED), opened, 0, sheet, length - 1, out, sizeof out);
    expect(whole == -CARBON_SUB_USED && cut == -CARBON_SHEET_FORM, "a sheet of 100,000 rows is read to its end");
    free(sheet);
}

static const struct {
    const char *book;
    const char *sheet;
} exported[] = {
    {"", QUOTED_HEADING},
    {"S,7,1,1,B,0\n", QUOTED_HEADING},
    {"T,G,D,0,1,4.5,10,20\nT,R,D,0,0.5,2,5,8\nA,7,2010\nS,7,1,10.04,D,2008\nR,7,2010\nC,7,1,2011\nP,7,1,D,2011\nR,7,2012\n"
     "R,7,2013\nC,7,2,2014\nW,7\n",
     QUOTED_HEADING "\"7\",\"1\",\"10.04\",\"D\",\"2008\"\r\n"},
    {"A,8,2012\nA,7,2010\nS,8,2,1.50,B,0\nS,8,2,1,B,0\nS,7,02,1,B,0\nS,7,1,10000,P9,2010\nS,8,1,9999.9499,N,1900",
     QUOTED_HEADING "\"8\",\"2\",\"1.50\",\"B\",\"0\"\r\n\"7\",\"1\",\"10000\",\"P9\",\"2010\"\r\n"
                    "\"8\",\"1\",\"9999.9499\",\"N\",\"1900\"\r\n"},
};

static void test_exported(void)
{
    for (size_t i = 0; i < sizeof exported / sizeof exported[0]; i++) {
        struct bytes book = text(exported[i].book);
        size_t need = strlen(exported[i].sheet);
        for (size_t room = 0; room < need; room++)
            expect(guarded_export(book, room).value == -CARBON_ROOM, "too little room for a sheet is 8");
        for (size_t room = need; room < need + 9; room++)
            expect(is_text(guarded_export(book, room), exported[i].sheet), exported[i].book);
        expect(is_text(guarded_export(book, CARBON_EXPORT_BYTES), exported[i].sheet), "the room for any sheet");
    }
}

static void test_largest_book(void)
{
    static uint8_t book[CARBON_BOOK_BYTES + 1];
    static const char lines[] = "A,7,2010\nS,7,1,1,B,0\n";
    memset(book, '\n', sizeof book);
    memcpy(book, lines, sizeof lines - 1);
    struct answer largest = guarded_export((struct bytes){book, CARBON_BOOK_BYTES}, CARBON_EXPORT_BYTES);
    expect(is_text(largest, QUOTED_HEADING "\"7\",\"1\",\"1\",\"B\",\"0\"\r\n"), "a book of 65536 bytes is exported");
    for (size_t room = 0; room <= CARBON_EXPORT_BYTES; room += CARBON_EXPORT_BYTES) {
        int64_t longer = guarded_export((struct bytes){book, sizeof book}, room).value;
        expect(longer == -CARBON_FORM, "a longer one is 1, with room or without");
    }
}

void test_sheets(void)
{
    test_taken();
    test_refused();
    test_noughts();
    test_long_rows();
    test_long_sheet();
    test_exported();
    test_largest_book();
}
