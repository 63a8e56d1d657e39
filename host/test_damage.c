#include "test_damage.h"
#include "carbon_account.h"
#include "guarded.h"

#include <inttypes.h>
#include <stdio.h>
#include <string.h>

static const char small_statement[] = "H,1\nA,7,2010,2013,2011,0,2,85000,55,15,1\nS,1,100,D,2011,D,3,2011\n";
static const uint8_t small_table[] = {0, 0, 2, 0, 0, 0, 0, 0, 0, 0, 0, 0, 1, 0, 0, 0, 0, 0, 0, 0, 0x30, 0x75, 45, 0, 80, 0};
static const char small_line[] = "S,7,12,45.85,P3,1999\n";
static const char small_sheet[] = "area,\"sub\",hectares,type,planted\r\n7,12,\"45.85\",P3,1999\r\n\"7\",2,1,B,0";
static const char small_book[] = "A,7,2010\nS,7,1,10.04,D,2008\nS,7,1,1,B,0\nW,7\nS,7,2,1,B,0\n";

typedef void (*trial)(struct bytes damaged);

static void in_every_value(const void *whole, size_t length, trial try)
{
    uint8_t damaged[128];
    for (size_t place = 0; place < length; place++) {
        memcpy(damaged, whole, length);
        for (unsigned value = 0; value < 256; value++) {
            damaged[place] = (uint8_t)value;
            try((struct bytes){damaged, length});
        }
    }
}

static void cut_short(const void *whole, size_t length, trial try)
{
    for (size_t kept = 0; kept < length; kept++)
        try((struct bytes){whole, kept});
}

static void longer_by_a_byte(const void *whole, size_t length, trial try)
{
    static const uint8_t more[] = {0, 1, '\n', '\r', ' ', '"', '+', ',', '-', '.', '0', '1', '9', 'A', 'B', 'S', 0xFF};
    uint8_t damaged[128];
    for (size_t place = 0; place <= length; place++) {
        memcpy(damaged, whole, place);
        memcpy(damaged + place + 1, (const uint8_t *)whole + place, length - place);
        for (size_t i = 0; i < sizeof more; i++) {
            damaged[place] = more[i];
            try((struct bytes){damaged, length + 1});
        }
    }
}

static void in_every_way(const void *whole, size_t length, trial try)
{
    in_every_value(whole, length, try);
    cut_short(whole, length, try);
    longer_by_a_byte(whole, length, try);
}

static bool is_one_of(int64_t value, const int *refusals, size_t count)
{
    for (size_t i = 0; i < count; i++)
        if (value == -refusals[i])
            return true;
    return false;
}

static const struct bytes no_table = {(const uint8_t *)"", 0};

/* A statement of one area that is read comes back byte for byte, with the area that is opened. */
static void open_beside(struct bytes statement)
{
    static const char beside[] = "A,900,2199,2199,0,0,0,0,0,0,0\n";
    size_t last = sizeof beside - 1;
    struct answer answer = guarded_call(statement, no_table, text("A,900,2199"), CARBON_OUT_BYTES);
    if (answer.value == -CARBON_STATEMENT)
        return;
    expect(answer.value == (int64_t)(statement.length + last), "a damaged statement is 11 or taken");
    if (answer.value < 0)
        return;
    expect(memcmp(answer.out, "H,2\n", 4) == 0 && memcmp(answer.out + 4, statement.at + 4, statement.length - 4) == 0 &&
               memcmp(answer.out + statement.length, beside, last) == 0,
           "a statement that is read writes back the same");
}

static void file_on_statement(struct bytes statement)
{
    static const int may_be[] = {CARBON_STATEMENT, CARBON_AREA_UNKNOWN, CARBON_AREA_WITHDRAWN, CARBON_YEAR_TOO_EARLY};
    int64_t value = guarded_call(statement, no_table, text("R,7,2100"), CARBON_OUT_BYTES).value;
    expect(value > 0 || is_one_of(value, may_be, sizeof may_be / sizeof may_be[0]), "a return on a damaged statement");
}

/* The foot that the two fields of a statement of one area make. */
static void write_foot(struct bytes statement, char *foot, size_t room)
{
    char copy[129];
    uint64_t received = 0, surrendered = 0;
    memcpy(copy, statement.at, statement.length);
    copy[statement.length] = '\0';
    int found = sscanf(copy,
                       "H,1 A,%*[0-9],%*[0-9],%*[0-9],%*[0-9],%*[0-9],%*[0-9],%*[0-9],%" SCNu64 ",%" SCNu64,
                       &received, &surrendered);
    expect(found == 2, "a statement that is read has one area");
    snprintf(foot, room, "F,%" PRIu64 ",%" PRIu64 ",%" PRIu64 "\n", received, surrendered, received - surrendered);
}

/* A damaged statement has a foot just where a line would be taken on it. */
static void foot_of_statement(struct bytes statement)
{
    char foot[CARBON_FOOT_BYTES + 1];
    int64_t opened = guarded_call(statement, no_table, text("A,900,2199"), CARBON_OUT_BYTES).value;
    struct answer answer = guarded_foot(statement, CARBON_FOOT_BYTES);
    if (opened == -CARBON_STATEMENT) {
        expect(answer.value == opened, "what is no statement for a line is none for the foot");
        return;
    }
    write_foot(statement, foot, sizeof foot);
    expect(answer.value == (int64_t)strlen(foot) && memcmp(answer.out, foot, strlen(foot)) == 0,
           "the foot of a damaged statement");
}

static unsigned number_at(struct bytes table, size_t index)
{
    return table.at[2 * index] + 256u * table.at[2 * index + 1];
}

static bool is_table(struct bytes table)
{
    if (table.length == 0)
        return true;
    if (table.length % 2 != 0 || table.length < 20)
        return false;
    size_t cells = 0;
    for (size_t column = 0; column < 10; column++) {
        if (number_at(table, column) > 101)
            return false;
        cells += number_at(table, column);
    }
    if (table.length != 20 + 2 * cells)
        return false;
    for (size_t cell = 10; cell < 10 + cells; cell++)
        if (number_at(table, cell) > 30000)
            return false;
    return true;
}

static void file_on_table(struct bytes table)
{
    int64_t value = guarded_call(text(small_statement), table, text("R,7,2100"), CARBON_OUT_BYTES).value;
    expect(is_table(table) ? value > 0 : value == -CARBON_TABLE, "a return on a damaged table");
}

static const char opened[] = "H,1\nA,7,2010,2010,0,0,0,0,0,0,0\n";

static void enter_line(struct bytes line)
{
    static const int may_be[] = {CARBON_FORM,         CARBON_NUMBER,   CARBON_TYPE,     CARBON_HECTARES,
                                 CARBON_YEAR,         CARBON_TABLE,    CARBON_AREA_USED, CARBON_AREA_UNKNOWN,
                                 CARBON_PLANTED_AFTER};
    int64_t value = guarded_call(text(opened), no_table, line, CARBON_OUT_BYTES).value;
    expect(value > 0 || is_one_of(value, may_be, sizeof may_be / sizeof may_be[0]), "a damaged line");
}

/* On the sheet's own statement nothing but the sheet can be at fault. */
static void import_sheet(struct bytes sheet)
{
    static const int may_be[] = {CARBON_FORM,     CARBON_NUMBER,       CARBON_TYPE,          CARBON_HECTARES,  CARBON_YEAR,
                                 CARBON_SUB_USED, CARBON_AREA_UNKNOWN, CARBON_PLANTED_AFTER, CARBON_SHEET_FORM, CARBON_SHEET_ROW};
    int64_t value = guarded_import(text(opened), no_table, sheet, CARBON_STATEMENT_BYTES).value;
    expect(value > 0 || is_one_of(value, may_be, sizeof may_be / sizeof may_be[0]), "a damaged sheet");
}

/* Whatever the book, its export is a sheet: on no areas, only its first row is turned down. */
static void export_book(struct bytes book)
{
    uint8_t copy[512];
    struct answer exported = guarded_export(book, sizeof copy);
    expect(exported.value > 0, "a damaged book is exported");
    if (exported.value < 0)
        return;
    struct bytes sheet = {copy, (size_t)exported.value};
    memcpy(copy, exported.out, sheet.length);
    int64_t value = guarded_import(text("H,0\n"), no_table, sheet, CARBON_STATEMENT_BYTES).value;
    expect(value == (int64_t)strlen("H,0\n") || value == -CARBON_AREA_UNKNOWN, "what is exported is a sheet");
}

void test_damage(void)
{
    struct bytes statement = text(small_statement), line = text(small_line);
    struct bytes sheet = text(small_sheet), book = text(small_book);
    in_every_way(statement.at, statement.length, open_beside);
    in_every_way(statement.at, statement.length, file_on_statement);
    in_every_way(statement.at, statement.length, foot_of_statement);
    in_every_way(small_table, sizeof small_table, file_on_table);
    in_every_way(line.at, line.length, enter_line);
    in_every_way(sheet.at, sheet.length, import_sheet);
    in_every_way(book.at, book.length, export_book);
}
