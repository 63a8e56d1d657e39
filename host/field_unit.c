/* A recorder's program: keeps an owner's statement and table in two files, and takes the lines of standard input.
 *
 *   field_unit STATEMENT TABLE < lines
 *   field_unit --sheet FILE STATEMENT TABLE
 *   field_unit --foot STATEMENT
 *
 * A statement or table that is not there yet is the empty holding, or no table. For each line it prints the line's number
 * and what came of it, once that is kept: what was answered outlasts a loss of power. With --sheet it takes the
 * sub-areas of a sheet of comma-separated values, all of them or none, and answers once. With --foot it prints the foot
 * of the statement alone: units received, units surrendered and balance over all areas. Ends with 0 where every line or
 * the sheet was taken or the foot was printed, 1 where a line, the sheet or the statement was refused, 2 where a file
 * could not be read or kept, or no answer given.
 */
#define _POSIX_C_SOURCE 200809L
#include "carbon_account.h"

#include <errno.h>
#include <fcntl.h>
#include <inttypes.h>
#include <libgen.h>
#include <stdio.h>
#include <stdlib.h>
#include <string.h>
#include <unistd.h>

static const char empty_holding[] = "H,0\n";

struct kept {
    const char *path;
    size_t length;
    uint8_t bytes[CARBON_OUT_BYTES];
};

static void fail(const char *path, const char *what)
{
    fprintf(stderr, "field_unit: %s: %s\n", path, what);
    exit(2);
}

static void load(struct kept *kept, const char *path, const char *if_new)
{
    kept->path = path;
    kept->length = strlen(if_new);
    memcpy(kept->bytes, if_new, kept->length);
    FILE *file = fopen(path, "rb");
    if (file == NULL) {
        if (errno != ENOENT)
            fail(path, strerror(errno));
        return;
    }
    kept->length = fread(kept->bytes, 1, sizeof kept->bytes, file);
    if (ferror(file))
        fail(path, "cannot be read");
    if (kept->length == sizeof kept->bytes)
        fail(path, "is too long");
    fclose(file);
}

/* The new name is kept in the folder too: else the old file may be back after a loss of power. */
static void sync_folder(const char *folder)
{
    int opened = open(folder, O_RDONLY | O_DIRECTORY);
    if (opened < 0 || fsync(opened) != 0 || close(opened) != 0)
        fail(folder, strerror(errno));
}

/* The file is whole at any moment: the new bytes go beside it and then take its place. */
static void save(struct kept *kept, const uint8_t *bytes, size_t length)
{
    char beside[4096];
    int named = snprintf(beside, sizeof beside, "%s.new", kept->path);
    if (named < 0 || (size_t)named >= sizeof beside)
        fail(kept->path, "has too long a name");
    FILE *file = fopen(beside, "wb");
    if (file == NULL)
        fail(beside, strerror(errno));
    int written = fwrite(bytes, 1, length, file) == length && fflush(file) == 0 && fsync(fileno(file)) == 0;
    if (fclose(file) != 0 || !written || rename(beside, kept->path) != 0)
        fail(kept->path, "cannot be kept");
    sync_folder(dirname(beside));
    memcpy(kept->bytes, bytes, length);
    kept->length = length;
}

static const char *in_words(int64_t refusal)
{
    switch (refusal) {
    case CARBON_FORM: return "the line has no entry's form";
    case CARBON_NUMBER: return "areas are 1 to 999, sub-areas 1 to 99";
    case CARBON_TYPE: return "this is no forest type that the entry takes";
    case CARBON_HECTARES: return "hectares are 1 to 10000";
    case CARBON_YEAR: return "the year is out of range, or does not go with the type";
    case CARBON_TABLE: return "the table's columns, their order, lengths or cells are wrong";
    case CARBON_ROOM: return "the output has no room";
    case CARBON_STATEMENT: return "the statement file is damaged";
    case CARBON_AREA_USED: return "the area's number is already used";
    case CARBON_AREA_UNKNOWN: return "there is no such area";
    case CARBON_AREA_WITHDRAWN: return "the area is withdrawn";
    case CARBON_AREAS_FULL: return "sixteen areas stand";
    case CARBON_SUB_USED: return "the sub-area's number is already used";
    case CARBON_SUBS_FULL: return "forty-eight sub-areas stand";
    case CARBON_AREA_HAS_FILED: return "the area has filed a return and takes no more sub-areas";
    case CARBON_SUB_UNKNOWN: return "there is no such sub-area";
    case CARBON_CLEARING_BARE: return "there are no trees to clear";
    case CARBON_PLANTING_UNDER: return "trees stand there already";
    case CARBON_YEAR_TOO_EARLY: return "the year is filed already, or is before the latest clearing or planting";
    case CARBON_PLANTED_AFTER: return "the trees are planted after the area opened";
    case CARBON_TABLE_AFTER_AREA: return "the table is closed once an area stands";
    case CARBON_SHEET_FORM: return "the sheet's quotes or row ends are broken";
    case CARBON_SHEET_ROW: return "the sheet has another heading, or a row without five fields";
    default: return "an unknown refusal";
    }
}

/* Where the report of a return or a withdrawal starts: the last line of the output. Elsewhere, its end. */
static size_t report_start(char letter, const uint8_t *out, size_t length)
{
    if (letter != 'R' && letter != 'W')
        return length;
    size_t start = length - 1;
    while (start > 0 && out[start - 1] != '\n')
        start--;
    return start;
}

/* Whether the line was taken. */
static int take(struct kept *statement, struct kept *table, const char *line, size_t length, unsigned long number)
{
    uint8_t out[CARBON_OUT_BYTES];
    int64_t answer = carbon_account_line(statement->bytes, statement->length, table->bytes, table->length,
                                         (const uint8_t *)line, length, out, sizeof out);
    if (answer < 0) {
        printf("%lu: refused (%" PRId64 "): %s\n", number, -answer, in_words(-answer));
        return 0;
    }
    size_t written = (size_t)answer;
    size_t report = report_start(line[0], out, written);
    if (line[0] == 'T')
        save(table, out, written);
    else
        save(statement, out, report);
    if (report < written)
        printf("%lu: %.*s", number, (int)(written - report), (const char *)out + report);
    else
        printf("%lu: taken\n", number);
    return 1;
}

static void flush_answer(void)
{
    if (fflush(stdout) != 0)
        fail("standard output", strerror(errno));
}

/* Whether every line was taken. */
static int take_lines(const char *statement_path, const char *table_path)
{
    static struct kept statement, table;
    load(&statement, statement_path, empty_holding);
    load(&table, table_path, "");
    int all_taken = 1;
    char *line = NULL;
    size_t room = 0;
    ssize_t length;
    for (unsigned long number = 1; (length = getline(&line, &room, stdin)) > 0; number++) {
        all_taken &= take(&statement, &table, line, (size_t)length, number);
        flush_answer();
    }
    free(line);
    return all_taken;
}

struct sheet {
    uint8_t *bytes;
    size_t length;
};

static void read_on(struct sheet *sheet, FILE *file, const char *path)
{
    size_t room = 0;
    do {
        room = 2 * room + 65536;
        sheet->bytes = realloc(sheet->bytes, room);
        if (sheet->bytes == NULL)
            fail(path, "is too long");
        sheet->length += fread(sheet->bytes + sheet->length, 1, room - sheet->length, file);
    } while (sheet->length == room);
}

/* The whole file, whatever its length. */
static struct sheet read_sheet(const char *path)
{
    struct sheet sheet = {NULL, 0};
    FILE *file = fopen(path, "rb");
    if (file == NULL)
        fail(path, strerror(errno));
    read_on(&sheet, file, path);
    if (ferror(file))
        fail(path, "cannot be read");
    fclose(file);
    return sheet;
}

/* Whether the sheet was taken. */
static int take_sheet(const char *sheet_path, const char *statement_path, const char *table_path)
{
    static struct kept statement, table;
    load(&statement, statement_path, empty_holding);
    load(&table, table_path, "");
    struct sheet sheet = read_sheet(sheet_path);
    uint8_t out[CARBON_STATEMENT_BYTES];
    int64_t answer = carbon_import_sheet(statement.bytes, statement.length, table.bytes, table.length,
                                         sheet.bytes, sheet.length, out, sizeof out);
    free(sheet.bytes);
    if (answer < 0) {
        printf("%s: refused (%" PRId64 "): %s\n", sheet_path, -answer, in_words(-answer));
    } else {
        save(&statement, out, (size_t)answer);
        printf("%s: taken\n", sheet_path);
    }
    flush_answer();
    return answer > 0;
}

/* Whether the statement has a foot. */
static int print_foot(const char *statement_path)
{
    static struct kept statement;
    load(&statement, statement_path, empty_holding);
    uint8_t foot[CARBON_FOOT_BYTES];
    int64_t answer = carbon_foot(statement.bytes, statement.length, foot, sizeof foot);
    if (answer < 0) {
        fprintf(stderr, "field_unit: %s: refused (%" PRId64 "): %s\n", statement_path, -answer, in_words(-answer));
        return 0;
    }
    printf("%.*s", (int)answer, (const char *)foot);
    flush_answer();
    return 1;
}

static int usage(void)
{
    fprintf(stderr, "usage: field_unit STATEMENT TABLE < lines, field_unit --sheet FILE STATEMENT TABLE, "
                    "or field_unit --foot STATEMENT\n");
    return 2;
}

int main(int count, char **words)
{
    int taken;
    if (count == 5 && strcmp(words[1], "--sheet") == 0)
        taken = take_sheet(words[2], words[3], words[4]);
    else if (count == 3 && strcmp(words[1], "--foot") == 0)
        taken = print_foot(words[2]);
    else if (count == 3)
        taken = take_lines(words[1], words[2]);
    else
        return usage();
    return taken ? 0 : 1;
}
