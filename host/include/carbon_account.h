/* The carbon accounts of forest land: the four calls of the proved engine (libengine.a, x86-64 Linux).
 * carbon_account_line takes a line of the book, and carbon_foot gives the foot of the listing; carbon_import_sheet takes
 * a sheet of sub-areas, and carbon_export_sheet makes one of a book.
 *
 * A recorder keeps two things for an owner, as bytes:
 *   - the statement: the whole holding as lines of text. The holding without areas is "H,0\n", and not no bytes;
 *   - the table: the participant's look-up table. No table is no bytes, and then the default tables serve.
 * It hands both in with a line of the book, and keeps what comes back in the place of the one that the line changed.
 *
 * The lines, each with byte 10 at its end or without it:
 *   T,kind,type,cells                     the table grows by a column (before any area is opened)
 *   A,area,opening                        an area opens
 *   S,area,sub,hectares,type,planted      a sub-area is added
 *   C,area,sub,year                       its trees are cleared
 *   P,area,sub,type,year                  it is planted
 *   R,area,last                           a return is filed, to the end of the year `last`
 *   W,area                                the area is withdrawn
 *
 * A sheet is a map office's schedule of sub-areas as comma-separated values (RFC 4180), of any length. Its rows end with
 * CR LF, the last with it or without; a field between quotes may hold commas, CR and LF, and a quote as two. Every other
 * byte, a blank too, is part of its field. The first row is the heading, these names just so, quoted or not:
 *   area,sub,hectares,type,planted
 * and each further row has those five fields of an S line.
 */
#ifndef CARBON_ACCOUNT_H
#define CARBON_ACCOUNT_H

#include <stddef.h>
#include <stdint.h>

#ifdef __cplusplus
extern "C" {
#endif

/* Room for any statement, table, line with its end, and for all that a call writes: it is proved that none is longer.
 * A holding has CARBON_MOST_AREAS areas at most, and each of them CARBON_MOST_SUBS sub-areas.
 * carbon_account_line writes 32916 bytes at most, and into CARBON_OUT_BYTES it writes without measuring first.
 * carbon_foot writes CARBON_FOOT_BYTES at most: "F," and three numbers of 13 digits, each with the byte that ends it.
 * carbon_import_sheet writes a statement. A book has CARBON_BOOK_BYTES at most, and carbon_export_sheet writes
 * CARBON_EXPORT_BYTES at most: the heading, and less than three bytes for each byte of the book and for its last end.
 * The deepest stack that was measured is 10728 bytes of a line or a foot, 24232 of an import and 23272 of an export; it
 * does not grow with the areas or their sub-areas. */
enum {
    CARBON_MOST_AREAS = 16,
    CARBON_MOST_SUBS = 48,
    CARBON_STATEMENT_BYTES = 32853,
    CARBON_TABLE_BYTES = 2040,
    CARBON_LINE_BYTES = 1025,
    CARBON_OUT_BYTES = 43024,
    CARBON_FOOT_BYTES = 44,
    CARBON_BOOK_BYTES = 65536,
    CARBON_EXPORT_BYTES = 196653
};

/* Why a call refuses. 7, 9 and 10 are about tree lists and parcels, and no answer of these calls. 41 and 42 are a sheet's
 * alone. */
enum carbon_refusal {
    CARBON_FORM = 1,              /* wrong letter, T kind, field count or form; byte 10 before the line's end; over 1024 bytes */
    CARBON_NUMBER = 2,            /* area not 1 to 999, or sub-area not 1 to 99 */
    CARBON_TYPE = 3,              /* not a listed forest type, or bare land planted */
    CARBON_HECTARES = 4,          /* not 1 to 10000 hectares */
    CARBON_YEAR = 5,              /* year out of range; bare land with a year, or trees without one */
    CARBON_TABLE = 6,             /* T: over 101 cells, a cell over 3000, or a column out of order; or the table handed in is none */
    CARBON_ROOM = 8,              /* the output is shorter than what is to be written */
    CARBON_STATEMENT = 11,        /* the bytes handed in are no statement */
    CARBON_AREA_USED = 21,        /* A: the area's number is already used */
    CARBON_AREA_UNKNOWN = 22,     /* there is no such area */
    CARBON_AREA_WITHDRAWN = 23,   /* the area is withdrawn */
    CARBON_AREAS_FULL = 24,       /* A: CARBON_MOST_AREAS areas stand */
    CARBON_SUB_USED = 25,         /* S: the sub-area's number is already used */
    CARBON_SUBS_FULL = 26,        /* S: CARBON_MOST_SUBS sub-areas stand */
    CARBON_AREA_HAS_FILED = 27,   /* S: the area has filed a return */
    CARBON_SUB_UNKNOWN = 28,      /* C, P: there is no such sub-area */
    CARBON_CLEARING_BARE = 29,    /* C: the land is bare */
    CARBON_PLANTING_UNDER = 30,   /* P: trees stand there */
    CARBON_YEAR_TOO_EARLY = 31,   /* C, P, R: before the area's open year, or before its latest clearing or planting */
    CARBON_PLANTED_AFTER = 32,    /* S: planted after the area opened */
    CARBON_TABLE_AFTER_AREA = 33, /* T: an area stands */
    CARBON_SHEET_FORM = 41,       /* a sheet's quoting or a row's end is broken */
    CARBON_SHEET_ROW = 42         /* a sheet's row has not five fields, or its first row is not the heading */
};

/* Takes one line.
 *
 * statement, table, line: what is handed in. They are only read, and may share bytes.
 * out: where the result is written, out_length bytes long. CARBON_OUT_BYTES are always enough.
 *
 * Where the line is taken, the answer is the count of bytes written from the start of `out`; it is greater than 0:
 *   A, S, C, P   the new statement
 *   R            the new statement, then the line R,area,first,last,change,received,due,balance and byte 10
 *   W            the new statement, then the line W,area,due and byte 10
 *   T            the longer table alone: two bytes a number, low byte first; the statement stays as it is
 * A statement's lines start with H, A or S, so that a line with R or W at the end of `out` is the report. Tonnes and
 * units are whole; `change` has a minus sign where the stock fell. Bytes of `out` past the count are untouched.
 *
 * Where the line is refused, the answer is the refusal's number with a minus sign, and nothing is written. Of all that
 * applies to the line, the table, the statement and the state the smallest number is given; 8 only where no other
 * applies. So a bad table or statement refuses every line.
 *
 * The bytes may have any content: nothing is asked of it. The caller sees to this alone:
 *   - every pointer is valid for its length, and is not NULL even where the length is 0 (any object's address will do);
 *   - `out` overlaps none of the other three;
 *   - nobody writes to any of the four during the call.
 * The call keeps nothing between calls, and always returns.
 */
int64_t carbon_account_line(const uint8_t *statement, size_t statement_length,
                            const uint8_t *table, size_t table_length,
                            const uint8_t *line, size_t line_length,
                            uint8_t *out, size_t out_length);

/* Gives the foot of a statement: what `book` prints before its last line for a book that leads to the statement.
 *
 * statement: what is handed in. It is only read.
 * out: where the foot is written, out_length bytes long. CARBON_FOOT_BYTES are always enough.
 *
 * The foot is the line F,received,surrendered,balance and byte 10: the units received and surrendered and the balance
 * over all areas, withdrawn ones too. Received less surrendered is the balance. The foot of "H,0\n" is "F,0,0,0\n".
 *
 * The answer is the count of bytes written from the start of `out`; it is greater than 0. Bytes of `out` past the count
 * are untouched. Where the bytes handed in are no statement it is -CARBON_STATEMENT; else, where `out` is shorter than
 * the line, it is -CARBON_ROOM. Then nothing is written.
 *
 * What the caller sees to is what it sees to above: both pointers are valid for their lengths and not NULL, `out` does
 * not overlap the statement, and nobody writes to either during the call. It keeps nothing between calls, and always
 * returns.
 */
int64_t carbon_foot(const uint8_t *statement, size_t statement_length, uint8_t *out, size_t out_length);

/* Takes a sheet of sub-areas, all its rows or none.
 *
 * statement, table, sheet: what is handed in. They are only read, and may share bytes. A sheet may have any length.
 * out: where the result is written, out_length bytes long. CARBON_STATEMENT_BYTES are always enough.
 *
 * Each row is taken as the line "S,", its five fields joined by commas, and byte 10, in the order of the rows and on the
 * holding that the earlier rows left. So a comma or byte 10 in a field, and a line that comes to over 1024 bytes, are 1.
 *
 * Where every row is taken, the answer is the count of bytes of the new statement, written from the start of `out`. The
 * heading alone is taken, and gives the statement handed in. Bytes of `out` past the count are untouched.
 *
 * Where the sheet is refused, the answer is the refusal's number with a minus sign, and nothing is written: the holding
 * stays as it was. The first of these that applies is given, and not the smallest number:
 *   6, the table handed in is none; 11, the bytes handed in are no statement; 41 anywhere in the sheet; 42 anywhere in
 *   the sheet; of the first row that S turns down, the number that S gives (1 to 5, 22, 23, 25, 26, 27, 32); 8.
 *
 * What the caller sees to is what it sees to in carbon_account_line, with the sheet in the line's place. It keeps nothing
 * between calls, and always returns.
 */
int64_t carbon_import_sheet(const uint8_t *statement, size_t statement_length,
                            const uint8_t *table, size_t table_length,
                            const uint8_t *sheet, size_t sheet_length,
                            uint8_t *out, size_t out_length);

/* Makes a sheet of a book's accepted S lines.
 *
 * book: the lines of a book, each ended by byte 10, the last with it or without. It is only read.
 * out: where the sheet is written, out_length bytes long. CARBON_EXPORT_BYTES are always enough.
 *
 * The book is taken from the empty holding without a table, as `book` takes it. The sheet is the heading, and a row for
 * each S line that is taken, in the book's order and with its fields as they were entered; those of areas withdrawn later
 * too. Each field stands between quotes, and each row ends with CR LF. Imported onto the book's accepted A lines alone,
 * under its table, the sheet gives those S lines back.
 *
 * The answer is the count of bytes written from the start of `out`; it is greater than 0. Bytes of `out` past the count
 * are untouched. Where the book has over CARBON_BOOK_BYTES bytes it is -CARBON_FORM; else, where `out` is shorter than
 * the sheet, it is -CARBON_ROOM. Then nothing is written.
 *
 * What the caller sees to is what it sees to in carbon_foot, with the book in the statement's place. It keeps nothing
 * between calls, and always returns.
 */
int64_t carbon_export_sheet(const uint8_t *book, size_t book_length, uint8_t *out, size_t out_length);

#ifdef __cplusplus
}
#endif

#endif
