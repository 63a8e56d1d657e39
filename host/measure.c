/* How much one call costs. A HOLDING is empty, small (1x4), or so many areas of so many sub-areas each: 4x16.
 *   measure HOLDING LINE TIMES            makes the holding, then makes the call that many times; callgrind counts from outside
 *   measure HOLDING foot TIMES            the same with the call of the foot
 *   measure HOLDING import:HOLDING TIMES  the same with a sheet that has the sub-areas of the second holding as its rows
 *   measure HOLDING export:HOLDING TIMES  the same with a book that has the lines of the second; the first plays no part
 *   measure length HOLDING                prints the length of its statement
 *   measure stack CALL AREASxSUBS         prints the deepest stack of calls on such a holding; CALL is line, which has the
 *                                         foot among its calls, import or export
 */
#define _GNU_SOURCE
#include <pthread.h>
#include <stdbool.h>
#include <stdint.h>
#include <stdio.h>
#include <stdlib.h>
#include <string.h>

#include "carbon_account.h"

enum { STACK_BYTES = 1 << 20, PAINT = 0xA5 };

struct counts {
    int areas;
    int subs;
};

static uint8_t statement[CARBON_OUT_BYTES] = "H,0\n";
static size_t statement_len = 4;
/* The line, the sheet or the book. */
static char given[CARBON_BOOK_BYTES];
static size_t given_len;
static uint8_t out[CARBON_EXPORT_BYTES];

/* A call on what is held and given, into so much room. */
typedef int64_t (*call_into)(size_t room);

static int usage(void)
{
    fprintf(stderr, "measure HOLDING LINE|foot|import:HOLDING|export:HOLDING TIMES, measure length HOLDING, "
                    "or measure stack line|import|export HOLDING\n");
    return 2;
}

static int64_t line_into(size_t room)
{
    return carbon_account_line(statement, statement_len, statement, 0, (const uint8_t *)given, given_len, out, room);
}

static int64_t foot_into(size_t room)
{
    return carbon_foot(statement, statement_len, out, room);
}

static int64_t import_into(size_t room)
{
    return carbon_import_sheet(statement, statement_len, statement, 0, (const uint8_t *)given, given_len, out, room);
}

static int64_t export_into(size_t room)
{
    return carbon_export_sheet((const uint8_t *)given, given_len, out, room);
}

/* Where the room is less than CARBON_OUT_BYTES, the call of a line measures before it writes. */
static size_t full_room(call_into call)
{
    return call == export_into ? CARBON_EXPORT_BYTES : CARBON_OUT_BYTES;
}

static void give(const char *text)
{
    given_len += (size_t)snprintf(given + given_len, sizeof given - given_len, "%s", text);
}

static void give_line(const char *line)
{
    given_len = 0;
    give(line);
}

static void want(const char *what, bool wanted, int64_t answer)
{
    if (!wanted) {
        fprintf(stderr, "%s: %lld\n", what, (long long)answer);
        exit(1);
    }
}

/* The statement is the output up to the line that the call prints, which starts with R or W. */
static size_t statement_part(size_t written)
{
    size_t end = written - 1;
    while (end > 0 && out[end - 1] != '\n')
        end--;
    return out[end] == 'R' || out[end] == 'W' ? end : written;
}

static void keep(const char *what, int64_t written)
{
    want(what, written > 0, written);
    statement_len = statement_part((size_t)written);
    memcpy(statement, out, statement_len);
}

static void take(const char *line)
{
    give_line(line);
    keep(line, line_into(CARBON_OUT_BYTES));
}

/* It is refused where a byte of room is missing, and taken where none is. */
static void call_measured(call_into call, const char *what)
{
    int64_t written = call(full_room(call));
    want(what, written > 0, written);
    int64_t refused = call((size_t)written - 1);
    want(what, refused == -CARBON_ROOM, refused);
    int64_t taken = call((size_t)written);
    want(what, taken == written, taken);
}

static void take_measured(const char *line)
{
    give_line(line);
    call_measured(line_into, line);
    take(line);
}

/* The lines of a holding, each entered. */
static void make_holding(struct counts of, void (*enter)(const char *line))
{
    char line[64];
    for (int area = 1; area <= of.areas; area++) {
        snprintf(line, sizeof line, "A,%d,2008\n", area);
        enter(line);
        for (int sub = 1; sub <= of.subs; sub++) {
            snprintf(line, sizeof line, "S,%d,%d,1234.5678,P1,1990\n", area, sub);
            enter(line);
        }
    }
}

/* Of an S line, its row. */
static void give_row(const char *line)
{
    if (line[0] != 'S')
        return;
    give(line + strlen("S,"));
    given_len--;
    give("\r\n");
}

static void give_sheet(struct counts of)
{
    give_line("area,sub,hectares,type,planted\r\n");
    make_holding(of, give_row);
}

static void give_book(struct counts of)
{
    give_line("");
    make_holding(of, give);
}

static bool counts_of(const char *name, struct counts *of)
{
    char behind;
    *of = (struct counts){0, 0};
    if (strcmp(name, "small") == 0)
        *of = (struct counts){1, 4};
    else if (strcmp(name, "empty") != 0)
        return sscanf(name, "%dx%d%c", &of->areas, &of->subs, &behind) == 2;
    return true;
}

static void open_areas(int areas)
{
    make_holding((struct counts){areas, 0}, take);
}

/* The areas come by lines, and then their sub-areas by one sheet. */
static bool make_named(const char *name)
{
    struct counts of;
    if (!counts_of(name, &of))
        return false;
    open_areas(of.areas);
    give_sheet(of);
    keep("sheet", import_into(CARBON_OUT_BYTES));
    return true;
}

/* T on the empty holding, A and S to fill it, the foot, and each other letter on its last area. */
static void *deepest_lines(void *counts)
{
    static const char *const lines[] = {"C,%d,%d,2012", "P,%d,%d,D,2012", "R,%d,2014", "W,%d"};
    struct counts of = *(const struct counts *)counts;
    give_line("T,G,P,1");
    call_measured(line_into, "T");
    make_holding(of, take_measured);
    call_measured(foot_into, "foot");
    for (size_t i = 0; i < sizeof lines / sizeof *lines; i++) {
        char line[64];
        snprintf(line, sizeof line, lines[i], of.areas, of.subs);
        take_measured(line);
    }
    return NULL;
}

static void *measured_import(void *unused)
{
    call_measured(import_into, "import");
    return unused;
}

static void *measured_export(void *unused)
{
    call_measured(export_into, "export");
    return unused;
}

static void *idle(void *unused)
{
    return unused;
}

/* How much of its stack a thread touches. */
static size_t touched(void *(*run)(void *), void *argument)
{
    uint8_t *stack = aligned_alloc(4096, STACK_BYTES);
    memset(stack, PAINT, STACK_BYTES);
    pthread_attr_t attr;
    pthread_t thread;
    pthread_attr_init(&attr);
    pthread_attr_setstack(&attr, stack, STACK_BYTES);
    if (pthread_create(&thread, &attr, run, argument) != 0)
        exit(1);
    pthread_join(thread, NULL);
    size_t untouched = 0;
    while (untouched < STACK_BYTES && stack[untouched] == PAINT)
        untouched++;
    free(stack);
    return STACK_BYTES - untouched;
}

/* What the calls take, less what a thread takes that makes none. */
static int measure_stack(const char *call, const char *holding)
{
    struct counts of;
    void *(*run)(void *) = deepest_lines;
    if (!counts_of(holding, &of))
        return usage();
    if (strcmp(call, "import") == 0) {
        open_areas(of.areas);
        give_sheet(of);
        run = measured_import;
    } else if (strcmp(call, "export") == 0) {
        give_book(of);
        run = measured_export;
    } else if (strcmp(call, "line") != 0) {
        return usage();
    }
    printf("%zu\n", touched(run, &of) - touched(idle, NULL));
    return 0;
}

static int measure_length(const char *holding)
{
    if (!make_named(holding))
        return usage();
    printf("%zu\n", statement_len);
    return 0;
}

/* The call that is asked, with what it is given; none where the words are not known. */
static call_into asked(const char *what)
{
    struct counts of;
    if (strcmp(what, "foot") == 0)
        return foot_into;
    if (strncmp(what, "import:", 7) != 0 && strncmp(what, "export:", 7) != 0) {
        give_line(what);
        return line_into;
    }
    if (!counts_of(what + 7, &of))
        return NULL;
    bool import = what[0] == 'i';
    (import ? give_sheet : give_book)(of);
    return import ? import_into : export_into;
}

static int make_calls(const char *holding, const char *what, int times)
{
    if (!make_named(holding))
        return usage();
    call_into call = asked(what);
    if (call == NULL)
        return usage();
    while (times-- > 0) {
        int64_t answer = call(full_room(call));
        want(what, answer > 0, answer);
    }
    return 0;
}

int main(int argc, char **argv)
{
    if (argc == 4 && strcmp(argv[1], "stack") == 0)
        return measure_stack(argv[2], argv[3]);
    if (argc == 3 && strcmp(argv[1], "length") == 0)
        return measure_length(argv[2]);
    return argc == 4 ? make_calls(argv[1], argv[2], atoi(argv[3])) : usage();
}
