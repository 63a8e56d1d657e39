/* The calls on guarded memory: the inputs stand in pages that cannot be written, and every buffer stands flush against a
 * page that cannot be touched. Each call is made twice, flush at the end and flush at the start, and must give the same. */
#ifndef GUARDED_H
#define GUARDED_H

#include <stddef.h>
#include <stdint.h>

struct bytes {
    const uint8_t *at;
    size_t length;
};

/* What a call answered, and what stands in the output until the next call. */
struct answer {
    int64_t value;
    const uint8_t *out;
};

struct bytes text(const char *characters);

/* Each ends the test program where the call touched bytes that are not its own: past the result, or any on a refusal. */
struct answer guarded_call(struct bytes statement, struct bytes table, struct bytes line, size_t room);
struct answer guarded_foot(struct bytes statement, size_t room);
struct answer guarded_import(struct bytes statement, struct bytes table, struct bytes sheet, size_t room);
struct answer guarded_export(struct bytes book, size_t room);

#endif
