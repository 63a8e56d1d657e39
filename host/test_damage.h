#ifndef TEST_DAMAGE_H
#define TEST_DAMAGE_H

#include <stdbool.h>

/* Counts and prints what does not hold. */
void expect(bool holds, const char *what);

/* Every byte of a small statement, table, line, sheet and book in every value; cut short at every place; longer by a byte. */
void test_damage(void);

#endif
