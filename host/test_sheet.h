#ifndef TEST_SHEET_H
#define TEST_SHEET_H

/* Sheets onto a statement and out of a book: what is written, every refusal, and the room of the output. */
void test_sheets(void);

#endif
