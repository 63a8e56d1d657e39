#ifndef TEST_SUB_AREAS_H
#define TEST_SUB_AREAS_H

/* Areas of many sub-areas: taken by every call up to CARBON_MOST_SUBS and no further; and the largest statement. */
void test_sub_areas(void);

#endif
