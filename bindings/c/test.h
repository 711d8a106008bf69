/* What the parts of the C test share. */
#ifndef TEST_H
#define TEST_H

#include <math.h>
#include <string.h>

#include "calls.h"
#include "laxombiit.h"

/* Counts what holds, and prints what does not. */
void check(int holds, const char *file, int line, const char *what);

#define CHECK(x) check((x), __FILE__, __LINE__, #x)

lax_easing kind(uint32_t k);
lax_easing steps(uint32_t n);
lax_easing bezier(float x1, float y1, float x2, float y2);
int value_is(value_answer v, float x);
int refused(value_answer v, uint32_t number);

/* Accepted, after such a search. */
int found_is(found_answer f, float x, uint32_t settled, uint32_t xs, uint32_t derivatives);
int plain_is(found_answer f, float x); /* after none */
int not_found(found_answer f, uint32_t number);

void test_easings(void);
void test_tweens(void);
void test_tracks(void);
void test_carry(void);
void test_logs(void);
void test_replays(void);
void test_refusals(void);
void test_nans(void);

#endif
