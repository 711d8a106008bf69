/* What the parts of the program `answers` share. crates/replay/README.md has the list's form. */
#ifndef ANSWERS_H
#define ANSWERS_H

#include <stddef.h>

#include "laxombiit.h"

/* The most words of an entry, and the most places of a list that a call is lent. */
enum { WORDS = 1024, PLACES = 128 };

/* Words one behind the other. */
typedef struct row {
    uint32_t words[WORDS];
    size_t count;
} row;

void put(row *r, uint32_t word); /* a word that finds no room is left out */
void put_float(row *r, float x);
void put_value(row *r, uint32_t number, float x);
void put_flag(row *r, uint32_t number, uint32_t flag);
void put_easing(row *r, const lax_easing *e);
void put_tween(row *r, const lax_tween *t);
void put_track(row *r, const lax_track *t);

/* Behind its number a refused call that was lent a record has a 1: the record is as it came. */
void put_kept(row *r, const void *left, const void *came, size_t size);

float float_at(const uint32_t *words, size_t at);
lax_easing easing_at(const uint32_t *words, size_t at);
lax_tween tween_in(const uint32_t *words);
lax_track track_in(const uint32_t *words);

size_t length_at(const uint32_t *words, size_t at); /* at most PLACES */
void floats_at(const uint32_t *words, size_t at, float *list);

/* 1e30, which no call writes, into each of PLACES places of 32 bits. */
void mark(void *list);

/* What the C interface answers to a call of the list, whose words are the arguments'. */
void answer_easing(uint32_t call, const uint32_t *words, row *answer);
void answer_tween(uint32_t call, const lax_tween *given, const uint32_t *words, row *answer);
void answer_track(uint32_t call, const lax_track *given, const uint32_t *words, row *answer);

#endif
