/* The proved recorder for C and C++. Link target/staticlib/libtautlichen.a, which `.ci/staticlib tautlichen_c tautlichen` writes.
 *
 * Each call is a function of a book, the machine's whole history, whose bytes docs/BOOK.md lays out. It answers 0, or the number
 * of its refusal: then nothing is written. Bytes of a lent buffer behind what is written stay as they were.
 *
 * No pointer is null, not even one whose length is 0, each points to as many bytes as its length says, and what is lent to be
 * written overlaps with nothing else that is lent. The library keeps nothing between calls, so calls may run side by side. */
#ifndef TAUTLICHEN_H
#define TAUTLICHEN_H

#include <stddef.h>
#include <stdint.h>

/* Room that is always enough. */
#define TAUTLICHEN_ANSWERS 4096 /* a number for each step of a book */
#define TAUTLICHEN_TEXT 1024    /* a listing */
#define TAUTLICHEN_KEYS 16      /* the keys of a walk */
#define TAUTLICHEN_PROVN 6247   /* a PROV-N document */

#ifdef __cplusplus
extern "C" {
#endif

/* Runs a book: the number of each step goes into `answers`, at the step's own index.
 *
 * 10 the book is malformed; 11 its setup is illegal; 12 it has more steps than `answers` has bytes. */
uint8_t tautlichen_run(const uint8_t *book, size_t book_len, uint8_t *answers, size_t answers_len);

/* The same, with the listing in `text` and its length in bytes in `*len`. The text ends in a line feed and in no zero byte.
 *
 * 10, 11, 12, then 14: the listing is longer than `text`. */
uint8_t tautlichen_list(const uint8_t *book, size_t book_len, uint8_t *answers, size_t answers_len, uint8_t *text,
                        size_t text_len, uint16_t *len);

/* Drains the machine after a book: the count of the drain's steps in `*count`, and the listing after it in `text`, with the
 * book's steps in its first line, and its length in `*len`.
 *
 * 10, 11, then 5: a store is down, then 14: the listing is longer than `text`. */
uint8_t tautlichen_drain(const uint8_t *book, size_t book_len, uint8_t *text, size_t text_len, uint16_t *len,
                         uint16_t *count);

/* Walks back from a key in the machine after a book: the keys met go into `keys`, each once, in the order first met, and how
 * many they are into `*count`; how many store entries were looked up for them into `*lookups`, 2 * count - 1.
 *
 * 10, 11, then 2: no such key, 13: the walk meets an interaction that isn't closed, then 14: there are more keys than `keys`
 * has bytes. */
uint8_t tautlichen_walk(const uint8_t *book, size_t book_len, uint8_t key, uint8_t *keys, size_t keys_len, uint8_t *count,
                        uint8_t *lookups);

/* Writes the walk of a key in the machine after a book as a PROV-N document into `text`, and its length in bytes into `*len`.
 * The text ends in a line feed and in no zero byte.
 *
 * 10, 11, then 2 and 13 as the walk, then 14: the document is longer than `text`. */
uint8_t tautlichen_lineage(const uint8_t *book, size_t book_len, uint8_t key, uint8_t *text, size_t text_len, uint16_t *len);

/* Checks the pair of a forecast in the machine after a book, by rule 1 (the old registry's) or 2 (the new one's): 1 into
 * `*passes` where weights and scaler belong together, else 0.
 *
 * 19 another rule, then 10, 11, then 2: no such key, 13: the walk meets an interaction that isn't closed, 20: the key's word is
 * no forecast. */
uint8_t tautlichen_pair(const uint8_t *book, size_t book_len, uint8_t rule, uint8_t key, uint8_t *passes);

#ifdef __cplusplus
}
#endif

#endif
