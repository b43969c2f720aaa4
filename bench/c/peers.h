/* Other methods, to race against. Each gives the number of parts, terms or 0/1, so that the results can be compared.
 * docs/RULES.md names the papers. */
#ifndef PEERS_H
#define PEERS_H

#include "inputs.h"

/* Algorithm 3 (FDSZ) of the first paper: y is apart from x if AD and BC agree at two random points of GF(2^63). */
size_t algorithm3_split(const poly *f);

#ifdef HAVE_SAME_PRODUCTS
/* The papers' rule asked pair by pair, with our same products. */
size_t papers_rule_split(const poly *f);
#endif

/* Merging the rows of a product two by two, and all unions sorted by qsort. */
size_t merge_multiply(const poly *a, const poly *b, uint64_t *out);
size_t sorting_multiply(const poly *a, const poly *b, uint64_t *out);

/* Both sides multiplied out, sorted, and compared. */
int direct_same(const poly *a, const poly *d, const poly *b, const poly *c);
/* The recursion of the second paper with its fixed choice of multiplier, corrected as docs/RULES.md says; gives up,
 * with -1, after so many questions. */
int papers_same(const poly *a, const poly *d, const poly *b, const poly *c, unsigned long most_questions);

/* A block bit by bit. */
size_t bitwise_read(const uint8_t *bytes, size_t len, uint64_t *out);
size_t bitwise_write(const poly *f, uint8_t *out);

/* A text by the C library: strtoul and qsort, and snprintf, whose last byte of room is its own. */
size_t library_read_text(const uint8_t *text, uint64_t *out);
size_t library_write_text(const poly *f, uint8_t *out, size_t room);

#ifdef HAVE_FLINT
size_t flint_split(const poly *f);
size_t flint_multiply(const poly *a, const poly *b);
int flint_same(const poly *a, const poly *d, const poly *b, const poly *c);
#endif

#endif
