/* What is measured: a job holds the input of one call and room for its outputs, a family makes one for each seed. */
#ifndef FAMILIES_H
#define FAMILIES_H

#include "inputs.h"
#include "plain.h"

/* The input of one call, room for its outputs, and what came back. */
typedef struct {
    poly a, d, b, c;
    uint8_t block[APFELRUDER_MAX_BLOCK_BYTES];
    size_t block_bytes;
    uint64_t words[LONGEST + 64], lengths[64], work[4 * LONGEST];
    uint8_t bytes[APFELRUDER_MAX_BLOCK_BYTES];
    size_t result;
    uint8_t text[APFELRUDER_MAX_TEXT_BYTES], written[APFELRUDER_MAX_TEXT_BYTES + 1];
    size_t text_bytes;
    uint64_t given[LONGEST + 64], given_lengths[64];
    size_t given_words, given_parts, right; /* right is the answer that an audit must give */
} job;

/* A family: an input for each seed. */
typedef struct {
    const char *name;
    void (*make)(job *j, int size);
    int size, instances;
} family;

/* An input whose size grows from 64 to 1,024 terms; those that are drawn are run by the peers too. */
typedef struct {
    const char *name;
    void (*make)(job *j, int size);
    int is_split, is_drawn;
} growing;

extern const family split_families[];
extern const int split_families_count;
extern const family split_second_families[];
extern const int split_second_families_count;
/* Boards of a deployment, of any size from 16 terms on; instances is how many of them differ. */
extern const family deploy_families[];
extern const int deploy_families_count;
extern const family multiply_families[];
extern const int multiply_families_count;
extern const family same_families[];
extern const int same_families_count;
extern const family same_second_families[];
extern const int same_second_families_count;
extern const family block_families[];
extern const int block_families_count;
extern const family text_families[];
extern const int text_families_count;
extern const growing growing_inputs[];
extern const int growing_inputs_count;

/* The parts of the list in j->a, as an audit is given them; one term of one part is lost unless j->right is 1. */
void give_parts(job *j);

#define LIST(p) (p).terms, (p).t

#endif
