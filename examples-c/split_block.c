/* Reads a block and prints its parts, one a line: what the program `split` does, from C. On x86-64:
 *
 *   scripts/static-archive
 *   cc -O2 -Iinclude examples-c/split_block.c target/staticlib/libapfelruder.a -o target/split_block
 *   printf '\020\140\004\052\340' | target/split_block         (also: target/split_block FILE; - is standard input)
 *
 * prints
 *   parts 2
 *   x0+x1
 *   1+x2
 *
 * Status: 0 accepted (or --help), 1 refused, 2 trouble, with a line on standard error: input that cannot be read, output that
 * cannot be written, bad usage. With a terminal as standard input it waits for what is typed, up to the end (Ctrl-D). If the
 * reader of its output has gone it is ended by the signal SIGPIPE, like any C program that does not ask for another ending.
 *
 * On another machine (an Arm one) link the same proved module compiled for that machine:
 *
 *   scripts/native-archive
 *   cc -O2 -Iinclude examples-c/split_block.c target/native/libapfelruder.a -o target/split_block
 */
#include "apfelruder.h"

#include <stdio.h>
#include <string.h>

/* One byte more than the longest block, so that a longer input is seen to be too long. */
enum { INPUT_BYTES = APFELRUDER_MAX_BLOCK_BYTES + 1 };

enum { ACCEPTED = 0, REFUSED = 1, TROUBLE = 2 };

static void print_term(uint64_t term) {
    const char *between = "";
    if (term == 0) printf("1");
    for (int i = 0; i < APFELRUDER_MAX_VARS; i++)
        if (term >> i & 1) {
            printf("%sx%d", between, i);
            between = "*";
        }
}

static void print_part(const uint64_t *part, uint64_t length) {
    for (uint64_t i = 0; i < length; i++) {
        if (i > 0) printf("+");
        print_term(part[i]);
    }
    printf("\n");
}

static int refused(apfelruder_answer why) {
    printf("refused %llu %llu %llu\n", (unsigned long long)why.code, (unsigned long long)why.operand,
           (unsigned long long)why.place);
    return REFUSED;
}

static int split_block(const uint8_t *bytes, size_t length) {
    static uint64_t terms[APFELRUDER_MAX_TERMS];
    static uint64_t part_terms[APFELRUDER_PART_TERMS_WORDS(APFELRUDER_MAX_TERMS)];
    static uint64_t part_lengths[APFELRUDER_PART_LENGTHS_WORDS];
    static uint64_t work[APFELRUDER_WORK_WORDS(APFELRUDER_MAX_TERMS)];

    apfelruder_answer block = apfelruder_read(bytes, length, terms, APFELRUDER_MAX_TERMS);
    if (block.code != APFELRUDER_ACCEPTED) return refused(block);
    apfelruder_answer parts =
        apfelruder_split(terms, block.count, part_terms, sizeof part_terms / sizeof *part_terms, part_lengths,
                         sizeof part_lengths / sizeof *part_lengths, work, sizeof work / sizeof *work);
    if (parts.code != APFELRUDER_ACCEPTED) return refused(parts);
    printf("parts %llu\n", (unsigned long long)parts.count);
    const uint64_t *part = part_terms;
    for (uint64_t i = 0; i < parts.count; i++) {
        print_part(part, part_lengths[i]);
        part += part_lengths[i];
    }
    return ACCEPTED;
}

static int trouble(const char *with) {
    perror(with);
    return TROUBLE;
}

static void usage(FILE *to) {
    fprintf(to, "usage: split_block [FILE]     prints the parts of the block in FILE, or in standard input (also: -)\n");
}

/* What printf could not write may show only now. */
static int delivered(int status) {
    return ferror(stdout) || fclose(stdout) != 0 ? trouble("standard output") : status;
}

int main(int argc, char **argv) {
    static uint8_t bytes[INPUT_BYTES];
    if (argc > 2) {
        usage(stderr);
        return TROUBLE;
    }
    if (argc == 2 && strcmp(argv[1], "--help") == 0) {
        usage(stdout);
        return delivered(ACCEPTED);
    }
    int named = argc == 2 && strcmp(argv[1], "-") != 0;
    const char *name = named ? argv[1] : "standard input";
    FILE *input = named ? fopen(name, "rb") : stdin;
    if (!input) return trouble(name);
    size_t length = fread(bytes, 1, sizeof bytes, input);
    /* a folder opens like a file and fails here; without this it would pass for an empty block */
    if (ferror(input)) return trouble(name);
    return delivered(split_block(bytes, length));
}
