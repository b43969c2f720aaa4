/* The archive behind two pipes: reads calls from standard input, makes them, writes what came back to standard output.
 * For a machine that cannot link the archive into the comparing program but can run it, as under an emulator.
 *
 * All numbers are words of 64 bits in the machine's order. A call: its number (0 split, 1 multiply, 2 same products,
 * 3 read, 4 write, 5 read text, 6 write text, 7 audit, 8 deploy); for each slice where it begins, in bytes, and its length; the
 * length in words of the memory that holds them all, and that memory. What comes back: the four numbers, and the memory as the
 * call left it. The comparing program lays the slices out, so it sees what was written between them. If 16 is added to the
 * number of a call, the bytes of stack that it took come first.
 * Compiled with -DNO_SPLIT, -DNO_MULTIPLY, .. it does without that call. */
#include "../../../include/apfelruder.h"

long read(int file, void *to, size_t bytes);
long write(int file, const void *from, size_t bytes);

enum { MOST_WORDS = 1 << 20 };

static uint64_t memory[MOST_WORDS];

/* For each call the size of the elements of its slices; 0: no such slice. */
enum { CALLS = 9, SLICES = 6, MEASURED = 16 };
static const unsigned char element[CALLS][SLICES] = {{8, 8, 8, 8}, {8, 8, 8}, {8, 8, 8, 8},       {1, 8},
                                                     {8, 1},       {1, 8},    {8, 1},             {8, 8, 8, 8, 8, 8},
                                                     {8, 8, 8, 8, 8, 8}};

static uint64_t lengths[SLICES], words;
static unsigned char *slices[SLICES];

static int take(void *to, size_t bytes) {
    for (size_t have = 0; have < bytes;) {
        long got = read(0, (char *)to + have, bytes - have);
        if (got <= 0) return 0;
        have += (size_t)got;
    }
    return 1;
}

static int give(const void *from, size_t bytes) {
    for (size_t sent = 0; sent < bytes;) {
        long done = write(1, (const char *)from + sent, bytes - sent);
        if (done <= 0) return 0;
        sent += (size_t)done;
    }
    return 1;
}

/* Takes the slices' places and the memory; 0 at the end of input, or if a slice lies outside or a word is not aligned. */
static int take_memory(uint64_t call) {
    uint64_t starts[SLICES];
    for (int i = 0; i < SLICES && element[call][i]; i++)
        if (!take(&starts[i], 8) || !take(&lengths[i], 8)) return 0;
    if (!take(&words, 8) || words > MOST_WORDS) return 0;
    for (int i = 0; i < SLICES && element[call][i]; i++) {
        if (starts[i] > 8 * words || lengths[i] > (8 * words - starts[i]) / element[call][i]) return 0;
        if (starts[i] % element[call][i]) return 0;
        slices[i] = (unsigned char *)memory + starts[i];
    }
    return take(memory, 8 * words);
}

#define WORDS(i) (uint64_t *)slices[i], lengths[i]
#define BYTES(i) slices[i], lengths[i]

static apfelruder_answer make(uint64_t call) {
    apfelruder_answer none = {UINT64_MAX, 0, 0, 0};
    switch (call) {
#ifndef NO_SPLIT
    case 0: return apfelruder_split(WORDS(0), WORDS(1), WORDS(2), WORDS(3));
#endif
#ifndef NO_MULTIPLY
    case 1: return apfelruder_multiply(WORDS(0), WORDS(1), WORDS(2));
#endif
#ifndef NO_SAME_PRODUCTS
    case 2: return apfelruder_same_products(WORDS(0), WORDS(1), WORDS(2), WORDS(3));
#endif
#ifndef NO_READ
    case 3: return apfelruder_read(BYTES(0), WORDS(1));
#endif
#ifndef NO_WRITE
    case 4: return apfelruder_write(WORDS(0), BYTES(1));
#endif
#ifndef NO_READ_TEXT
    case 5: return apfelruder_read_text(BYTES(0), WORDS(1));
#endif
#ifndef NO_WRITE_TEXT
    case 6: return apfelruder_write_text(WORDS(0), BYTES(1));
#endif
#ifndef NO_AUDIT
    case 7: return apfelruder_audit(WORDS(0), WORDS(1), WORDS(2), WORDS(3), WORDS(4), WORDS(5));
#endif
#ifndef NO_DEPLOY
    case 8: return apfelruder_deploy(WORDS(0), WORDS(1), WORDS(2), WORDS(3), WORDS(4), WORDS(5));
#endif
    default: return none;
    }
}

/* The stack below the caller's frame, where the next function that it calls works: painted, or asked how many bytes, from
 * the lowest, are still as they were painted. */
enum { BELOW = 1 << 18, PAINT = 0xa5 };
static __attribute__((noinline)) uint64_t below(int painting) {
    unsigned char stack[BELOW];
    uint64_t i = 0;
    __asm__ volatile("" : "=m"(stack)); /* what earlier calls left there is what is asked */
    if (painting)
        for (; i < BELOW; i++) stack[i] = PAINT;
    else
        while (i < BELOW && stack[i] == PAINT) i++;
    __asm__ volatile("" : : "m"(stack));
    return i;
}

int main(void) {
    uint64_t call;
    while (take(&call, 8) && (call & ~(uint64_t)MEASURED) < CALLS) {
        int measured = call >= MEASURED;
        call %= MEASURED;
        if (!take_memory(call)) return 1;
        if (measured) below(1);
        apfelruder_answer answer = make(call);
        uint64_t bytes = measured ? BELOW - below(0) : 0;
        if (measured && !give(&bytes, 8)) return 1;
        if (!give(&answer, sizeof answer) || !give(memory, 8 * words)) return 1;
    }
    return 0;
}
