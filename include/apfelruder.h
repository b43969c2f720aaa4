/* Apfelruder: sums mod 2 of products, split into parts with no common variable.
 *
 * The nine calls of docs/RULES.md, for C and C++. The library behind them is
 * proved: for every input, each call gives the answer and leaves the buffers that this page describes.
 * What no proof covers is this declaration itself and what a caller passes: see "Memory" below.
 *
 * Words
 *   term    a 64-bit number; bit i is the variable xi; 0 is the constant term 1.
 *   list    a strictly ascending array of at most APFELRUDER_MAX_TERMS terms: a polynomial.
 *           The empty list is zero, the list of the single term 0 is one.
 *   part    an irreducible factor. The parts of a list have no common variable; their product is the list.
 *   board   one list of a deployment: what deploy splits, up to APFELRUDER_MAX_BOARDS of them, each for itself (RULES 15).
 *   block   a polynomial packed into bytes (RULES 4).
 *   text    a polynomial as a designer types it, in ASCII: x0*x3+x2+1 and a line feed (RULES 12). Terms are joined by +,
 *           the variables x0 to x63 of a term by *, in any order; 1 is the constant term, a lone 0 is zero; no spaces,
 *           no leading zeros, one line feed at the end and nothing behind it. Two equal terms cancel.
 *
 * Answers
 *   Every call returns four numbers by value.
 *     accepted: code 0, operand 0, place 0; count as told at each call.
 *     refused:  code 1 to 15, count 0, and every buffer holds what it held before the call.
 *               operand: which of the inputs, from 1 in the order of the call; 0 for multiply's Shared,
 *                        TooLarge and Room, which concern no single list, where audit's given parts
 *                        are refused all together, and wherever deploy is refused as a whole. Of audit
 *                        the approved list is 1 and the k-th given part k + 1.
 *               place:   for Order the index, from 0, of the first term that is not above the one
 *                        before it, in that operand's own list; for Sign and Twice the index, from 0, of
 *                        the byte of the text that shows it; 0 with every other code.
 *   An accepted deploy has also written the four numbers of each board, in the order code, operand, place, count: those that
 *   split gives for that board alone with the room that is left, so a refusal has operand 1 and a place inside the board. A
 *   board that is refused there does not refuse the call.
 *
 * Memory
 *   A slice is a pointer and the number of its elements (not bytes), in this order.
 *   - Length 0 is allowed everywhere: an empty list is an input like any other, an empty output is
 *     simply too short for anything. The pointer that comes with length 0 is never followed; pass a
 *     non-null, suitably aligned one all the same (any object's address will do).
 *   - A null pointer with a length above 0 is an error of the caller: it is not noticed and not refused.
 *   - An output (answers, part_terms, part_lengths, work, out) may overlap no other slice of the same call,
 *     neither an input nor another output. Overlap is not noticed, and nothing is promised then.
 *     Inputs may overlap one another: same_products(a, a, a, a) is fine.
 *   - The library keeps no pointer, allocates nothing, has no state, and prints nothing. Calls from
 *     several threads at once are independent as long as no output of one is a slice of another.
 *   - It takes its room from the stack, and no proof says how much. No recursion is deeper than there are variables. The
 *     comparison (rust/compare/run) measures it on x86-64, on inputs chosen to go deep, and fails if same_products takes
 *     more than APFELRUDER_SAME_PRODUCTS_STACK_BYTES, read_text more than APFELRUDER_READ_TEXT_STACK_BYTES or another call
 *     more than APFELRUDER_STACK_BYTES. A stack that is too small is not noticed; leave it some room above these where
 *     threads have small stacks.
 *
 * Linking
 *   - target/staticlib/libapfelruder.a (`scripts/static-archive`) is for x86-64. For another machine
 *     scripts/native-archive compiles the same proved module: target/native/libapfelruder.a.
 *   - Either archive defines the nine calls below and no other global symbol.
 *   - Of the C library it needs memcpy and memset alone; a program without a C library supplies these.
 */
#ifndef APFELRUDER_H
#define APFELRUDER_H

#include <stddef.h>
#include <stdint.h>

/* The version of this page. The minor number grows when something is added and all that a program could rely
 * on still holds; the major number grows when it may not: another limit or buffer size, another shape or
 * meaning of an answer, a call that is gone. */
#define APFELRUDER_VERSION_MAJOR 1
#define APFELRUDER_VERSION_MINOR 4
#define APFELRUDER_VERSION (APFELRUDER_VERSION_MAJOR * 1000 + APFELRUDER_VERSION_MINOR)

/* Limits of a list. */
#define APFELRUDER_MAX_TERMS 1024
#define APFELRUDER_MAX_VARS 64

/* The most lists that one deploy splits. */
#define APFELRUDER_MAX_BOARDS 64

/* Bytes of stack that the comparison holds the calls to: read, write, multiply, split, write text, audit and deploy; same
 * products; read text, which keeps the terms of a text twice until equal ones have cancelled. */
#define APFELRUDER_STACK_BYTES 16384
#define APFELRUDER_SAME_PRODUCTS_STACK_BYTES 49152
#define APFELRUDER_READ_TEXT_STACK_BYTES 24576

/* What split and audit need for a list of t terms, in words of 64 bits. Of deploy the work area is that of the longest list. */
#define APFELRUDER_PART_TERMS_WORDS(t) ((size_t)(t) + 64)
#define APFELRUDER_PART_LENGTHS_WORDS 64
#define APFELRUDER_WORK_WORDS(t) (4 * (size_t)(t))

/* The words of one answer that deploy writes: code, operand, place, count. */
#define APFELRUDER_ANSWER_WORDS 4

/* What deploy needs for the answers of its boards, and what is enough for the parts of all of them, in words of 64 bits:
 * `words` is the number of terms of all boards together. */
#define APFELRUDER_DEPLOY_ANSWERS_WORDS(boards) (APFELRUDER_ANSWER_WORDS * (size_t)(boards))
#define APFELRUDER_DEPLOY_PART_TERMS_WORDS(words, boards) ((size_t)(words) + 64 * (size_t)(boards))
#define APFELRUDER_DEPLOY_PART_LENGTHS_WORDS(boards) (64 * (size_t)(boards))

/* The longest block: 3 bytes and 1,024 terms of 64 bits. */
#define APFELRUDER_MAX_BLOCK_BYTES 8195

/* The longest text that is read or written, its line feed included. */
#define APFELRUDER_MAX_TEXT_BYTES 65536

/* The codes of refusal, and when each is given. What is said of split holds for each board of deploy too. */
enum {
    APFELRUDER_ACCEPTED = 0,
    APFELRUDER_ZERO = 1,      /* split of the empty list, or audit with it as the approved one */
    APFELRUDER_TOO_MANY = 2,  /* a list longer than 1,024 terms, a block that says t above 1,024, a text over 65,536
                                 bytes or with over 1,024 terms as written, more than 64 given parts, or more
                                 than 64 boards */
    APFELRUDER_ORDER = 3,     /* a term not above the one before it; place = its first such index */
    APFELRUDER_SHARED = 4,    /* multiply: a variable in both lists */
    APFELRUDER_TOO_LARGE = 5, /* multiply: the product of the two lengths is above 1,024;
                                 write_text: the text would be over 65,536 bytes */
    APFELRUDER_ROOM = 6,      /* an output is too short */
    APFELRUDER_WORK = 7,      /* split, audit: the work area is shorter than 4 words a term */
    APFELRUDER_FORM = 8,      /* read: the form number is not 1 */
    APFELRUDER_WIDE = 9,      /* read: n above 64 */
    APFELRUDER_SHORT = 10,    /* read: the bytes end before the block does;
                                 audit, deploy: the lengths add to more words than were lent */
    APFELRUDER_MISFIT = 11,   /* read: n is larger than one more than the highest variable */
    APFELRUDER_EXTRA = 12,    /* read: bytes after the block; audit, deploy: the lengths add to fewer words */
    APFELRUDER_PAD = 13,      /* read: a padding bit is set */
    APFELRUDER_SIGN = 14,     /* read_text: no equation goes on so, or the text ends too early; place = that byte's
                                 index, or the text's length */
    APFELRUDER_TWICE = 15     /* read_text: a variable again in its term; place = the index of the sign behind it */
};

typedef struct {
    uint64_t code, operand, place, count;
} apfelruder_answer;

#ifdef __cplusplus
extern "C" {
#endif

/* Splits a list into its parts.
 *
 * Needs   terms: the list, t terms. part_terms: t + 64 words. part_lengths: 64 words. work: 4 t words.
 *         The sizes are asked for even where the parts would fit into less.
 * Gives   count = the number of parts, 0 to 64. The parts lie one after another from the start of
 *         part_terms, each ascending, in ascending order of their lowest variable; part_lengths holds
 *         their lengths in the same order. The lengths multiply to t. A variable that all terms hold
 *         is a part, alone; the list {0} has no parts; variables keep their numbers.
 *         Every word of work, also behind 4 t, is 0. Words of part_terms and part_lengths behind what
 *         was written are unchanged.
 * Refuses in this order, operand 1 throughout:
 *         2 TooMany (t above 1,024), 1 Zero (t = 0), 3 Order (place = index of the term),
 *         6 Room (part_terms under t + 64 words), 6 Room (part_lengths under 64 words),
 *         7 Work (work under 4 t words).
 */
apfelruder_answer apfelruder_split(const uint64_t *terms, size_t terms_len,
                                   uint64_t *part_terms, size_t part_terms_len,
                                   uint64_t *part_lengths, size_t part_lengths_len,
                                   uint64_t *work, size_t work_len);

/* Multiplies two lists that have no common variable.
 *
 * Needs   a and b: the lists. out: exactly the product of their lengths, in words, or more.
 * Gives   count = that product; the terms of the product, ascending, from the start of out. Zero times
 *         anything is zero (count 0, nothing written, no room needed). Words behind are unchanged.
 * Refuses in this order:
 *         2 TooMany (operand 1: a, then operand 2: b), 3 Order (operand 1, then operand 2; place = index
 *         in that list), 4 Shared (operand 0), 5 TooLarge (operand 0), 6 Room (operand 0).
 */
apfelruder_answer apfelruder_multiply(const uint64_t *a, size_t a_len,
                                      const uint64_t *b, size_t b_len,
                                      uint64_t *out, size_t out_len);

/* Says whether A times D equals B times C, exactly, for any four lists.
 *
 * Note the order of the arguments: a, d, b, c. The products are those of polynomials with exponents: x
 * times x has the exponent 2, so it differs from x. Lists may share variables. Nothing is written and no
 * product is built.
 * Needs   the four lists.
 * Gives   count = 1 for yes, 0 for no.
 * Refuses in this order:
 *         2 TooMany (operands 1 to 4 in turn: a, d, b, c), then 3 Order (operands 1 to 4 in turn;
 *         place = index in that list).
 */
apfelruder_answer apfelruder_same_products(const uint64_t *a, size_t a_len,
                                           const uint64_t *d, size_t d_len,
                                           const uint64_t *b, size_t b_len,
                                           const uint64_t *c, size_t c_len);

/* Reads a block.
 *
 * Needs   bytes: exactly one block. out: one word for each term that the block's header announces.
 * Gives   count = the number of terms, written ascending from the start of out. Words behind are unchanged.
 * Refuses in this order, operand 1 throughout:
 *         10 Short (under 3 bytes), 8 Form, 9 Wide, 2 TooMany, 10 Short (bytes end before the block),
 *         12 Extra, 6 Room, 3 Order (place = index of the term, not of a byte), 11 Misfit, 13 Pad.
 */
apfelruder_answer apfelruder_read(const uint8_t *bytes, size_t bytes_len,
                                  uint64_t *out, size_t out_len);

/* Writes a list as a block. One polynomial has one block.
 *
 * Needs   terms: the list. out: the bytes of the block, which are 3 and n times t bits rounded up to
 *         bytes (n one more than the highest variable); APFELRUDER_MAX_BLOCK_BYTES always suffice.
 * Gives   count = the number of bytes, written from the start of out. Bytes behind are unchanged.
 * Refuses in this order, operand 1 throughout:
 *         2 TooMany, 3 Order (place = index of the term), 6 Room.
 */
apfelruder_answer apfelruder_write(const uint64_t *terms, size_t terms_len,
                                   uint8_t *out, size_t out_len);

/* Reads a text.
 *
 * Needs   text: the bytes of one equation, its line feed included; no zero byte ends them. out: one word for each term that
 *         is left when equal ones have cancelled; APFELRUDER_MAX_TERMS always suffice.
 * Gives   count = the number of terms left, written ascending from the start of out. Words behind are unchanged.
 * Refuses operand 1 throughout. First of all 2 TooMany (text_len above APFELRUDER_MAX_TEXT_BYTES). Then at the first byte
 *         that shows it: 14 Sign (by form alone no equation goes on with this byte; place = its index, or text_len if
 *         the text ends too early), 15 Twice (a variable again in its term, shown by the +, * or line feed behind it;
 *         place = the index of that), 2 TooMany (the x or 1 that begins a 1,025th term, before any cancel).
 *         Then 6 Room.
 */
apfelruder_answer apfelruder_read_text(const uint8_t *text, size_t text_len,
                                       uint64_t *out, size_t out_len);

/* Writes a list as a text. One polynomial has one text that is written: the terms ascending, in each the variables
 * ascending. Reading it gives the list.
 *
 * Needs   terms: the list. out: the bytes of the text, its line feed included; APFELRUDER_MAX_TEXT_BYTES always suffice.
 * Gives   count = the number of bytes, written from the start of out; no zero byte is written behind them. Bytes behind
 *         are unchanged.
 * Refuses in this order, operand 1 throughout:
 *         2 TooMany, 3 Order (place = index of the term), 5 TooLarge (a text over APFELRUDER_MAX_TEXT_BYTES), 6 Room.
 */
apfelruder_answer apfelruder_write_text(const uint64_t *terms, size_t terms_len,
                                        uint8_t *out, size_t out_len);

/* Says whether given parts are exactly the parts of an approved list: no term more or less, none that can be split again, none
 * missing, doubled or in another place. In both cases it leaves the right parts.
 *
 * Needs   terms: the approved list, t terms. given_terms: the given parts, one after another. given_lengths: their lengths in
 *         the same order, 64 at most; they add to given_terms_len. part_terms: t + 64 words. part_lengths: 64 words.
 *         work: 4 t words. The sizes are asked for even where less would do.
 * Gives   count = 1 for yes, 0 for no. Yes exactly if the given parts are, term for term, what split of the approved list
 *         gives, in ascending order of their lowest variable. Nothing given (both lengths 0) is right for the list {0}, which
 *         has no parts. A given part of length 0 is allowed and is no part: the answer is no.
 *         part_terms, part_lengths and work are left as an accepted split of the approved list leaves them. The number of
 *         parts is not told: lend part_lengths filled with 0, which is the length of no part.
 * Refuses in this order:
 *         2 TooMany (operand 0: more than 64 given lengths), 10 Short (operand 0: the given lengths add to more than
 *         given_terms_len; the sum is exact, also above 64 bits), 12 Extra (operand 0: they add to fewer),
 *         2 TooMany (operand 1: t above 1,024, then operands 2 to 65 in turn: a given part longer than that),
 *         1 Zero (operand 1: t = 0), 3 Order (operand 1, then operands 2 to 65 in turn; place = index in that list),
 *         6 Room (operand 1: part_terms under t + 64 words), 6 Room (operand 1: part_lengths under 64 words),
 *         7 Work (operand 1: work under 4 t words).
 */
apfelruder_answer apfelruder_audit(const uint64_t *terms, size_t terms_len,
                                   const uint64_t *given_terms, size_t given_terms_len,
                                   const uint64_t *given_lengths, size_t given_lengths_len,
                                   uint64_t *part_terms, size_t part_terms_len,
                                   uint64_t *part_lengths, size_t part_lengths_len,
                                   uint64_t *work, size_t work_len);

/* Splits all the lists of a deployment, up to 64 boards, and says of each what split says. It is the same as one split after
 * another in the order of the boards, each with the whole work area and with the room that the boards before it left.
 *
 * Needs   words: the lists, one directly behind the other. lengths: their lengths in terms in the same order, 64 at most; they
 *         add to words_len. answers: 4 words for each board. Enough for every board: part_terms words_len words and 64 more
 *         for each board, part_lengths 64 words for each board, work 4 words for each term of the longest list
 *         (APFELRUDER_WORK_WORDS(APFELRUDER_MAX_TERMS) always suffice). With less of these three the call is accepted, and
 *         the boards that find too little are refused.
 * Gives   count = the number of boards. The i-th 4 words of answers are the code, operand, place and count of the i-th board:
 *         accepted 0, 0, 0 and the number of its parts, or refused as under Refuses. The parts of the accepted boards lie one
 *         after another from the start of part_terms, their lengths from the start of part_lengths, board after board; of
 *         each board as split leaves them. A refused board takes no room in either and does not stop the next. So the lengths
 *         of a board's parts begin in part_lengths at the sum of the counts of the boards before it, and its terms in
 *         part_terms at the sum of all lengths before those. If a board was accepted, every word of work is 0; if none was, work is unchanged. Words of answers, part_terms and part_lengths behind what was
 *         written are unchanged. No boards and no words: accepted with count 0.
 * Refuses the whole call, in this order, operand 0 throughout:
 *         2 TooMany (more than 64 lengths), 10 Short (the lengths add to more than words_len; the sum is exact, also above
 *         64 bits), 12 Extra (they add to fewer), 6 Room (answers under 4 words for each board).
 *         A board of t terms, in its answer alone, in this order, operand 1 throughout:
 *         2 TooMany (t above 1,024), 1 Zero (t = 0), 3 Order (place = index of the term in the board),
 *         6 Room (what is left of part_terms is under t + 64 words), 6 Room (what is left of part_lengths is under 64 words),
 *         7 Work (work under 4 t words).
 */
apfelruder_answer apfelruder_deploy(const uint64_t *words, size_t words_len,
                                    const uint64_t *lengths, size_t lengths_len,
                                    uint64_t *answers, size_t answers_len,
                                    uint64_t *part_terms, size_t part_terms_len,
                                    uint64_t *part_lengths, size_t part_lengths_len,
                                    uint64_t *work, size_t work_len);

#ifdef __cplusplus
}
#endif

#endif
