/* For scripts/native-archive alone. The module was made for x86-64, where an answer comes back through a pointer that the caller
 * passes before all else, and that is returned; here C returns it in its own way. The module's functions are renamed to
 * module_.. and become local to the object that this makes. */
#include "apfelruder.h"

#define SHIM(call, parameters, ...)                                                                                   \
    void *module_##call parameters;                                                                                   \
    apfelruder_answer apfelruder_##call __VA_ARGS__

#define WORDS(x) const uint64_t *x, size_t x##_n
#define OUT(x) uint64_t *x, size_t x##_n

SHIM(split, (apfelruder_answer *, WORDS(t), OUT(p), OUT(l), OUT(w)), (WORDS(t), OUT(p), OUT(l), OUT(w)) {
    apfelruder_answer r;
    module_split(&r, t, t_n, p, p_n, l, l_n, w, w_n);
    return r;
})
SHIM(multiply, (apfelruder_answer *, WORDS(a), WORDS(b), OUT(o)), (WORDS(a), WORDS(b), OUT(o)) {
    apfelruder_answer r;
    module_multiply(&r, a, a_n, b, b_n, o, o_n);
    return r;
})
SHIM(same_products, (apfelruder_answer *, WORDS(a), WORDS(d), WORDS(b), WORDS(c)), (WORDS(a), WORDS(d), WORDS(b), WORDS(c)) {
    apfelruder_answer r;
    module_same_products(&r, a, a_n, d, d_n, b, b_n, c, c_n);
    return r;
})
SHIM(read, (apfelruder_answer *, const uint8_t *, size_t, OUT(o)), (const uint8_t *bytes, size_t n, OUT(o)) {
    apfelruder_answer r;
    module_read(&r, bytes, n, o, o_n);
    return r;
})
SHIM(write, (apfelruder_answer *, WORDS(t), uint8_t *, size_t), (WORDS(t), uint8_t *out, size_t n) {
    apfelruder_answer r;
    module_write(&r, t, t_n, out, n);
    return r;
})
SHIM(read_text, (apfelruder_answer *, const uint8_t *, size_t, OUT(o)), (const uint8_t *text, size_t n, OUT(o)) {
    apfelruder_answer r;
    module_read_text(&r, text, n, o, o_n);
    return r;
})
SHIM(write_text, (apfelruder_answer *, WORDS(t), uint8_t *, size_t), (WORDS(t), uint8_t *out, size_t n) {
    apfelruder_answer r;
    module_write_text(&r, t, t_n, out, n);
    return r;
})
SHIM(audit, (apfelruder_answer *, WORDS(t), WORDS(g), WORDS(k), OUT(p), OUT(l), OUT(w)),
     (WORDS(t), WORDS(g), WORDS(k), OUT(p), OUT(l), OUT(w)) {
    apfelruder_answer r;
    module_audit(&r, t, t_n, g, g_n, k, k_n, p, p_n, l, l_n, w, w_n);
    return r;
})
SHIM(deploy, (apfelruder_answer *, WORDS(t), WORDS(k), OUT(a), OUT(p), OUT(l), OUT(w)),
     (WORDS(t), WORDS(k), OUT(a), OUT(p), OUT(l), OUT(w)) {
    apfelruder_answer r;
    module_deploy(&r, t, t_n, k, k_n, a, a_n, p, p_n, l, l_n, w, w_n);
    return r;
})
