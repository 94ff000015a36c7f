/* The policy engine of Fitskhela for C: a deployment descriptor is read once, and requests are decided by it (Jakarta Servlet 6.0, section 13.8).
 *
 * Link with crates/sv_policy_c/out/libsv_policy_c.a and with liblibc_c.a of the toolchain, which calls malloc, realloc and free.
 *
 * What a caller has to keep, and nothing tests:
 *   - a `sv_policy` begins as SV_POLICY_NONE, is changed by these functions alone, is not copied, and is given to one call at a time, on one thread;
 *   - no pointer is NULL, also where its length is 0, and each leads to as many bytes as its length says;
 *   - nothing that a call writes overlaps anything else that it is given;
 *   - malloc, realloc and free come from one allocator, whose blocks are aligned to 16 bytes;
 *   - no function is called from a signal handler, nor from the forked child of a process with threads. */
#ifndef SV_POLICY_H
#define SV_POLICY_H

#include <stdbool.h>
#include <stddef.h>
#include <stdint.h>

#ifdef __cplusplus
extern "C" {
#endif

/* A policy, or nothing. */
typedef struct sv_policy {
    void *at;
} sv_policy;

#define SV_POLICY_NONE { NULL }

/* What a function returns. Where there is no answer and none has too little room, what `answer` and `length` lead to is as before. */
enum {
    SV_POLICY_WRITTEN = 0,   /* it was done, and the answer, if there is one, is written */
    SV_POLICY_FAULT = 1,     /* the text is no descriptor: the answer is the fault's name, a blank and the key */
    SV_POLICY_METHOD = 2,    /* the method is no token */
    SV_POLICY_NO_MEMORY = 3, /* memory ran out */
    SV_POLICY_SHORT = 4,     /* the answer has no room: `length` says how many bytes it needs, and none was written */
    SV_POLICY_NOT_TEXT = 5,  /* a text is not UTF-8 */
    SV_POLICY_NOTHING = 6    /* the handle holds no policy, or there is no caller to whom a role could be given */
};

/* Reads a descriptor, and holds the policy of a context with this path, without a caller. The path is empty for the root context, and else
 * begins with '/' and does not end in one. What was held is freed. After any status but SV_POLICY_WRITTEN the handle holds what it held. */
uint32_t sv_policy_open(sv_policy *policy, const uint8_t *path, size_t path_length, const uint8_t *descriptor, size_t descriptor_length,
                        uint8_t *answer, size_t capacity, size_t *length);

/* Frees what is held. */
void sv_policy_close(sv_policy *policy);

/* From now on requests come from a caller who has no roles (true), or from no caller (false). */
uint32_t sv_policy_caller(sv_policy *policy, bool is_known);

/* Gives the caller one role more. */
uint32_t sv_policy_role(sv_policy *policy, const uint8_t *role, size_t role_length);

/* Writes what would become of a request with this method and this raw target: the line that `sv policy` prints, without its end. */
uint32_t sv_policy_decide(sv_policy *policy, const uint8_t *method, size_t method_length, const uint8_t *target, size_t target_length,
                          uint8_t *answer, size_t capacity, size_t *length);

/* Writes which methods a descriptor leaves uncovered in a context with this path: the lines that `sv uncovered` prints, each with its end. No policy is
 * needed for it, and none is changed. */
uint32_t sv_policy_uncovered(const uint8_t *path, size_t path_length, const uint8_t *descriptor, size_t descriptor_length, uint8_t *answer,
                             size_t capacity, size_t *length);

#ifdef __cplusplus
}
#endif

#endif
