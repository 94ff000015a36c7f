/* fuzz SECONDS DESCRIPTOR..   calls the exported functions with pieces of descriptors and of random bytes, in any order, on buffers of the very
 * length that is told, so that the address sanitizer sees each byte that is read or written beside one. What the statuses promise is tested too, also
 * where the library is refused memory: it is linked with `--wrap=malloc` and `--wrap=realloc`. */
#include "policy.h"

#include <stdio.h>
#include <stdlib.h>
#include <string.h>
#include <time.h>

static uint64_t state = 88172645463325252u;

static uint64_t next(void) {
    state ^= state << 13;
    state ^= state >> 7;
    return state ^= state << 17;
}

static void must(int holds, const char *what) {
    if (holds) return;
    fprintf(stderr, "broken: %s\n", what);
    abort();
}

/* One of so many allocations is refused, none where it is 0; and how many were in the call that was last. */
static uint64_t refused_of, refusals;

void *__real_malloc(size_t size);
void *__real_realloc(void *block, size_t size);

static int is_refused(void) {
    int refused = refused_of && next() % refused_of == 0;
    refusals += (uint64_t)refused;
    return refused;
}

void *__wrap_malloc(size_t size) { return is_refused() ? NULL : __real_malloc(size); }

void *__wrap_realloc(void *block, size_t size) { return is_refused() ? NULL : __real_realloc(block, size); }

/* What is written between these two is a call of the library, in one of two with memory that is refused now and then. */
static void begin(void) {
    refusals = 0;
    refused_of = next() % 2 ? 0 : 1 + next() % 400;
}

static uint32_t ended(uint32_t status) {
    refused_of = 0;
    must(status != SV_POLICY_NO_MEMORY || refusals, "memory runs out where some is refused");
    return status;
}

/* A block of this length, with room for 1 where it is 0, so that it is never NULL. */
static uint8_t *block(size_t length) {
    uint8_t *made = malloc(length ? length : 1);
    must(made != NULL, "memory");
    return made;
}

static const char *TEXTS[] = { "GET", "POST", "/", "/admin/x", "/admin/%2e%2e/keep", "/two", "a", "*", "**", "/%zz", "", "/shop/..;x=1/a?b" };

static uint8_t *text(size_t *length) {
    if (next() % 3) {
        const char *it = TEXTS[next() % (sizeof TEXTS / sizeof *TEXTS)];
        *length = strlen(it);
        uint8_t *made = block(*length);
        memcpy(made, it, *length);
        if (*length && next() % 4 == 0) made[next() % *length] = (uint8_t)next();
        return made;
    }
    *length = next() % 300;
    uint8_t *made = block(*length);
    for (size_t i = 0; i < *length; i++) made[i] = (uint8_t)(next() % 4 ? 32 + next() % 95 : next());
    return made;
}

/* One of the descriptors, with some bytes changed or its end cut off. */
static uint8_t *descriptor(char **texts, size_t *sizes, size_t count, size_t *length) {
    size_t which = next() % count;
    *length = next() % 4 ? sizes[which] : next() % (sizes[which] + 1);
    uint8_t *made = block(*length);
    memcpy(made, texts[which], *length);
    for (uint64_t changes = next() % 4; changes-- > 1 && *length;) made[next() % *length] = (uint8_t)next();
    return made;
}

static uint8_t *room(size_t *capacity) {
    *capacity = next() % 3 ? 400 + next() % 400 : next() % 64;
    uint8_t *made = block(*capacity);
    memset(made, 0x5a, *capacity);
    return made;
}

/* What a length is before a call. */
static const size_t MARK = 77777;

/* `writes`: whether what is written has an answer. */
static void told(uint32_t status, int writes, const uint8_t *answer, size_t capacity, size_t length) {
    int has_answer = status == SV_POLICY_FAULT || (status == SV_POLICY_WRITTEN && writes);
    if (has_answer) must(length <= capacity, "an answer is within its room");
    else if (status == SV_POLICY_SHORT) must(length > capacity && length != MARK, "an answer that has no room is longer than it");
    else must(length == MARK, "the length stays where there is no answer");
    for (size_t i = has_answer ? length : 0; i < capacity; i++) must(answer[i] == 0x5a, "the bytes behind an answer stay");
}

/* What is said of one request, as one number. */
static uint64_t said(sv_policy *policy) {
    uint8_t answer[256] = { 0 };
    size_t length = 0;
    uint64_t sum = sv_policy_decide(policy, (const uint8_t *)"GET", 3, (const uint8_t *)"/admin/x", 8, answer, sizeof answer, &length);
    for (size_t i = 0; i < sizeof answer; i++) sum = sum * 1099511628211u + answer[i];
    return sum * 1099511628211u + length;
}

/* A request that was decided while memory was refused is decided once more. */
static void same(sv_policy *policy, const uint8_t *method, size_t a, const uint8_t *target, size_t b, const uint8_t *answer, size_t capacity, size_t length, uint32_t status) {
    if (status == SV_POLICY_NO_MEMORY) return;
    uint8_t *again = block(capacity);
    size_t its_length = MARK;
    memset(again, 0x5a, capacity);
    must(sv_policy_decide(policy, method, a, target, b, again, capacity, &its_length) == status, "a status is the same where memory is refused");
    must(its_length == length && !memcmp(again, answer, capacity), "an answer is the same where memory is refused");
    free(again);
}

static void once(sv_policy *policy, int *is_held, char **texts, size_t *sizes, size_t count, uint64_t *statuses) {
    size_t a, b, capacity, length = MARK;
    uint32_t status;
    uint64_t before;
    switch (next() % 9) {
    case 0: {
        uint8_t *path = text(&a), *from = descriptor(texts, sizes, count, &b), *answer = room(&capacity);
        before = said(policy);
        begin();
        status = ended(sv_policy_open(policy, path, a, from, b, answer, capacity, &length));
        told(status, 0, answer, capacity, length);
        must(status == SV_POLICY_WRITTEN || said(policy) == before, "a text that is not read changes nothing");
        if (status == SV_POLICY_WRITTEN) *is_held = 1;
        free(path), free(from), free(answer);
        break;
    }
    case 1:
        begin();
        status = ended(sv_policy_caller(policy, next() % 2));
        must((status == SV_POLICY_NOTHING) == !*is_held, "a caller is had where a policy is held");
        break;
    case 2: {
        uint8_t *role = text(&a);
        before = said(policy);
        begin();
        status = ended(sv_policy_role(policy, role, a));
        must(status == SV_POLICY_WRITTEN || said(policy) == before, "a role that is not given changes nothing");
        free(role);
        break;
    }
    case 3:
        if (next() % 8) return;
        sv_policy_close(policy);
        must(policy->at == NULL, "a closed handle is null");
        *is_held = 0;
        return;
    case 4: {
        uint8_t *path = text(&a), *from = descriptor(texts, sizes, count, &b), *answer = room(&capacity);
        begin();
        status = ended(sv_policy_uncovered(path, a, from, b, answer, capacity, &length));
        told(status, 1, answer, capacity, length);
        must(status != SV_POLICY_METHOD && status != SV_POLICY_NOTHING, "what is uncovered needs no policy");
        free(path), free(from), free(answer);
        break;
    }
    default: {
        uint8_t *method = text(&a), *target = text(&b), *answer = room(&capacity);
        begin();
        status = ended(sv_policy_decide(policy, method, a, target, b, answer, capacity, &length));
        told(status, 1, answer, capacity, length);
        same(policy, method, a, target, b, answer, capacity, length, status);
        must((status == SV_POLICY_NOTHING) == !*is_held, "a request is decided where a policy is held");
        free(method), free(target), free(answer);
    }
    }
    must(status <= SV_POLICY_NOTHING, "a status has a name");
    statuses[status]++;
}

int main(int words_count, char **words) {
    if (words_count < 3) return 64;
    size_t count = (size_t)words_count - 2;
    char **texts = calloc(count, sizeof *texts);
    size_t *sizes = calloc(count, sizeof *sizes);
    for (size_t i = 0; i < count; i++) {
        FILE *file = fopen(words[i + 2], "rb");
        if (!file) return 66;
        texts[i] = malloc(1 << 20);
        sizes[i] = fread(texts[i], 1, 1 << 20, file);
        fclose(file);
    }
    sv_policy policy = SV_POLICY_NONE;
    int is_held = 0;
    uint64_t statuses[7] = { 0 }, calls = 0;
    for (time_t end = time(NULL) + atoi(words[1]); time(NULL) < end;)
        for (int i = 0; i < 1000; i++, calls++) once(&policy, &is_held, texts, sizes, count, statuses);
    sv_policy_close(&policy);
    printf("calls %llu", (unsigned long long)calls);
    for (int i = 0; i < 7; i++) printf(" status%d=%llu", i, (unsigned long long)statuses[i]);
    printf("\n");
    must(statuses[SV_POLICY_NO_MEMORY] != 0 && statuses[SV_POLICY_WRITTEN] != 0, "both came");
    for (size_t i = 0; i < count; i++) free(texts[i]);
    free(texts), free(sizes);
    return 0;
}
