/* decide DESCRIPTOR [CONTEXT]   reads lines `METHOD TARGET [ROLE,ROLE..]`, and prints what becomes of each request. A third word is a caller with
 * these roles, and `-` one without any. The line `uncovered` prints what the descriptor leaves uncovered. */
#include "policy.h"

#include <stdio.h>
#include <stdlib.h>
#include <string.h>

static const uint8_t *bytes(const char *text) { return (const uint8_t *)text; }

static char *whole_file(const char *name, size_t *length) {
    FILE *file = fopen(name, "rb");
    if (!file) return NULL;
    char *text = NULL;
    size_t held = 0, got;
    char piece[65536];
    while ((got = fread(piece, 1, sizeof piece, file)) > 0) {
        char *more = realloc(text, held + got);
        if (!more) break;
        text = more;
        memcpy(text + held, piece, got);
        held += got;
    }
    fclose(file);
    *length = held;
    return text ? text : calloc(1, 1);
}

static uint32_t set_roles(sv_policy *policy, char *roles) {
    uint32_t status = sv_policy_caller(policy, roles != NULL);
    if (!roles || !strcmp(roles, "-")) return status;
    for (char *role = strtok(roles, ","); role && status == SV_POLICY_WRITTEN; role = strtok(NULL, ","))
        status = sv_policy_role(policy, bytes(role), strlen(role));
    return status;
}

static uint32_t decide(sv_policy *policy, char *line) {
    static uint8_t answer[1 << 17];
    size_t length = 0;
    char *method = line, *target = strchr(line, ' '), *roles = NULL;
    if (!target) return SV_POLICY_METHOD;
    *target++ = 0;
    roles = strchr(target, ' ');
    if (roles) *roles++ = 0;
    uint32_t status = set_roles(policy, roles);
    if (status == SV_POLICY_WRITTEN)
        status = sv_policy_decide(policy, bytes(method), strlen(method), bytes(target), strlen(target), answer, sizeof answer, &length);
    if (status == SV_POLICY_WRITTEN) printf("%.*s\n", (int)length, (char *)answer);
    else printf("status %u\n", status);
    return status;
}

static void list_uncovered(const char *context, const char *text, size_t size) {
    static uint8_t answer[1 << 17];
    size_t length = 0;
    uint32_t status = sv_policy_uncovered(bytes(context), strlen(context), bytes(text), size, answer, sizeof answer, &length);
    if (status == SV_POLICY_WRITTEN) printf("%.*s", (int)length, (char *)answer);
    else printf("status %u\n", status);
}

int main(int count, char **words) {
    sv_policy policy = SV_POLICY_NONE;
    uint8_t answer[256];
    size_t length = 0, size = 0;
    if (count < 2) return 64;
    const char *context = count > 2 ? words[2] : "";
    char *text = whole_file(words[1], &size);
    if (!text) return 66;
    uint32_t status = sv_policy_open(&policy, bytes(context), strlen(context), bytes(text), size, answer, sizeof answer, &length);
    if (status == SV_POLICY_FAULT) fprintf(stderr, "%.*s\n", (int)length, (char *)answer);
    char line[1 << 16];
    while (status == SV_POLICY_WRITTEN && fgets(line, sizeof line, stdin)) {
        line[strcspn(line, "\n")] = 0;
        if (!strcmp(line, "uncovered")) list_uncovered(context, text, size);
        else decide(&policy, line);
    }
    free(text);
    sv_policy_close(&policy);
    if (status != SV_POLICY_WRITTEN) return (int)status;
    return 0;
}
