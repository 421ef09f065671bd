/* Shows what an allocation failure does: the first request for memory of a short session fails, then the second one of
 * another session, and so on, until a session has fewer requests. Link with --wrap=malloc,--wrap=realloc. */
#include <stdio.h>
#include <stdlib.h>
#include <string.h>

#include "inst.h"

static const char codes[] = "AAAADEFF,BBBBFRPP";
static const char *const lines[] = {
    "{\"at\":0,\"cents\":50000,\"cmd\":\"fund\",\"ref\":\"F1\",\"who\":\"AAAADEFF\"}",
    "{\"at\":1000,\"cents\":20000,\"cmd\":\"submit\",\"id\":\"T1\",\"stamp\":1000,\"to\":\"BBBBFRPP\",\"who\":\"AAAADEFF\"}",
    "{\"at\":1500,\"cmd\":\"fetch\",\"max\":10,\"who\":\"BBBBFRPP\"}",
    "{\"at\":2000,\"cmd\":\"confirm\",\"from\":\"AAAADEFF\",\"id\":\"T1\",\"who\":\"BBBBFRPP\"}",
    "{\"at\":2100,\"cmd\":\"statement\",\"count\":10,\"skip\":0,\"who\":\"AAAADEFF\"}",
};

void *__real_malloc(size_t size);
void *__real_realloc(void *block, size_t size);
void *__wrap_malloc(size_t size);
void *__wrap_realloc(void *block, size_t size);

/* The number of requests up to the one that fails, or 0 if none does. */
static size_t until;

static bool is_refused(void) { return until > 0 && --until == 0; }

void *__wrap_malloc(size_t size) { return is_refused() ? NULL : __real_malloc(size); }

void *__wrap_realloc(void *block, size_t size) { return is_refused() ? NULL : __real_realloc(block, size); }

/* Opens a hub and answers all lines, up to the first status other than INST_DONE. */
static uint32_t session(struct inst_hub *hub) {
    struct inst_settings settings = INST_SETTINGS;
    struct inst_told told;
    uint32_t status = inst_open(hub, (const uint8_t *)codes, strlen(codes), &settings, false);
    for (size_t i = 0; status == INST_DONE && i < sizeof lines / sizeof lines[0]; i++)
        status = inst_answer(hub, (const uint8_t *)lines[i], strlen(lines[i]), &told);
    return status;
}

int main(void) {
    for (size_t nth = 1;; nth++) {
        struct inst_hub hub = {0};
        until = nth;
        uint32_t status = session(&hub);
        bool was_refused = until == 0;
        until = 0;
        /* A failed request may be repeated for less memory, and then the session succeeds. */
        bool is_right = status == INST_DONE ? inst_close(&hub) == INST_DONE : status == INST_MEMORY && !hub.is_open;
        if (!is_right || (nth < 20 && !was_refused)) {
            printf("request %zu: status %u\n", nth, (unsigned)status);
            return 1;
        }
        if (!was_refused)
            break;
    }
    printf("want of memory closes the hub\n");
    return 0;
}
