/* Answers each line of standard input by one line, as `inst_main` does with the same words, `--participants` first. The
 * hub is in this process: there is no other program and no pipe. */
#define _POSIX_C_SOURCE 200809L

#include <stdio.h>
#include <stdlib.h>
#include <string.h>
#include <sys/types.h>

#include "inst.h"

/* A reply, in a buffer that grows. */
struct reply {
    uint8_t *bytes;
    size_t capacity;
};

/* Answers a line and writes its reply, unless a call fails. */
static uint32_t answer(struct inst_hub *hub, const char *line, size_t length, struct reply *reply) {
    struct inst_told told;
    uint32_t status = inst_answer(hub, (const uint8_t *)line, length, &told);
    if (status != INST_DONE)
        return status;
    if (told.length > reply->capacity) {
        uint8_t *more = realloc(reply->bytes, told.length);
        if (more == NULL)
            return INST_MEMORY;
        reply->bytes = more;
        reply->capacity = told.length;
    }
    status = inst_reply(hub, reply->bytes, reply->capacity);
    if (status == INST_DONE)
        fwrite(reply->bytes, 1, told.length, stdout);
    return status;
}

/* Answers all lines of standard input. */
static uint32_t answer_all(struct inst_hub *hub) {
    struct reply reply = {NULL, 0};
    char *line = NULL;
    size_t room = 0;
    ssize_t length;
    uint32_t status = INST_DONE;
    while (status == INST_DONE && (length = getline(&line, &room, stdin)) > 0) {
        if (line[length - 1] == '\n')
            length--;
        status = answer(hub, line, (size_t)length, &reply);
    }
    free(line);
    free(reply.bytes);
    return status;
}

/* Sets the option of this name, if there is one and its type can hold the number. */
static bool choose(struct inst_settings *settings, const char *option, uint64_t number) {
    if (strcmp(option, "--base") == 0)
        settings->base = number;
    else if (strcmp(option, "--ceiling") == 0)
        settings->ceiling = number;
    else if (strcmp(option, "--limit") == 0 && number <= UINT32_MAX)
        settings->limit = (uint32_t)number;
    else if (strcmp(option, "--margin") == 0 && number <= UINT32_MAX)
        settings->margin = (uint32_t)number;
    else if (strcmp(option, "--ahead") == 0 && number <= UINT32_MAX)
        settings->ahead = (uint32_t)number;
    else if (strcmp(option, "--places") == 0 && number <= UINT16_MAX)
        settings->places = (uint16_t)number;
    else if (strcmp(option, "--fundings") == 0 && number <= UINT16_MAX)
        settings->fundings = (uint16_t)number;
    else
        return false;
    return true;
}

/* run|play --participants CODES [--OPTION NUMBER].. */
int main(int count, char **words) {
    if (count < 4 || count % 2 != 0 || strcmp(words[2], "--participants") != 0)
        return 2;
    struct inst_hub hub = {0};
    struct inst_settings settings = INST_SETTINGS;
    for (int i = 4; i < count; i += 2)
        if (!choose(&settings, words[i], strtoull(words[i + 1], NULL, 10)))
            return 2;
    bool is_play = strcmp(words[1], "play") == 0;
    uint32_t status = inst_open(&hub, (const uint8_t *)words[3], strlen(words[3]), &settings, is_play);
    if (status == INST_DONE) {
        status = answer_all(&hub);
        inst_close(&hub);
    }
    if (status != INST_DONE)
        fprintf(stderr, "status %u\n", (unsigned)status);
    return status == INST_DONE ? 0 : 3;
}
