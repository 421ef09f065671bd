/* Shows each status of the calls of inst.h, and the hub afterwards. */
#include <stdio.h>
#include <string.h>

#include "inst.h"

static const char codes[] = "AAAADEFF,BBBBFRPP";
static const char line[] = "{\"at\":0,\"cents\":50000,\"cmd\":\"fund\",\"ref\":\"F1\",\"who\":\"AAAADEFF\"}";

static void show(const char *what, uint32_t status, const struct inst_hub *hub) {
    printf("%s: %u, %s\n", what, (unsigned)status, hub->is_open ? "open" : "closed");
}

static uint32_t open_hub(struct inst_hub *hub, const char *participants, const struct inst_settings *settings) {
    return inst_open(hub, (const uint8_t *)participants, strlen(participants), settings, false);
}

static uint32_t answer(struct inst_hub *hub, const char *text, struct inst_told *told) {
    return inst_answer(hub, (const uint8_t *)text, strlen(text), told);
}

/* Settings that are refused. */
static void refuse(struct inst_hub *hub) {
    struct inst_settings settings = INST_SETTINGS, bad = INST_SETTINGS;
    show("no participant", open_hub(hub, "", &settings), hub);
    show("an empty code", open_hub(hub, "AAAADEFF,", &settings), hub);
    show("a code with a space", open_hub(hub, "AAAADEFF, BBBBFRPP", &settings), hub);
    show("a code twice", open_hub(hub, "AAAADEFF,AAAADEFF", &settings), hub);
    show("a code that is no text", open_hub(hub, "AAAADEF\xff", &settings), hub);
    bad.margin = bad.limit;
    show("a margin of the limit", open_hub(hub, codes, &bad), hub);
    bad = settings;
    bad.places = 1025;
    show("too many places", open_hub(hub, codes, &bad), hub);
}

/* A reply stays until the next line. */
static void reply(struct inst_hub *hub) {
    struct inst_told told = {7, true};
    uint8_t buffer[64] = {0};
    show("no reply yet", inst_reply(hub, buffer, 1), hub);
    show("a line", answer(hub, line, &told), hub);
    printf("length %zu, %s\n", told.length, told.is_refused ? "refused" : "taken");
    show("a short buffer", inst_reply(hub, buffer, told.length - 1), hub);
    printf("its first byte: %u\n", buffer[0]);
    show("a buffer", inst_reply(hub, buffer, sizeof buffer), hub);
    printf("%s", (const char *)buffer);
    show("the same again", inst_reply(hub, buffer, told.length), hub);
    show("an empty line", answer(hub, "", &told), hub);
    printf("length %zu, %s\n", told.length, told.is_refused ? "refused" : "taken");
}

int main(void) {
    struct inst_hub hub = {0}, other = {0};
    struct inst_settings settings = INST_SETTINGS;
    struct inst_told told = {7, true};
    uint8_t byte = 0;
    show("a line without a hub", answer(&hub, line, &told), &hub);
    printf("length %zu\n", told.length);
    show("a reply without a hub", inst_reply(&hub, &byte, 1), &hub);
    show("a close without a hub", inst_close(&hub), &hub);
    refuse(&hub);
    show("a hub", open_hub(&hub, codes, &settings), &hub);
    show("another in its place", open_hub(&hub, codes, &settings), &hub);
    show("another beside it", open_hub(&other, codes, &settings), &other);
    reply(&hub);
    show("a close", inst_close(&hub), &hub);
    show("a close again", inst_close(&hub), &hub);
    show("the other hub", answer(&other, line, &told), &other);
    show("its close", inst_close(&other), &other);
    show("a hub anew", open_hub(&hub, codes, &settings), &hub);
    show("its close", inst_close(&hub), &hub);
    return 0;
}
