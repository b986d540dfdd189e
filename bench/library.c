/*
 * Decides requests by the library for C: library ask|decide|print RULES REQUESTS ROUNDS
 *
 * `ask` answers the lines as they stand, by dnr_ask, and writes the answers. `decide` reads the lines first, of which each is
 * {"url":U,"type":T,"initiator":I,"method":M} and the texts have no escapes, and has dnr_decide decide them by their parts; it
 * writes nothing. `print` does the same and writes the lines that `dnr match` writes. Each goes over the requests so often; with
 * 0 rounds they are read alone.
 */
#define _GNU_SOURCE
#include "dnr.h"
#include <stdio.h>
#include <stdlib.h>
#include <string.h>

enum { ROOM = 1 << 16, MOST = 64 };
#define WORD(text) {(const uint8_t *)(text), sizeof(text) - 1}
#define FIELD(line, stop, name, length) field(line, stop, name, sizeof(name) - 1, length)

static const char *const types[] = {"main_frame", "sub_frame", "stylesheet", "script", "image", "font", "object", "xmlhttprequest", "ping", "csp_report", "media", "websocket", "webtransport", "webbundle", "other"};
static const char *const methods[] = {"connect", "delete", "get", "head", "options", "patch", "post", "put", "other"};
static const char *const outcomes[] = {"none", "block", "redirect", "upgrade", "allow"};
static const dnr_frame no_frames[1] = {{(const uint8_t *)"", 0, (const uint8_t *)"", 0, 0, false, false}};
static const dnr_header no_headers[1] = {{(const uint8_t *)"", 0, (const uint8_t *)"", 0}};

static void fail(const char *what) {
    fprintf(stderr, "bench/library.c: %s\n", what);
    exit(1);
}

static char *read_file(const char *name, size_t *length) {
    FILE *file = fopen(name, "rb");
    if (!file || fseek(file, 0, SEEK_END)) fail(name);
    *length = (size_t)ftell(file);
    rewind(file);
    char *bytes = malloc(*length + 1);
    if (!bytes || fread(bytes, 1, *length, file) != *length) fail(name);
    fclose(file);
    return bytes;
}

/* The text of a field of a line, behind its key. */
static const char *field(const char *line, const char *stop, const char *key, size_t key_length, size_t *length) {
    const char *at = memmem(line, (size_t)(stop - line), key, key_length);
    if (!at) fail("a line lacks a field");
    at += key_length;
    *length = (size_t)((const char *)memchr(at, '"', (size_t)(stop - at)) - at);
    return at;
}

/* The place of a word in a list. */
static uint32_t place_of(const char *const *words, uint32_t count, const char *word, size_t length) {
    for (uint32_t i = 0; i < count; i++)
        if (strlen(words[i]) == length && memcmp(words[i], word, length) == 0) return i;
    fail("a word is none of its list");
    return 0;
}

static dnr_request request_of(const char *line, const char *stop) {
    dnr_request request;
    size_t length;
    memset(&request, 0, sizeof request);
    request.frames = no_frames;
    request.request_headers = request.response_headers = no_headers;
    request.url = (const uint8_t *)FIELD(line, stop, "\"url\":\"", &request.url_length);
    request.initiator = (const uint8_t *)FIELD(line, stop, "\"initiator\":\"", &request.initiator_length);
    request.has_initiator = true;
    const char *type = FIELD(line, stop, "\"type\":\"", &length);
    request.type = place_of(types, 15, type, length);
    const char *method = FIELD(line, stop, "\"method\":\"", &length);
    request.method = place_of(methods, 9, method, length);
    return request;
}

int main(int count, char **words) {
    if (count != 5) fail("usage: library ask|decide|print RULES REQUESTS ROUNDS");
    const bool asks = !strcmp(words[1], "ask"), prints = !strcmp(words[1], "print");
    const long rounds = atol(words[4]);
    size_t rules_length, length, script_length, lines = 0;
    char *rules = read_file(words[2], &rules_length), *script = read_file(words[3], &script_length);
    const dnr_text given[] = {WORD("match"), WORD("rules.json"), WORD("requests")};
    const dnr_file files[] = {{(const uint8_t *)"rules.json", 10, (const uint8_t *)rules, rules_length}};
    static uint8_t out[ROOM];
    dnr_engine engine = {0};
    if (dnr_open(given, 3, files, 1, &engine, out, ROOM, &length) != DNR_DONE) fail("the engine is not opened");
    free(rules);

    for (size_t i = 0; i < script_length; i++) lines += script[i] == '\n';
    const char **starts = malloc((lines + 1) * sizeof *starts);
    dnr_request *requests = malloc((lines + 1) * sizeof *requests);
    if (!starts || !requests) fail("no memory");
    starts[0] = script;
    for (size_t i = 0; i < lines; i++) {
        const char *stop = memchr(starts[i], '\n', script_length - (size_t)(starts[i] - script));
        starts[i + 1] = stop + 1;
        if (!asks) requests[i] = request_of(starts[i], stop);
    }

    static dnr_change changes[MOST];
    dnr_verdict verdict;
    memset(&verdict, 0, sizeof verdict);
    size_t decided = 0;
    for (long round = 0; round < rounds; round++)
        for (size_t i = 0; i < lines; i++) {
            if (asks) {
                if (dnr_ask(&engine, (uint32_t)i + 1, (const uint8_t *)starts[i], (size_t)(starts[i + 1] - starts[i]) - 1, out, ROOM, &length) != DNR_DONE) fail("a line is not answered");
                fwrite(out, 1, length, stdout);
                continue;
            }
            if (dnr_decide(&engine, &requests[i], &verdict, changes, MOST, out, ROOM) != DNR_DONE) fail("a request is not decided");
            decided += verdict.outcome;
            if (!prints) continue;
            printf("{\"line\":%zu,\"generation\":%u,\"verdict\":\"%s\"", i + 1, verdict.generation, outcomes[verdict.outcome]);
            const dnr_span at = verdict.rule.extension, set = verdict.rule.ruleset;
            if (verdict.has_rule) printf(",\"rule\":[\"%.*s\",\"%.*s\",%u]", (int)at.length, out + at.from, (int)set.length, out + set.from, verdict.rule.id);
            printf("}\n");
        }
    dnr_close(&engine);
    free(starts), free(requests), free(script);
    return decided == 1u << 31;
}
