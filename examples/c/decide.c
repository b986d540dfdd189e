/*
 * Says what becomes of one request by a rules file. The request is given by its parts, as a browser has it.
 *
 *     cc -Iout examples/c/decide.c out/libdnr.a -o decide
 *     ./decide examples/rules.json http://old.example/
 *
 * prints `upgrade by local rules 14 to https://old.example/`, and each header change in a line of its own.
 */
#include "dnr.h"
#include <stdio.h>
#include <string.h>

#define TEXT(text) (const uint8_t *)(text), strlen(text)
enum { ROOM = 1 << 16, MOST = 64 };

static const char *const outcomes[] = {"none", "block", "redirect", "upgrade", "allow"};
static const char *const operations[] = {"append", "set", "remove"};
static uint8_t bytes[1 << 22], out[ROOM];
static dnr_change changes[MOST];

/* The text at a place of `out`, without a zero byte at its end, for printf's %.*s. */
static const char *at(dnr_span span) { return (const char *)out + span.from; }

int main(int count, char **words) {
    if (count != 3 && count != 4) return fputs("usage: decide RULES URL [PAGE]\n", stderr), 2;
    FILE *file = fopen(words[1], "rb");
    if (!file) return perror(words[1]), 1;
    size_t length = fread(bytes, 1, sizeof bytes, file);
    fclose(file);

    const dnr_text match[] = {{TEXT("match")}, {TEXT("rules")}, {TEXT("requests")}};
    const dnr_file files[] = {{TEXT("rules"), bytes, length}};
    dnr_engine engine = {0};
    uint32_t code = dnr_open(match, 3, files, 1, &engine, out, ROOM, &length);
    if (code != DNR_DONE) return fprintf(stderr, "the engine is not opened: code %u\n", code), 1;

    /* What the request has not got stays 0, but a pointer leads somewhere. */
    const dnr_frame no_frames[1] = {{TEXT(""), TEXT(""), DNR_GET, false, false}};
    const dnr_header no_headers[1] = {{TEXT(""), TEXT("")}};
    dnr_request request = {TEXT(words[2]), TEXT(count == 4 ? words[3] : ""), no_frames, 0, no_headers, 0, no_headers, 0, DNR_MAIN_FRAME, DNR_GET, 0, false, false, false, false};
    if (count == 4) request.has_initiator = true, request.type = DNR_SCRIPT;

    dnr_verdict verdict;
    memset(&verdict, 0, sizeof verdict);
    code = dnr_decide(&engine, &request, &verdict, changes, MOST, out, ROOM);
    if (code != DNR_DONE) return fprintf(stderr, "the request is not decided: code %u\n", code), 1;
    printf("%s", outcomes[verdict.outcome]);
    if (verdict.has_rule) printf(" by %.*s %.*s %u", (int)verdict.rule.extension.length, at(verdict.rule.extension), (int)verdict.rule.ruleset.length, at(verdict.rule.ruleset), verdict.rule.id);
    if (verdict.has_target) printf(" to %.*s", (int)verdict.target.length, at(verdict.target));
    puts("");
    for (size_t i = 0; i < verdict.changes; i++) {
        printf("%s %s %.*s", changes[i].direction == DNR_REQUEST ? "request" : "response", operations[changes[i].operation], (int)changes[i].name.length, at(changes[i].name));
        if (changes[i].has_value) printf(": %.*s", (int)changes[i].value.length, at(changes[i].value));
        puts("");
    }
    dnr_close(&engine);
    return 0;
}
