/*
 * Each allocation fails in turn: what a call then answers, that nothing has happened, and that no block is lost. The heap of
 * the archive is written anew here, over malloc; linked in place of the toolchain's.
 */
#include "dnr.h"
#include <stdio.h>
#include <stdlib.h>
#include <string.h>

/* What the heap's functions are to C: whether there is a block, and the block. */
struct tried {
    bool ok;
    void *at;
};
static long left = -1, live;
static char none;

static bool fails(void) { return left >= 0 && left-- == 0; }

struct tried rattle_alloc(size_t size, size_t align) {
    void *at = fails() ? NULL : malloc(size ? size : align);
    live += at != NULL;
    return at ? (struct tried){true, at} : (struct tried){false, &none};
}
struct tried rattle_realloc(void *block, size_t kept, size_t size, size_t align) {
    (void)kept;
    void *at = fails() ? NULL : realloc(block, size ? size : align);
    return at ? (struct tried){true, at} : (struct tried){false, &none};
}
void rattle_dealloc(void *block) {
    live--;
    free(block);
}

#define TEXT(text) (const uint8_t *)(text), sizeof(text) - 1
static const char rules[] = "[{\"id\":1,\"condition\":{\"urlFilter\":\"||ads.example^\"},\"action\":{\"type\":\"block\"}},"
                            "{\"id\":2,\"condition\":{\"regexFilter\":\"^https://t[0-9]+\\\\.example/\"},\"action\":{\"type\":\"block\"}}]";
static const char asks[] = "{\"url\":\"https://t12.example/\",\"type\":\"script\"}";
static const char adds[] = "{\"cmd\":\"dynamic\",\"extension\":\"local\",\"addRules\":[{\"id\":9,\"condition\":{},\"action\":{\"type\":\"allow\"},\"priority\":2}]}";
static const char blocked[] = "{\"line\":1,\"generation\":0,\"verdict\":\"block\",\"rule\":[\"local\",\"rules\",2]}\n";
static const char allowed[] = "{\"line\":1,\"generation\":1,\"verdict\":\"allow\",\"rule\":[\"local\",\"_dynamic\",9]}\n";
static uint8_t out[4096];
static size_t length;

static uint32_t ask(dnr_engine *engine, const char *line) { return dnr_ask(engine, 1, (const uint8_t *)line, strlen(line), out, sizeof out, &length); }

/* Whether the request of `asks` is blocked by rule 2, given by its parts. */
static uint32_t decides(dnr_engine *engine) {
    const dnr_frame frame[1] = {{TEXT(""), TEXT(""), DNR_GET, false, false}};
    const dnr_header header[1] = {{TEXT(""), TEXT("")}}, given[1] = {{TEXT("Cookie"), TEXT("a=1")}};
    const dnr_request request = {TEXT("https://t12.example/"), TEXT("https://page.example"), frame, 0, given, 1, header, 0, DNR_SCRIPT, DNR_GET, 0, true, false, true, false};
    dnr_verdict verdict;
    dnr_change changes[1];
    memset(&verdict, 0, sizeof verdict);
    memset(changes, 0, sizeof changes);
    uint32_t code = dnr_decide(engine, &request, &verdict, changes, 1, out, sizeof out);
    return code != DNR_DONE || (verdict.outcome == DNR_BLOCK && verdict.rule.id == 2 && memcmp(out, "localrules", 10) == 0) ? code : 99;
}

static bool answers(dnr_engine *engine, const char *answer) {
    left = -1;
    return ask(engine, asks) == DNR_DONE && length == strlen(answer) && memcmp(out, answer, length) == 0;
}

static uint32_t opens(dnr_engine *engine) {
    const dnr_text words[] = {{TEXT("match")}, {TEXT("rules.json")}, {TEXT("requests")}};
    const dnr_file files[] = {{TEXT("rules.json"), (const uint8_t *)rules, sizeof rules - 1}};
    return dnr_open(words, 3, files, 1, engine, out, sizeof out, &length);
}

/*
 * Has a call fail at its allocation of each number, from the first on, until none fails: then it answers DNR_NO_MEMORY and what
 * is to stay stays, or it does without, and is undone for the next time. Counts the failures.
 */
#define EACH(call, stays, undo)                             \
    for (long number = 0;; number++) {                      \
        left = number;                                      \
        uint32_t code = (call);                             \
        bool failed = left < 0;                             \
        left = -1;                                          \
        if (code == DNR_DONE && !failed) break;             \
        if (code == DNR_DONE) {                             \
            undo;                                           \
        } else if (code != DNR_NO_MEMORY || !(stays)) {     \
            return __LINE__ % 200 + 50;                     \
        }                                                   \
        failures++;                                         \
    }

int main(void) {
    long failures = 0;
    dnr_engine engine = {0}, other = {0};
    EACH(opens(&engine), !engine.is_open && live == 0, dnr_close(&engine));
    EACH(ask(&engine, asks), engine.is_open, (void)0);
    if (!answers(&engine, blocked)) return 1;
    EACH(decides(&engine), engine.is_open, (void)0);
    if (!answers(&engine, blocked)) return 5;
    EACH(dnr_share(&engine, &other), !other.is_open && answers(&engine, blocked), dnr_close(&other));
    EACH(ask(&engine, adds), answers(&engine, blocked), (dnr_close(&engine), dnr_share(&other, &engine)));
    if (!answers(&engine, allowed) || !answers(&other, blocked)) return 2;
    if (dnr_close(&engine) != DNR_DONE || !answers(&other, blocked) || dnr_close(&other) != DNR_DONE) return 3;
    if (live != 0) return fprintf(stderr, "%ld blocks are lost\n", live), 4;
    printf("%ld allocations failed, and nothing was lost\n", failures);
    return failures < 20;
}
