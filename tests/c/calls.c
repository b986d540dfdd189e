/*
 * Asks each function of the library what its header promises, and has four threads ask shares while a fifth updates.
 * The status is the number of the first call that answers wrongly, or 0. The words after the name are how many rounds of
 * four requests each thread asks, and how often rules are added and removed meanwhile.
 */
#include "dnr.h"
#include <pthread.h>
#include <stdio.h>
#include <stdlib.h>
#include <string.h>

#define TEXT(text) (const uint8_t *)(text), sizeof(text) - 1
#define WORD(text) {TEXT(text)}
enum { THREADS = 4, ROOM = 1 << 16 };

static const char rules[] = "[{\"id\":1,\"condition\":{\"urlFilter\":\"||ads.example^\"},\"action\":{\"type\":\"block\"}},"
                            "{\"id\":2,\"condition\":{\"regexFilter\":\"^https://t[0-9]+\\\\.example/\"},\"action\":{\"type\":\"block\"}}]";
#define ADS "{\"url\":\"https://ads.example/a.js\",\"type\":\"script\"}"
#define TRACKER "{\"url\":\"https://t12.example/\",\"type\":\"image\"}"
#define OTHER "{\"url\":\"https://www.example/\",\"type\":\"script\"}"
#define BLOCKED(line, count, id) "{\"line\":" line ",\"generation\":" count ",\"verdict\":\"block\",\"rule\":[\"local\",\"rules\"," id "]}\n"
#define NONE(line, count) "{\"line\":" line ",\"generation\":" count ",\"verdict\":\"none\"}\n"
#define ADD "{\"cmd\":\"dynamic\",\"extension\":\"local\",\"removeRuleIds\":[9],\"addRules\":[{\"id\":9,\"condition\":{\"urlFilter\":\"||www.example^\"},\"action\":{\"type\":\"block\"}}]}"
#define REMOVE "{\"cmd\":\"dynamic\",\"extension\":\"local\",\"removeRuleIds\":[9]}"

static uint32_t asked(dnr_engine *engine, uint32_t number, const char *line, uint8_t *out, size_t *length) {
    return dnr_ask(engine, number, (const uint8_t *)line, strlen(line), out, ROOM, length);
}

/* Whether the answer to a line is this one. */
static bool says(dnr_engine *engine, uint32_t number, const char *line, const char *answer) {
    static _Thread_local uint8_t out[ROOM];
    size_t length;
    return asked(engine, number, line, out, &length) == DNR_DONE && length == strlen(answer) && memcmp(out, answer, length) == 0;
}

static uint32_t opened(dnr_engine *engine, const uint8_t *text, size_t text_length, uint8_t *out, size_t room, size_t *length) {
    const dnr_text words[] = {WORD("match"), WORD("rules.json"), WORD("requests")};
    const dnr_file files[] = {{TEXT("rules.json"), text, text_length}};
    return dnr_open(words, 3, files, 1, engine, out, room, length);
}

/* Whether a request of this URL and type is decided so, by the rule of this ruleset and id, where the id is not 0. */
static bool decides(dnr_engine *engine, const char *url, uint32_t type, uint32_t outcome, const char *ruleset, uint32_t id, uint32_t generation) {
    static _Thread_local uint8_t out[ROOM];
    const dnr_frame frame[1] = {{TEXT(""), TEXT(""), DNR_GET, false, false}};
    const dnr_header header[1] = {{TEXT(""), TEXT("")}};
    const dnr_request request = {(const uint8_t *)url, strlen(url), TEXT(""), frame, 0, header, 0, header, 0, type, DNR_GET, 0, false, false, false, false};
    dnr_verdict verdict = {0};
    dnr_change changes[1];
    memset(changes, 0, sizeof changes);
    if (dnr_decide(engine, &request, &verdict, changes, 1, out, ROOM) != DNR_DONE) return false;
    if (verdict.outcome != outcome || verdict.generation != generation || verdict.changes || verdict.has_target) return false;
    if (!verdict.has_rule) return id == 0 && verdict.bytes == 0;
    const dnr_span at = verdict.rule.extension, set = verdict.rule.ruleset;
    return verdict.rule.id == id && at.length == 5 && memcmp(out + at.from, "local", 5) == 0 && set.length == strlen(ruleset) && memcmp(out + set.from, ruleset, set.length) == 0;
}

/* The code of a request whose type, method or tab has these numbers, or which has a frame with this URL. */
static uint32_t judged(dnr_engine *engine, const char *url, uint32_t type, uint32_t method, uint32_t tab, const char *framed, size_t room, dnr_verdict *verdict) {
    uint8_t out[64];
    dnr_change changes[1];
    memset(changes, 0, sizeof changes);
    const dnr_frame frame[1] = {{(const uint8_t *)framed, strlen(framed), TEXT(""), DNR_GET, true, false}};
    const dnr_header header[1] = {{TEXT(""), TEXT("")}};
    const dnr_request request = {(const uint8_t *)url, strlen(url), TEXT(""), frame, *framed != 0, header, 0, header, 0, type, method, tab, false, true, false, false};
    memset(out, '-', sizeof out);
    uint32_t code = dnr_decide(engine, &request, verdict, changes, 1, out, room);
    return code == DNR_DONE || out[0] == '-' ? code : 99;
}

static long count, updates;

/* Asks a share, which is a thread's own. */
static void *look_up(void *own) {
    size_t wrong = 0;
    for (long i = 0; i < count; i++) {
        wrong += !says(own, 1, ADS, BLOCKED("1", "0", "1"));
        wrong += !says(own, 2, TRACKER, BLOCKED("2", "0", "2"));
        wrong += !says(own, 3, OTHER, NONE("3", "0"));
        wrong += !decides(own, "https://ads.example/a.js", DNR_SCRIPT, DNR_BLOCK, "rules", 1, 0);
        if (i % 100 == 0) {
            dnr_engine more = {0};
            wrong += dnr_share(own, &more) != DNR_DONE || !says(&more, 3, OTHER, NONE("3", "0")) || dnr_close(&more) != DNR_DONE;
        }
    }
    return (void *)(wrong + (dnr_close(own) != DNR_DONE));
}

/* Updates its engine, which shares what is installed with the others. */
static void *update(void *own) {
    size_t wrong = 0;
    char answer[120];
    for (long i = 0; i < updates; i++) {
        snprintf(answer, sizeof answer, "{\"line\":1,\"accepted\":%ld}\n", 2 * i + 1);
        wrong += !says(own, 1, ADD, answer);
        snprintf(answer, sizeof answer, "{\"line\":1,\"generation\":%ld,\"verdict\":\"block\",\"rule\":[\"local\",\"_dynamic\",9]}\n", 2 * i + 1);
        wrong += !says(own, 1, OTHER, answer);
        snprintf(answer, sizeof answer, "{\"line\":1,\"accepted\":%ld}\n", 2 * i + 2);
        wrong += !decides(own, "https://www.example/", DNR_SCRIPT, DNR_BLOCK, "_dynamic", 9, 2 * i + 1);
        wrong += !says(own, 1, REMOVE, answer);
    }
    return (void *)wrong;
}

int main(int words, char **word) {
    count = words > 1 ? atol(word[1]) : 1000;
    updates = words > 2 ? atol(word[2]) : 20;
    dnr_engine engine = {0}, other = {0};
    dnr_verdict verdict = {0};
    uint8_t out[ROOM];
    size_t length = 7;

    /* A closed seat. */
    if (asked(&engine, 1, ADS, out, &length) != DNR_CLOSED || length != 0) return 1;
    if (judged(&engine, "https://a/", DNR_SCRIPT, DNR_GET, 0, "", 64, &verdict) != DNR_CLOSED) return 1;
    if (dnr_close(&engine) != DNR_CLOSED || dnr_share(&engine, &other) != DNR_CLOSED || other.is_open) return 2;

    /* What is not opened. */
    const dnr_text nothing[] = {WORD("prune"), WORD("rules.json")}, bad[] = {WORD("match"), WORD("\xff"), WORD("requests")};
    const dnr_file none[1] = {{TEXT("x"), TEXT("")}};
    if (dnr_open(nothing, 2, none, 0, &engine, out, ROOM, &length) != DNR_USAGE || length != 0) return 3;
    if (dnr_open(bad, 3, none, 1, &engine, out, ROOM, &length) != DNR_NO_TEXT) return 4;
    const dnr_text match[] = {WORD("match"), WORD("rules.json"), WORD("requests")};
    if (dnr_open(match, 3, none, 1, &engine, out, ROOM, &length) != DNR_NO_FILE) return 5;
    const char refused[] = "{\"file\":\"rules.json\",\"refused\":\"bad-json\"}\n";
    memset(out, '-', ROOM);
    if (opened(&engine, TEXT("["), out, ROOM, &length) != DNR_REFUSED || length != strlen(refused) || memcmp(out, refused, length)) return 6;
    if (opened(&engine, TEXT("["), out, length - 1, &length) != DNR_REFUSED || length != strlen(refused)) return 7;
    if (engine.is_open) return 8;

    /* An open one. */
    if (opened(&engine, (const uint8_t *)rules, sizeof rules - 1, out, ROOM, &length) != DNR_DONE || !engine.is_open) return 9;
    if (opened(&engine, TEXT("[]"), out, ROOM, &length) != DNR_OPEN) return 10;
    if (!says(&engine, 1, ADS, BLOCKED("1", "0", "1")) || !says(&engine, 2, TRACKER, BLOCKED("2", "0", "2"))) return 11;
    if (!says(&engine, 3, OTHER, NONE("3", "0")) || !says(&engine, 4, "", "") || !says(&engine, 5, "{\"cmd\":\"sync\"}", "{\"line\":5,\"sync\":0}\n")) return 12;
    if (!says(&engine, 6, "[", "{\"line\":6,\"bad\":\"json\"}\n")) return 13;

    /* Requests by their parts: what is decided, what takes more room, and which part is at fault. */
    const char ads[] = "https://ads.example/a.js", plain[] = "https://www.example/";
    if (!decides(&engine, ads, DNR_SCRIPT, DNR_BLOCK, "rules", 1, 0) || !decides(&engine, "https://t12.example/", DNR_IMAGE, DNR_BLOCK, "rules", 2, 0)) return 27;
    if (!decides(&engine, plain, DNR_SCRIPT, DNR_NONE, "", 0, 0) || !decides(&engine, ads, DNR_MAIN_FRAME, DNR_NONE, "", 0, 0)) return 28;
    if (judged(&engine, ads, DNR_SCRIPT, DNR_GET, 0, "", 9, &verdict) != DNR_NO_ROOM || verdict.bytes != 10 || verdict.changes != 0) return 29;
    if (judged(&engine, ads, DNR_SCRIPT, DNR_GET, 0, "", 10, &verdict) != DNR_DONE || judged(&engine, plain, DNR_SCRIPT, DNR_GET, 0, "", 0, &verdict) != DNR_DONE) return 30;
    if (judged(&engine, "about:blank", 15, 9, 1u << 31, "x", 64, &verdict) != DNR_BAD_URL || judged(&engine, "\xff", 15, 9, 1u << 31, "x", 64, &verdict) != DNR_BAD_URL) return 31;
    if (judged(&engine, ads, 15, 9, 1u << 31, "x", 64, &verdict) != DNR_BAD_TYPE || judged(&engine, ads, 14, 9, 1u << 31, "x", 64, &verdict) != DNR_BAD_METHOD) return 32;
    if (judged(&engine, ads, 14, 8, 1u << 31, "x", 64, &verdict) != DNR_BAD_TAB || judged(&engine, ads, 14, 8, 2147483647, "x", 64, &verdict) != DNR_BAD_FRAMES) return 33;
    if (judged(&engine, ads, 14, 8, 2147483647, "http://a/", 64, &verdict) != DNR_DONE) return 34;

    /* Without room nothing happens, an update neither. */
    const char accepted[] = "{\"line\":1,\"accepted\":1}\n";
    memset(out, '-', ROOM);
    if (dnr_ask(&engine, 1, TEXT(ADD), out, sizeof accepted - 2, &length) != DNR_NO_ROOM || length != sizeof accepted - 1) return 14;
    if (out[0] != '-' || !says(&engine, 3, OTHER, NONE("3", "0"))) return 15;

    /* A refused update changes nothing. */
    if (!says(&engine, 1, "{\"cmd\":\"dynamic\",\"extension\":\"none\",\"removeRuleIds\":[1]}", "{\"line\":1,\"refused\":\"no-extension\",\"extension\":\"none\"}\n")) return 16;
    if (!says(&engine, 3, OTHER, NONE("3", "0"))) return 17;

    /* Of updates that are applied together none is where one is refused. */
    const char batch[] = "{\"cmd\":\"batch\",\"updates\":[" ADD ",{\"cmd\":\"uninstall\",\"extension\":\"none\"}]}";
    if (asked(&engine, 1, batch, out, &length) != DNR_DONE || length < 20 || memcmp(out, "{\"line\":1,\"refused\"", 19)) return 35;
    if (!says(&engine, 3, OTHER, NONE("3", "0")) || !says(&engine, 5, "{\"cmd\":\"sync\"}", "{\"line\":5,\"sync\":0}\n")) return 36;

    /* Shares, in threads of their own with the least stack that the header asks for, while the first is updated. */
    pthread_t threads[THREADS], updater;
    pthread_attr_t small;
    if (pthread_attr_init(&small)) return 37;
#ifndef __SANITIZE_THREAD__ /* (which takes much of a stack for itself) */
    if (pthread_attr_setstacksize(&small, 1 << 20)) return 37;
#endif
    dnr_engine own[THREADS] = {{0}};
    for (int i = 0; i < THREADS; i++)
        if (dnr_share(&engine, &own[i]) != DNR_DONE || dnr_share(&engine, &own[i]) != DNR_OPEN || pthread_create(&threads[i], &small, look_up, &own[i])) return 18;
    if (pthread_create(&updater, &small, update, &engine)) return 19;
    size_t wrong = 0;
    for (int i = 0; i <= THREADS; i++) {
        void *one;
        if (pthread_join(i < THREADS ? threads[i] : updater, &one)) return 20;
        wrong += (size_t)one;
    }
    if (wrong) return fprintf(stderr, "%zu answers of threads are wrong\n", wrong), 21;

    /* A share goes on from the state as it stood, and sees no later update. */
    long accepted_count = 2 * updates;
    char then[120], now[120];
    snprintf(then, sizeof then, "{\"line\":1,\"generation\":%ld,\"verdict\":\"block\",\"rule\":[\"local\",\"rules\",1]}\n", accepted_count);
    snprintf(now, sizeof now, "{\"line\":1,\"accepted\":%ld}\n", accepted_count + 1);
    if (dnr_share(&engine, &other) != DNR_DONE || !says(&engine, 1, "{\"cmd\":\"uninstall\",\"extension\":\"local\"}", now)) return 22;
    snprintf(now, sizeof now, "{\"line\":1,\"generation\":%ld,\"verdict\":\"none\"}\n", accepted_count + 1);
    if (!says(&other, 1, ADS, then) || !says(&engine, 1, ADS, now)) return 23;
    if (dnr_close(&engine) != DNR_DONE || dnr_close(&engine) != DNR_CLOSED || engine.is_open) return 24;
    if (!says(&other, 1, ADS, then) || dnr_close(&other) != DNR_DONE) return 25;
    if (opened(&engine, TEXT("[]"), out, ROOM, &length) != DNR_DONE || dnr_close(&engine) != DNR_DONE) return 26;
    puts("all calls answered as the header says");
    return 0;
}
