/*
 * Answers request lines by a rules file, as `dnr match RULES REQUESTS` does.
 *
 *     cc -Iinclude examples/c/match.c out/libdnr.a -o match
 *     ./match examples/rules.json examples/requests.jsonl
 */
#include "dnr.h"
#include <stdio.h>
#include <stdlib.h>
#include <string.h>

#define WORD(text) {(const uint8_t *)(text), sizeof(text) - 1}

/* All bytes of a file; the block is one byte longer. */
static uint8_t *read_file(const char *name, size_t *length) {
    FILE *file = fopen(name, "rb");
    uint8_t *bytes = malloc(1);
    size_t got = 0;
    *length = 0;
    while (file && bytes && (bytes = realloc(bytes, *length + 65537)) && (got = fread(bytes + *length, 1, 65536, file)) > 0) *length += got;
    if (!file || !bytes || ferror(file)) {
        perror(name);
        exit(1);
    }
    fclose(file);
    return bytes;
}

int main(int count, char **names) {
    if (count != 3) return fputs("usage: match RULES REQUESTS\n", stderr), 2;
    size_t rules_length, script_length, length, room = 1 << 20;
    uint8_t *rules = read_file(names[1], &rules_length), *script = read_file(names[2], &script_length), *out = malloc(room);
    if (!out) return 1;

    /* The files are in memory, so their names are our own. */
    const dnr_text words[] = {WORD("match"), WORD("rules.json"), WORD("requests")};
    const dnr_file files[] = {{(const uint8_t *)"rules.json", 10, rules, rules_length}};
    dnr_engine engine = {0};
    uint32_t code = dnr_open(words, 3, files, 1, &engine, out, room, &length);
    free(rules);
    if (code != DNR_DONE) {
        if (code == DNR_REFUSED && length <= room) fwrite(out, 1, length, stdout);
        else fprintf(stderr, "the engine is not opened: code %u\n", code);
        return 1;
    }

    uint32_t number = 0;
    for (uint8_t *line = script, *end = script + script_length; line < end;) {
        uint8_t *stop = memchr(line, '\n', end - line);
        size_t line_length = (stop ? stop : end) - line;
        if (stop && line_length && line[line_length - 1] == '\r') line_length--;
        code = dnr_ask(&engine, ++number, line, line_length, out, room, &length);
        if (code == DNR_NO_ROOM && (out = realloc(out, room = length))) code = dnr_ask(&engine, number, line, line_length, out, room, &length);
        if (code != DNR_DONE) return fprintf(stderr, "line %u: code %u\n", number, code), 1;
        fwrite(out, 1, length, stdout);
        line = stop ? stop + 1 : end;
    }
    dnr_close(&engine);
    free(script);
    free(out);
    return 0;
}
