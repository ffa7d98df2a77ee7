/*
 * The checking entry on a full table: events RECORDS KIND COUNT [CALLS], with KIND `well-formed`, `tick`, `read` or `message`.
 * A table of so many calls, each ringing; then COUNT times the thing named, on each call in turn.
 * Where CALLS is given, the Call-IDs are those of somebody who means harm, built of the blocks `Aa` and `BB`, so that all share the
 * mark by which doubles are found: `short` of 16 letters; `early` of 64, the first 16 of which differ; `late` of 64, the last 16 of
 * which differ; `full` as `late`, with user and Fire-IDs of full length. The things named are then done on the last call.
 */
#include <stdio.h>
#include <stdlib.h>
#include <string.h>

#include "net119.h"

static uint8_t table[NET119_TABLE_LENGTH(NET119_MOST_RECORDS)];
static char message[NET119_LONGEST];
static char call[65];

/* How the calls are named: as usual, or by so many blocks, of which the eight from `first` on differ; with full texts beside. */
static int usual = 1, full = 0;
static size_t blocks, first;

/* A call's Call-ID, in `call`: of 36 bytes where it is a usual one. */
static void name(size_t number) {
    if (usual) {
        snprintf(call, sizeof call, "%08zx-1190-4119-9119-%012zu", number * 2654435761u % 4294967296u, number);
        return;
    }
    for (size_t i = 0; i < blocks; i++) {
        int other = first <= i && i < first + 8 && (number >> (i - first) & 1);
        memcpy(call + 2 * i, other ? "BB" : "Aa", 2);
    }
    call[2 * blocks] = 0;
}

/* A call's message, in `message`. */
static size_t make(size_t number, const char *tag, const char *more) {
    name(number);
    return (size_t)snprintf(
        message, sizeof message,
        "[\"%s\",{%s,\"To\":\"net119:fire@%s.callee\",\"From\":\"net119:%s@%s.caller\",\"Call-ID\":\"%s\","
        "\"Date\":\"2024-02-29T23:59:59+0900\","
        "\"Via\":[{\"host\":\"relay1.net119.example.jp\",\"destination\":\"kita.callee\",\"organization\":\"nx\"}]}]",
        tag, more, full ? "k_____________k" : "kita", full ? "uuuuuuuuuuuuuuu" : "u1", full ? "n_____________n" : "nishi", call);
}

int main(int count, char **words) {
    size_t records = count >= 4 ? strtoul(words[1], NULL, 10) : 0;
    size_t length = NET119_TABLE_LENGTH(records), wanted = count >= 4 ? strtoul(words[3], NULL, 10) : 0, good = 0;
    if (count == 5) {
        usual = 0;
        full = strcmp(words[4], "full") == 0;
        blocks = strcmp(words[4], "short") == 0 ? 8 : 32;
        first = strcmp(words[4], "early") == 0 ? 0 : blocks - 8;
    }
    if (records > NET119_MOST_RECORDS || net119_blank(table, length, records) != NET119_OK) return 2;
    for (size_t i = 0; i < records; i++) {
        size_t bytes = make(i, "request",
                            "\"CSeq\":\"1 INVITE\",\"Session-ID\":\"S1\",\"Call-Mode\":\"emergency\",\"Call-Test\":0,\"Secure-Call\":true,"
                            "\"Rescuee\":\"caller\",\"Request-Service\":\"fire\",\"Language\":\"ja\",\"Locations\":[],"
                            "\"User-Agent\":\"\",\"Caller\":{\"region\":\"nishi\",\"uid\":\"u1\",\"email\":\"u1@mail.nx\","
                            "\"last-modified\":\"2024-02-29T09:00:00+0900\",\"personal-information\":{\"name\":\"A\",\"address\":\"B\","
                            "\"sex\":\"male\",\"birthday\":\"1982-01-19\",\"location\":{\"latitude\":35.66,\"longitude\":139.75}},"
                            "\"region-information\":{\"name\":\"Nishi\",\"tel\":\"119\"}}");
        if (net119_message(table, length, 1000, (const uint8_t *)message, bytes).number != NET119_OK) return 3;
    }
    for (size_t i = 0; i < wanted; i++) {
        size_t bytes = make(usual ? i % records : records - 1, "response", "\"Status\":\"180 Ringing\",\"CSeq\":\"1 INVITE\"");
        const uint8_t *text = (const uint8_t *)message;
        switch (words[2][0]) {
        case 'w': good += net119_well_formed(table, length); break;
        case 't': good += net119_tick(table, length, 2000, (const uint8_t *)call, strlen(call)).number == NET119_OK; break;
        case 'r': good += net119_read(text, bytes).number == NET119_OK; break;
        case 'm': good += net119_message(table, length, 2000, text, bytes).number == NET119_OK; break;
        default: good++;
        }
    }
    printf("%zu\n", good);
    return good != wanted;
}
