/*
 * Three calls taken through libnet119.a, as a relay does: build with
 *   tools/staticlib net119 && cc -Iinclude -o relay examples/relay.c target/staticlib/libnet119.a
 * A line is printed for each step. What each step must answer stands beside it; a difference is printed, and the exit is then 1.
 */
#include <stdio.h>
#include <string.h>

#include "net119.h"

#define BYTES(text) (const uint8_t *)(text), strlen(text)
#define DATE "2024-02-29T23:59:59+0900"
#define CALLS 2

/* Our own Via entry. */
#define OUR_PATH BYTES("relay.nx"), BYTES("kita.callee"), BYTES("nx")

static const char *const words[] = {"refused", "pass", "repeat", "bye", "timeout", "idle", "freed", "none"};
static const char *const invite_fields =
    ",\"Session-ID\":\"S1.nx\",\"Call-Mode\":\"emergency\",\"Call-Test\":0,\"Secure-Call\":true,\"Rescuee\":\"caller\","
    "\"Request-Service\":\"ambulance\",\"Language\":\"ja\",\"Locations\":[],\"User-Agent\":\"\",\"Caller\":{"
    "\"region\":\"nishi\",\"uid\":\"u1\",\"email\":\"u1@mail.nx\",\"last-modified\":\"" DATE "\",\"personal-information\":{"
    "\"name\":\"A\",\"address\":\"B\",\"sex\":\"male\",\"birthday\":\"1982-01-19\",\"location\":{\"latitude\":35.66,\"longitude\":139.75}},"
    "\"region-information\":{\"name\":\"Nishi\",\"tel\":\"119\"}}";
static const char *const chat_fields =
    ",\"Message-ID\":\"caller-nishi-1\",\"Content-Type\":\"text\\/plain\",\"Body\":\"My father has collapsed.\"";

static char message[NET119_LONGEST + 1];
static int differences;

/* What is sent: a relay has its lines for it, and here it is noted. */
enum sending { NOTHING, PASSED_ON, SENT_BACK, BYE_SENT };
static const char *const sendings[] = {"nothing", "passed on", "sent back", "a BYE"};
static enum sending sent_as;
static const uint8_t *sent;
static size_t sent_length;

static void note(enum sending as, const uint8_t *bytes, size_t length) {
    sent_as = as;
    sent = bytes;
    sent_length = length;
}

static void pass_on(const uint8_t *bytes, size_t length) { note(PASSED_ON, bytes, length); }
static void send_back(const uint8_t *bytes, size_t length) { note(SENT_BACK, bytes, length); }
static void send_bye(const uint8_t *bytes, size_t length) { note(BYE_SENT, bytes, length); }

/* README.md shows the lines from here */
static uint8_t table[NET119_TABLE_LENGTH(CALLS)], out[NET119_LONGEST];

/* Once, before the first message. */
static bool start(void) { return net119_blank(table, sizeof table, CALLS) == NET119_OK; }

/* Each message that comes in. */
static net119_event_answer heard(uint64_t milliseconds, const uint8_t *bytes, size_t length, const char *date) {
    net119_event_answer a = net119_message(table, sizeof table, milliseconds, bytes, length);
    net119_write_answer w;
    switch (a.word) {
    case NET119_PASS: /* a request goes on with our Via entry, net119_add; a response without it, net119_remove */
        pass_on(bytes, length);
        break;
    case NET119_REPEAT: /* heard before: nothing changes */
        break;
    case NET119_BYE: /* the desk took a call that is over: it is due a BYE */
        send_bye(bytes, length);
        break;
    default: /* refused by a.number; the sender may be due a reply */
        if (a.reply != 0) {
            w = net119_reply(out, sizeof out, bytes, length, a.reply, (const uint8_t *)date, 24);
            if (w.number == NET119_OK) { /* else it cannot be written: 39, it would be too long */
                send_back(out, w.length);
            }
        }
    }
    return a;
}
/* to here. */

/* Prints a step, and notes whether it went as it must. */
static void step(const char *what, const char *answer, bool right) {
    printf("%-52s %s%s\n", what, answer, right ? "" : "   <- DIFFERENT");
    differences += !right;
}

static void check(const char *what, bool right) { step(what, right ? "yes" : "no", right); }

/* Makes a request of the caller, or the response to one, in `message`. The caller's server spells its host with an escape, as an encoder may. */
static void make(const char *tag, const char *call, const char *cseq, const char *more) {
    snprintf(message, sizeof message,
             "[\"%s\",{\"CSeq\":\"%s\",\"To\":\"net119:fire@kita.callee\",\"From\":\"net119:u1@nishi.caller\",\"Call-ID\":\"%s\","
             "\"Date\":\"" DATE "\",\"Via\":[{\"host\":\"h1\\u002enx\",\"destination\":\"kita.callee\",\"organization\":\"nx\"}]%s}]",
             tag, cseq, call, more);
}

/* Makes `message` as long as a message may be, by spaces in its Via, which a reply copies. */
static void widen(void) {
    char *inside = strstr(message, "\"Via\":[") + strlen("\"Via\":[");
    size_t length = strlen(message), more = NET119_LONGEST - length;
    memmove(inside + more, inside, length + 1 - (size_t)(inside - message));
    memset(inside, ' ', more);
}

/* Where a text begins in `message`. */
static size_t place_of(const char *text) { return (size_t)(strstr(message, text) - message); }

/* An answer as it must be. */
static net119_event_answer accepted(uint8_t word, uint8_t state) {
    net119_event_answer a = {NET119_OK, word, state, 0, 0};
    return a;
}

static net119_event_answer refused(uint8_t number, uint16_t reply, size_t place) {
    net119_event_answer a = {number, 0, NET119_NO_STATE, reply, place};
    return a;
}

static void event(const char *what, net119_event_answer a, net119_event_answer due) {
    char answer[96];
    if (a.number == NET119_OK) {
        snprintf(answer, sizeof answer, "%s %u", words[a.word], a.state);
    } else {
        snprintf(answer, sizeof answer, "refused %u, due %u, place %zu", a.number, a.reply, a.place);
    }
    step(what, answer, a.number == due.number && a.word == due.word && a.state == due.state && a.reply == due.reply && a.place == due.place);
}

/* Hands bytes to the keeper, and sees that what is sent is what must be. */
static void hands(const char *what, uint64_t time, const uint8_t *bytes, size_t length, net119_event_answer due, enum sending as) {
    sent_as = NOTHING;
    event(what, heard(time, bytes, length, DATE), due);
    if (sent_as != as) {
        step("  what is sent", sendings[sent_as], false);
    }
}

static void passes(const char *what, uint64_t time, uint8_t state) {
    hands(what, time, BYTES(message), accepted(NET119_PASS, state), PASSED_ON);
}

static net119_event_answer ticked(uint64_t time, const char *call) { return net119_tick(table, sizeof table, time, BYTES(call)); }

static void wrote(const char *what, unsigned number, size_t length) {
    char answer[64];
    if (number == NET119_OK) {
        snprintf(answer, sizeof answer, "%zu bytes", length);
    } else {
        snprintf(answer, sizeof answer, "refused %u", number);
    }
    step(what, answer, number == NET119_OK);
}

/* Two calls come in and ring; a third finds no room. */
static void two_calls_ring(void) {
    make("request", "A1.nx", "1 INVITE", invite_fields);
    passes("INVITE of A1", 1000, NET119_CALLING);
    make("request", "B2.nx", "1 INVITE", invite_fields);
    passes("INVITE of B2", 1500, NET119_CALLING);
    make("request", "C3.nx", "1 INVITE", invite_fields);
    hands("INVITE of C3, on a table for two", 1600, BYTES(message), refused(NET119_FULL_TABLE, 486, 0), SENT_BACK);
    check("  the 486 that it is due is read", sent == out && net119_read(sent, sent_length).number == NET119_OK);
    make("response", "A1.nx", "1 INVITE", ",\"Status\":\"180 Ringing\"");
    passes("180 to A1", 2000, NET119_RINGING);
    make("response", "B2.nx", "1 INVITE", ",\"Status\":\"180 Ringing\"");
    passes("180 to B2", 2500, NET119_RINGING);
}

/* A1's caller writes; the request goes on with our Via entry, and its reply comes back and goes on without it. */
static void chat(void) {
    static uint8_t forwarded[NET119_LONGEST], answer[NET119_LONGEST], direct[NET119_LONGEST], back[NET119_LONGEST], host[253];
    net119_write_answer f, r, d, h;
    net119_remove_answer b;
    make("request", "A1.nx", "2 MESSAGE", chat_fields);
    passes("MESSAGE of A1", 5000, NET119_TALKING);
    f = net119_add(forwarded, sizeof forwarded, BYTES(message), OUR_PATH);
    wrote("  with our Via entry", f.number, f.length);
    hands("  the same message once more", 5100, BYTES(message), accepted(NET119_REPEAT, NET119_TALKING), NOTHING);
    r = net119_reply(answer, sizeof answer, forwarded, f.length, 200, BYTES(DATE));
    wrote("  the desk's reply to it", r.number, r.length);
    hands("  the reply, heard", 5200, answer, r.length, accepted(NET119_PASS, NET119_TALKING), PASSED_ON);
    b = net119_remove(back, sizeof back, answer, r.length, OUR_PATH);
    wrote("  the reply less our entry", b.number, b.length);
    h = net119_text(host, sizeof host, answer + b.host_start, b.host_end - b.host_start); /* before it is used: no host is longer than 253 */
    check("  the next host is h1.nx, however it is spelled", h.number == NET119_OK && h.length == 5 && memcmp(host, "h1.nx", 5) == 0);
    d = net119_reply(direct, sizeof direct, BYTES(message), 200, BYTES(DATE));
    check("  it is the reply to the message as it came", d.length == b.length && memcmp(direct, back, d.length) == 0);
}

/* A budget of JSON values: the message is counted, read with so many, and refused with one less. */
static void budget(void) {
    net119_count_answer all, enough, less;
    make("request", "A1.nx", "3 BYE", "");
    all = net119_read_within(BYTES(message), NET119_CEILING);
    enough = net119_read_within(BYTES(message), (uint32_t)all.count);
    less = net119_read_within(BYTES(message), (uint32_t)all.count - 1);
    check("BYE of A1 has thirteen values: array, tag, object, six fields, Via's object and its three", all.number == NET119_OK && all.count == 13);
    check("  a budget of as many is enough", enough.number == NET119_OK && enough.count == all.count);
    check("  with one less, the last value is one too many",
          less.number == NET119_TOO_MANY && less.count == 0 && less.place == place_of("\"nx\"}]}]"));
    event("  and so it is for the table", net119_message_within(table, sizeof table, 8000, BYTES(message), (uint32_t)all.count - 1),
          refused(NET119_TOO_MANY, 0, less.place));
}

/* What is refused, and where; a reply that is due and cannot be written. */
static void refusals(void) {
    net119_read_answer r = net119_read(BYTES("[01]"));
    net119_write_answer w = net119_reply(out, 10, BYTES(message), 200, BYTES(DATE));
    check("[01] is not JSON, at 2", r.number == NET119_NOT_JSON && r.place == 2);
    budget();
    check("ten bytes are no room for a reply", w.number == NET119_NO_ROOM && w.length == 0);
    event("no bytes, on no table", net119_message(NULL, 0, 0, NULL, 0), refused(NET119_BAD_TABLE, 0, 0));
    make("request", "A1.nx", "03 BYE", "");
    hands("BYE of A1, with a number that begins with 0", 8000, BYTES(message), refused(NET119_BAD_VALUE, 0, place_of("03 BYE")), NOTHING);
    make("response", "A1.nx", "1 INVITE", "");
    hands("a response without Status, field 7", 8000, BYTES(message), refused(NET119_MISSING, 0, 7), NOTHING);
    make("request", "D4.nx", "2 ACK", "");
    hands("ACK of D4, which is no call", 8000, BYTES(message), refused(NET119_NO_CALL, 0, 0), NOTHING);
    make("request", "D4.nx", "2 BYE", "");
    hands("BYE of D4", 8000, BYTES(message), refused(NET119_NO_CALL, 481, 0), SENT_BACK);
    widen();
    hands("  so long that the 481 would be too long", 8000, BYTES(message), refused(NET119_NO_CALL, 481, 0), NOTHING);
    event("tick of no Call-ID", ticked(8000, ""), refused(NET119_BAD_VALUE, 0, 0));
}

/* B2 is cancelled, and the desk takes it at the same time. */
static void crossing(void) {
    event("tick of B2, a millisecond before its limit", ticked(152499, "B2.nx"), accepted(NET119_NONE, NET119_RINGING));
    make("request", "B2.nx", "1 CANCEL", "");
    passes("CANCEL of B2", 152499, NET119_CANCELLING);
    make("response", "B2.nx", "1 INVITE", ",\"Status\":\"200 OK\"");
    hands("200 to B2", 152600, BYTES(message), accepted(NET119_BYE, NET119_ENDED), BYE_SENT);
}

int main(void) {
    uint8_t other[160];
    check("a blank table for two calls", start() && net119_well_formed(table, sizeof table));
    two_calls_ring();

    make("response", "A1.nx", "1 INVITE", ",\"Status\":\"200 OK\"");
    passes("200 to A1", 3000, NET119_ANSWERED);
    make("request", "A1.nx", "1 ACK", "");
    passes("ACK of A1", 4000, NET119_TALKING);
    chat();
    refusals();

    memcpy(other, table + NET119_TABLE_LENGTH(1), sizeof other);
    make("request", "A1.nx", "3 BYE", "");
    passes("BYE of A1", 9000, NET119_ENDED);
    event("tick of A1, an hour and a millisecond on", ticked(3609001, "A1.nx"), accepted(NET119_FREED, NET119_NO_STATE));
    check("B2's record has its bytes and its place", memcmp(other, table + NET119_TABLE_LENGTH(1), sizeof other) == 0);
    event("tick of A1, which is gone", ticked(3609002, "A1.nx"), refused(NET119_NO_CALL, 0, 0));
    crossing();

    make("request", "C3.nx", "1 INVITE", invite_fields);
    passes("INVITE of C3, for which there is room now", 200000, NET119_CALLING);
    event("tick of C3, at its limit", ticked(215000, "C3.nx"), accepted(NET119_TIMEOUT, NET119_ENDED));
    return differences != 0;
}
