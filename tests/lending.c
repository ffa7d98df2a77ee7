/*
 * What include/net119.h says of stack and alignment. Each function is run on a stack of its own, painted before, with every buffer at an odd
 * address: on messages that nest to the last level, are as long as may be, have sixteen Via objects and are spelled in plain letters and with
 * escapes, and on a full table; net119_text on parts of any kind, its output held to the byte; and the three of positions, each answer held
 * to the number. The most that a call took is printed; the exit is 1 if it is more than NET119_STACK, or if a call answers otherwise than it
 * must.
 */
#include <stdio.h>
#include <string.h>
#include <ucontext.h>

#include "net119.h"

#define ROOM (8 * NET119_STACK)
#define PAINT 0xa5
#define COUNT NET119_MOST_RECORDS
#define DATE "2024-02-29T23:59:59+0900"

/* Lent from their second byte on. */
static _Alignas(16) uint8_t message_room[1 + NET119_LONGEST + 8], table_room[1 + NET119_TABLE_LENGTH(COUNT)], output_room[1 + NET119_LONGEST],
    text_room[4][1 + 64];
static uint8_t *const message = message_room + 1, *const table = table_room + 1, *const output = output_room + 1;
static const uint8_t *host, *destination, *organization, *date;
static size_t length, room;
static uint64_t now;
static net119_write_answer decoded;
static net119_positions_answer placed;
static net119_position_answer found;
static net119_home_answer home;
static size_t wanted;

static _Alignas(16) uint8_t stack[ROOM];
static ucontext_t here, there;
static size_t most;
static unsigned answered;
static int wrong;

static void reads(void) { answered = net119_read(message, length).number; }
static void counts(void) { answered = net119_read_within(message, length, NET119_CEILING).number; }
static void refuses(void) { answered = net119_message_within(table, NET119_TABLE_LENGTH(COUNT), now, message, length, 9).number; }
static void places(void) {
    placed = net119_positions(message, length);
    answered = placed.number;
}
static void finds(void) {
    found = net119_position(message, length, wanted);
    answered = found.number;
}
static void homes(void) {
    home = net119_home(message, length);
    answered = home.number;
}
static void blanks(void) { answered = net119_blank(table, NET119_TABLE_LENGTH(COUNT), COUNT); }
static void tells(void) { answered = net119_well_formed(table, NET119_TABLE_LENGTH(COUNT)); }
static void hears(void) { answered = net119_message(table, NET119_TABLE_LENGTH(COUNT), now, message, length).number; }
static void ticks(void) { answered = net119_tick(table, NET119_TABLE_LENGTH(COUNT), now, (const uint8_t *)"C254", 4).number; }
static void replies(void) { answered = net119_reply(output, NET119_LONGEST, message, length, 200, date, 24).number; }
static void adds(void) { answered = net119_add(output, NET119_LONGEST, message, length, host, 8, destination, 11, organization, 2).number; }
static void removes(void) {
    answered = net119_remove(output, NET119_LONGEST, message, length, host, 8, destination, 11, organization, 2).number;
}

/* Where a length is 0, with no address. */
static void decodes(void) {
    decoded = net119_text(room == 0 ? NULL : output, room, length == 0 ? NULL : message, length);
    answered = decoded.number;
}

/* The bytes of the stack, from its far end on, that have lost their paint. */
static size_t taken(void) {
    size_t clean = 0;
    while (clean < sizeof stack && stack[clean] == PAINT) {
        clean++;
    }
    return sizeof stack - clean;
}

/* Runs one call on the painted stack. */
static void run(const char *what, void (*call)(void), unsigned number) {
    memset(stack, PAINT, sizeof stack);
    getcontext(&there);
    there.uc_stack.ss_sp = stack;
    there.uc_stack.ss_size = sizeof stack;
    there.uc_link = &here;
    makecontext(&there, call, 0);
    swapcontext(&here, &there);
    if (taken() > most) {
        most = taken();
    }
    if (answered != number || taken() > NET119_STACK) {
        printf("%s: %u for %u, with %zu bytes of stack\n", what, answered, number, taken());
        wrong = 1;
    }
}

static const uint8_t *lend(uint8_t *room, const char *text) {
    memcpy(room + 1, text, strlen(text));
    return room + 1;
}

static void put(const char *text) {
    memcpy(message + length, text, strlen(text));
    length += strlen(text);
}

/* A message of these bytes alone. */
static void set(const char *text) {
    length = 0;
    put(text);
}

/* A message with so many Via objects, and as many spaces behind it as make it the longest. Every other object is spelled with escapes. */
static void make(const char *tag, const char *call, const char *cseq, int vias, const char *more) {
    set("[\"");
    put(tag);
    put("\",{\"CSeq\":\"");
    put(cseq);
    put("\",\"To\":\"net119:fire@kita.callee\",\"From\":\"net119:u1@nishi.caller\",\"Call-ID\":\"");
    put(call);
    put("\",\"Date\":\"" DATE "\",\"Via\":[");
    for (int i = 0; i < vias; i++) {
        bool plain = i % 2 == 0;
        put(i == 0 ? "{" : ",{");
        put(plain ? "\"host\":\"" : "\"h\\u006fst\":\"");
        put(i + 1 < vias ? "h1" : plain ? "relay" : "rel\\u0061y");
        put(plain ? ".nx\",\"destination\":\"kita.callee\"" : "\\u002enx\",\"\\u0064estination\":\"\\u006bita.callee\"");
        put(",\"organization\":\"nx\",\"x\":[[[[-1.5e+10]]]]}");
    }
    put("]");
    put(more);
    put("}]");
    memset(message + length, ' ', NET119_LONGEST - length);
    length = NET119_LONGEST;
}

/* Whether what a message tells of positions is as it must be. */
static void holds(const char *what, bool right) {
    if (!right) {
        printf("%s: not as it must be\n", what);
        wrong = 1;
    }
}

static void tells_places(const char *what, size_t count, bool at_home) {
    run(what, places, NET119_OK);
    holds(what, placed.count == count && placed.home == at_home && placed.place == 0);
}

static void finds_place(const char *what, size_t index, uint8_t provider, int32_t latitude, int32_t longitude, bool has_accuracy,
                        uint64_t accuracy) {
    wanted = index;
    run(what, finds, NET119_OK);
    holds(what, found.found == (provider != NET119_NO_PROVIDER) && found.provider == provider && found.latitude == latitude &&
                    found.longitude == longitude && found.has_accuracy == has_accuracy && found.accuracy == accuracy && found.place == 0);
}

static void finds_home(const char *what, bool there, int32_t latitude, int32_t longitude) {
    run(what, homes, NET119_OK);
    holds(what, home.found == there && home.latitude == latitude && home.longitude == longitude && home.place == 0);
}

/* Decodes `message` into so much room. The text that is due stands in front, and every byte around it is as it was. */
static void decode(const char *what, size_t given, unsigned number, const char *text) {
    bool right;
    room = given;
    memset(output_room, PAINT, sizeof output_room);
    run(what, decodes, number);
    right = decoded.length == strlen(text) && memcmp(output, text, strlen(text)) == 0 && output_room[0] == PAINT;
    for (size_t i = strlen(text); i < NET119_LONGEST; i++) {
        right = right && output[i] == PAINT;
    }
    if (!right) {
        printf("%s: the output, or a length of %zu, is not as it must be\n", what, decoded.length);
        wrong = 1;
    }
}

/* Parts to decode: with room to spare, just enough, one byte too little and none. */
static void parts(void) {
    static char longest[NET119_LONGEST + 1];
    length = 0;
    decode("text, of nothing", 0, NET119_OK, "");
    decode("text, of nothing, with room", 1, NET119_OK, "");
    put("h\\u006fst\\/x");
    decode("text", NET119_LONGEST, NET119_OK, "host/x");
    decode("text, its own length", 6, NET119_OK, "host/x");
    decode("text, a byte more", 7, NET119_OK, "host/x");
    decode("text, a byte less", 5, NET119_NO_ROOM, "");
    decode("text, no room", 0, NET119_NO_ROOM, "");
    set("\\\"\\\\\\b\\f\\n\\r\\t\\u00e9\\u3042\\uD83D\\ude92");
    decode("text, each kind of escape", 16, NET119_OK, "\"\\\b\f\n\r\t\xc3\xa9\xe3\x81\x82\xf0\x9f\x9a\x92");
    decode("text, each kind of escape, a byte less", 15, NET119_NO_ROOM, "");
    set("\\x\\u12");
    decode("text, no escapes", 6, NET119_OK, "\\x\\u12");
    set("h\\ude92\\ud83d");
    decode("text, a lone surrogate", NET119_LONGEST, NET119_BAD_VALUE, "");
    decode("text, a lone surrogate, no room", 0, NET119_BAD_VALUE, "");

    /* The longest part, in plain letters and in escapes alone; and a text that no message has room for. */
    memset(message, 'x', NET119_LONGEST + 1);
    memset(longest, 'x', NET119_LONGEST);
    length = NET119_LONGEST;
    decode("text, the longest", NET119_LONGEST, NET119_OK, longest);
    decode("text, the longest, a byte less", NET119_LONGEST - 1, NET119_NO_ROOM, "");
    length = NET119_LONGEST + 1;
    decode("text, longer", NET119_LONGEST, NET119_TOO_LONG, "");
    decode("text, longer, no room", 0, NET119_TOO_LONG, "");
    put("\\udfff");
    decode("text, longer, a lone surrogate", NET119_LONGEST, NET119_BAD_VALUE, "");
    length = 0;
    while (length < NET119_LONGEST) {
        put("\\/");
    }
    memset(longest, '/', NET119_LONGEST / 2);
    longest[NET119_LONGEST / 2] = 0;
    decode("text, all escapes", NET119_LONGEST / 2, NET119_OK, longest);
}

#define CALLER(HOME)                                                                                                                        \
    "\"Caller\":{\"region\":\"nishi\",\"uid\":\"u1\",\"email\":\"u1@example.com\",\"last-modified\":\"" DATE "\","                          \
    "\"personal-information\":{\"name\":\"N\",\"address\":\"A\",\"sex\":\"male\",\"birthday\":\"1980-01-01\",\"location\":" HOME "},"       \
    "\"region-information\":{\"name\":\"R\",\"tel\":\"119\"}}"
#define TRAINING                                                                                                                            \
    ",\"Session-ID\":\"S1.nx\",\"Call-Mode\":\"training\",\"Call-Test\":0,\"Secure-Call\":true,\"Rescuee\":\"caller\","                     \
    "\"Request-Service\":\"ambulance\",\"Language\":\"ja\",\"User-Agent\":\"\","

/* Where the caller is: the elements of Locations, the home, a live location, and what tells neither. */
static void positions(void) {
    make("request", "P1", "1 INVITE", 16,
         TRAINING "\"Locations\":[{\"provider\":\"gps\",\"latitude\":35.66,\"longitude\":139.75,\"accuracy\":20},"
                  "{\"x\":[[[[-1]]]],\"l\\u006fngitude\":-180,\"name\":\"school\",\"provider\":\"preset\",\"latitude\":-0.000001}],"
             CALLER("{\"longitude\":-0,\"x\":[[[-1]]],\"latitude\":35.7}"));
    tells_places("positions, an INVITE", 2, true);
    finds_place("position, the first", 0, NET119_GPS, 35660000, 139750000, true, 20);
    finds_place("position, the second", 1, NET119_PRESET, -1, -180000000, false, 0);
    finds_place("position, behind the last", 2, NET119_NO_PROVIDER, 0, 0, false, 0);
    finds_place("position, far behind the last", SIZE_MAX, NET119_NO_PROVIDER, 0, 0, false, 0);
    finds_home("home", true, 35700000, 0);

    make("request", "P1", "1 INVITE", 16, TRAINING "\"Locations\":[]," CALLER("\"\""));
    tells_places("positions, none", 0, false);
    finds_place("position, none", 0, NET119_NO_PROVIDER, 0, 0, false, 0);
    finds_home("home, none", false, 0, 0);

    make("request", "P1", "2 NOTIFY", 16,
         ",\"Content-Type\":\"message/vnd.net119.location\",\"Body\":{\"provider\":\"network\",\"latitude\":-90,\"longitude\":180.000000,"
         "\"accuracy\":99999999999999999999,\"date\":\"" DATE "\"}");
    tells_places("positions, a NOTIFY", 1, false);
    finds_place("position, live", 0, NET119_NETWORK, -90000000, 180000000, true, UINT64_MAX);
    finds_place("position, behind the live one", 1, NET119_NO_PROVIDER, 0, 0, false, 0);
    finds_home("home, of a NOTIFY", false, 0, 0);

    set("[01]");
    run("positions, refused", places, NET119_NOT_JSON);
    run("position, refused", finds, NET119_NOT_JSON);
    run("home, refused", homes, NET119_NOT_JSON);
    holds("positions, refused", placed.place == 2 && placed.count == 0 && !placed.home);
    holds("position, refused", found.place == 2 && !found.found);
    holds("home, refused", home.place == 2 && !home.found);
}

/* The last level that may open is opened, by arrays and by objects, and holds a number. */
#define DEEPEST ",\"x\":[{\"x\":[{\"x\":[{\"x\":-1.5e+10}]}]}]"
#define INVITE_FIELDS                                                                                                                        \
    ",\"Session-ID\":\"S1.nx\",\"Call-Mode\":\"emergency\",\"Call-Test\":0,\"Secure-Call\":true,\"Rescuee\":\"caller\","                     \
    "\"Request-Service\":\"ambulance\",\"Language\":\"ja\",\"Locations\":["                                                                  \
    "{\"provider\":\"gps\",\"latitude\":35.66,\"longitude\":139.75,\"accuracy\":30,\"memo\":\"m\"},"                                         \
    "{\"provider\":\"preset\",\"latitude\":35.66,\"longitude\":-139.75,\"accuracy\":0,\"name\":\"home\"}],\"User-Agent\":\"\",\"Caller\":{"  \
    "\"region\":\"nishi\",\"uid\":\"u1\",\"email\":\"u1@mail.nx\",\"last-modified\":\"" DATE "\",\"personal-information\":{"                 \
    "\"name\":\"A\",\"kana\":\"\",\"address\":\"B\",\"tel\":\"1\",\"fax\":\"\",\"sex\":\"male\",\"birthday\":\"1982-01-19\","                \
    "\"location\":{\"latitude\":35.66,\"longitude\":139.75}},\"emergency-contacts\":[{\"name\":\"C\",\"relation\":\"D\",\"tel\":\"1\"}],"    \
    "\"region-information\":{\"name\":\"Nishi\",\"tel\":\"119\"},\"x\":[{\"x\":[{\"x\":-1e9}]}]}"

int main(void) {
    char call[8];
    host = lend(text_room[0], "relay.nx");
    destination = lend(text_room[1], "kita.callee");
    organization = lend(text_room[2], "nx");
    date = lend(text_room[3], DATE);
    run("blank", blanks, NET119_OK);

    /* Texts that the reading goes through and refuses. */
    set("[[[[[[[[-1.5e+10]]]]]]]]");
    run("eight arrays", reads, NET119_NOT_A_MESSAGE);
    set("[1,{\"x\":[[[[[[[]]]]]]]}]");
    run("a ninth level", reads, NET119_TOO_DEEP);
    run("a ninth level, counted", counts, NET119_TOO_DEEP);

    /* A full table; the last call of it. */
    for (int i = 0; i < COUNT; i++) {
        snprintf(call, sizeof call, "C%d", i);
        make("request", call, "1 INVITE", 1, INVITE_FIELDS DEEPEST);
        now = 1000;
        run("INVITE", hears, NET119_OK);
    }
    run("well-formed", tells, true);
    run("tick", ticks, NET119_OK);
    make("request", "D1", "1 INVITE", 16, INVITE_FIELDS DEEPEST);
    run("INVITE, no room", hears, NET119_FULL_TABLE);
    make("response", "C254", "1 INVITE", 16, ",\"Status\":\"200 OK\"" DEEPEST);
    run("200", hears, NET119_OK);
    run("read, a response", reads, NET119_OK);
    run("read, a response, counted", counts, NET119_OK);
    run("200 under a ceiling", refuses, NET119_TOO_MANY);
    run("remove", removes, NET119_OK);

    /* Bad letters: of each of the fields that tell theirs, and behind an escape. */
    make("request", "C254", "4294967296 BYE", 16, DEEPEST);
    run("a bad CSeq", hears, NET119_BAD_VALUE);
    make("request", "C254\\u002f", "2 BYE", 16, DEEPEST);
    run("a bad Call-ID", hears, NET119_BAD_VALUE);
    set("[\"request\",{\"CSeq\":\"2 BYE\",\"To\":\"net119:fire@kita_.callee\",\"From\":0,\"Call-ID\":0,\"Date\":0,\"Via\":0}]");
    run("a bad To", hears, NET119_BAD_VALUE);
    set("[\"ping\",{\"Date\":\"2024-02-30T\",\"Via\":0,\"Destination\":0}]");
    run("a bad Date", hears, NET119_BAD_VALUE);

    make("request", "C254", "1 ACK", 16, DEEPEST);
    run("ACK", hears, NET119_OK);
    run("add, where our entry stands", adds, NET119_LOOP);
    make("request", "C254", "2 MESSAGE", 16, ",\"Message-ID\":\"caller-nishi-1\",\"Content-Type\":\"text/plain\",\"Body\":\"\"" DEEPEST);
    run("MESSAGE", hears, NET119_OK);
    run("reply", replies, NET119_OK);
    make("r\\u0065quest", "C\\u003254", "3 MESSAG\\u0045", 16,
         ",\"Message\\u002dID\":\"caller\\u002dnishi-2\",\"Content-Type\":\"text\\/plain\",\"Body\":\"\\ud83d\"" DEEPEST);
    run("MESSAGE, escapes", hears, NET119_OK);
    run("reply, escapes", replies, NET119_OK);
    make("request", "C254", "4 BYE", 15, DEEPEST);
    host = lend(text_room[0], "other.nx");
    length -= 128; /* room for our entry */
    run("add", adds, NET119_OK);
    now = 3601001;
    run("BYE", hears, NET119_OK);
    now += 3600001;
    run("tick, an hour on", ticks, NET119_OK);
    parts();
    positions();

    printf("lending: at most %zu bytes of stack, of %d\n", most, NET119_STACK);
    return wrong;
}
