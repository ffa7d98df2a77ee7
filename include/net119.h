/*
 * libnet119.a: a call keeper for NET119 text emergency calls, for programs that link C on x86-64 Linux (System V).
 *
 * Document 01, the customer's 'NET119 call rules', as changed by those of his requests that have landed (docs/CHANGES.md), decides what
 * every function answers; each function is proved to answer so, for any bytes, any time and any table image, and to leave in each buffer
 * what is said here (docs/THEOREMS.md). The library has no state of its own, takes nothing from the heap, calls nothing but memcpy and
 * memset, prints nothing and never stops the program.
 *
 * Texts and buffers are a pointer and a length in bytes, in this order; texts need no 0 at their end.
 *
 * A message's tag, its names and its values under a rule are judged by the texts that they spell, escapes decoded (RFC 7159): "text\/plain"
 * is text/plain. A lone surrogate is no character: it breaks its value's rule (9), and a tag or name that has one is none that is known; it
 * may stand in free text and wherever no rule looks. A table holds decoded texts, so a call is found however a message spells its Call-ID.
 * What is written or shown of a message is its bytes as they stand; net119_text decodes a part of it. The other texts that are handed over
 * (a tick's Call-ID, a Date, our own path) are bytes as they are: no escapes are decoded in them.
 *
 * What a caller must hold to, since no function can check it:
 *  - a pointer is valid for its length, and a length is at most PTRDIFF_MAX; where the length is 0 the pointer may be null or anything;
 *  - a buffer that is written (a table, an output) overlaps no other argument of that call. Arguments that are only read may overlap,
 *    so a host may be a part of the message itself;
 *  - while a call writes a buffer, nothing else reads or writes it: one call at a time on one table. Calls on different tables, and calls
 *    that only read, may run at once;
 *  - NET119_STACK bytes of stack are left when a call begins.
 *
 * No alignment is asked: a message, a text, a table or an output may begin at any address. Contents are never a condition: any bytes may
 * stand in a message, a text or a table, and get their number. On every refusal the table and the output are, byte for byte, what they
 * were.
 */
#ifndef NET119_H
#define NET119_H

#include <stdbool.h>
#include <stddef.h>
#include <stdint.h>

#ifdef __cplusplus
extern "C" {
#endif

/* The longest message, read or written. */
#define NET119_LONGEST 32768

/* A table of `count` records, 1 to 255, takes exactly so many bytes. The image is portable: it may be stored and lent again. */
#define NET119_MOST_RECORDS 255
#define NET119_TABLE_LENGTH(count) (16 + 160 * (size_t)(count))

/*
 * The ceiling of JSON values at which every function reads that is not handed one: twice the number of a JSON text's values is at most its
 * bytes and one, so none of NET119_LONGEST bytes passes it. Bytes that only begin as a JSON text does may, and are refused by 11.
 */
#define NET119_CEILING 16384

/*
 * No call takes more stack than this, whatever it is handed: the stack grows with the nesting of JSON alone, and that ends at eight.
 */
#define NET119_STACK 8192

/* Numbers. 0 is accepted, or done; every other number is a refusal. */
enum {
    NET119_OK = 0,

    NET119_BAD_TABLE = 1,      /* the table is not well-formed; for net119_blank, a wrong count or length */

    /* Reading; in this order, the first that fails answers. 4, 5 and 11 are found in one walk, before 6: of the three the one with the
       lowest place answers, and 5 before 11 at one place. */
    NET119_BAD_LENGTH = 2,     /* length 0 or over 32,768; place 0 */
    NET119_NOT_UTF8 = 3,       /* place: the first byte of the first bad sequence */
    NET119_NOT_JSON = 4,       /* place: the first byte after which no JSON text can continue, or the length if it only stops short */
    NET119_TOO_DEEP = 5,       /* a ninth nested array or object opens; place: that bracket */
    NET119_NOT_A_MESSAGE = 6,  /* not an array of two, a tag and an object; place 0 */
    NET119_TWICE = 7,          /* a known name twice, however spelled; place: the opening quote of the first repeat */
    NET119_MISSING = 8,        /* a required field is missing; place: the lowest such field NUMBER, 1 to 26 */
    NET119_BAD_VALUE = 9,      /* a value breaks its rule; place: of a string in CSeq, To, From, Date or Call-ID the first byte of its bad
                                  letter, the first of the decoded text after which no allowed value can go on (an escape's place is its
                                  backslash, of a pair the first's), or the closing quote if the text only stops short; else the first byte
                                  of the value. For net119_text, a lone surrogate */
    NET119_DISAGREE = 10,      /* fields disagree; place 0 */
    NET119_TOO_MANY = 11,      /* a JSON value past the ceiling begins; place: its first byte */

    /* Events. */
    NET119_NO_CALL = 20,       /* no such call */
    NET119_OTHER_PARTY = 21,   /* user or a Fire-ID differs from the record */
    NET119_EARLIER = 22,       /* time below the call's last time */
    NET119_WRONG_CSEQ = 23,    /* number wrong */
    NET119_WRONG_STATE = 24,   /* not legal in this state */
    NET119_NOT_SECURE = 25,    /* REFER in a call that is not secure */
    NET119_TOO_LATE = 26,      /* CALLBACK after the hour */
    NET119_FULL_TABLE = 27,    /* a new INVITE and no record free */
    NET119_PING_PONG = 28,     /* a ping or pong: read well, but no event of a call */

    /* Writing. */
    NET119_WRONG_KIND = 30,    /* not a message that the reading accepts, or not of the kind asked for */
    NET119_BAD_CODE = 31,      /* code not listed, or 202 without REFER */
    NET119_BAD_DATE = 32,      /* a Date that breaks its rule */
    NET119_NO_ROOM = 33,       /* output shorter than the result */
    NET119_LOOP = 34,          /* our host and destination stand in one Via object already */
    NET119_FULL_VIA = 35,      /* sixteen Via objects already */
    NET119_NOT_OURS = 36,      /* the last Via object has another host or destination */
    NET119_FEW_VIA = 37,       /* fewer than two Via objects */
    NET119_BAD_PATH = 38,      /* our own host, destination or organization breaks the Via rules */
    NET119_TOO_LONG = 39       /* the result is over 32,768 bytes */
};

/* The word of an accepted event. */
enum {
    NET119_PASS = 1,    /* pass the message on */
    NET119_REPEAT = 2,  /* heard before: nothing changes */
    NET119_BYE = 3,     /* a 2xx to a call that was cancelled or has ended: send a BYE */
    NET119_TIMEOUT = 4, /* a tick ended a call that nobody took */
    NET119_IDLE = 5,    /* a tick ended a call without chat for half an hour */
    NET119_FREED = 6,   /* a tick freed the record of a call that ended over an hour ago */
    NET119_NONE = 7     /* a tick had nothing to do */
};

/* The state of a call after an accepted event. */
enum {
    NET119_NO_STATE = 0, /* freed, or refused */
    NET119_CALLING = 1,
    NET119_RINGING = 2,
    NET119_ANSWERED = 3,
    NET119_TALKING = 4,
    NET119_ENDED = 5,
    NET119_CANCELLING = 6
};

typedef struct {
    uint8_t number; /* 0, or 2 to 11 */
    size_t place;   /* of the refusal, as said above; 0 where accepted */
} net119_read_answer;

typedef struct {
    uint8_t number; /* 0, or 2 to 11 */
    size_t place;   /* of the refusal, as said above; 0 where accepted */
    size_t count;   /* the JSON values of the message: the outermost, every element and every member's value, names not. At most the
                       ceiling, and twice it at most the bytes and one; 0 where refused by 2 to 5 or 11 */
} net119_count_answer;

/* The provider of a position. */
enum {
    NET119_NO_PROVIDER = 0, /* no position */
    NET119_GPS = 1,
    NET119_NETWORK = 2,
    NET119_PRESET = 3,      /* chosen by the caller before the call */
    NET119_MAP = 4          /* pointed at by the caller */
};

typedef struct {
    uint8_t number; /* 0, or 2 to 11 */
    bool home;      /* where accepted, whether the message has a home */
    size_t place;   /* of the refusal, as said above; 0 where accepted */
    size_t count;   /* where accepted, how many positions the message has; else 0 */
} net119_positions_answer;

typedef struct {
    uint8_t number;     /* 0, or 2 to 11 */
    bool found;         /* where accepted, whether there is such a position; where not, all below but the place is 0 */
    uint8_t provider;   /* NET119_GPS to NET119_MAP */
    bool has_accuracy;  /* whether the message tells an accuracy */
    int32_t latitude;   /* in whole millionths of a degree, -90,000,000 to 90,000,000 */
    int32_t longitude;  /* likewise, -180,000,000 to 180,000,000 */
    size_t place;       /* of the refusal, as said above; 0 where accepted */
    uint64_t accuracy;  /* in whole metres, 0 where there is none; the largest number of 64 bits where the message has a larger one */
} net119_position_answer;

typedef struct {
    uint8_t number;    /* 0, or 2 to 11 */
    bool found;        /* where accepted, whether there is a home; where not, both below are 0 */
    int32_t latitude;  /* as of a position */
    int32_t longitude;
    size_t place;      /* of the refusal, as said above; 0 where accepted */
} net119_home_answer;

typedef struct {
    uint8_t number; /* 0, or 1 to 11, 20 to 28 */
    uint8_t word;   /* where accepted, 1 to 7; else 0 */
    uint8_t state;  /* where accepted, the call's state after it, 0 once freed; else 0 */
    uint16_t reply; /* where refused, the status code that the sender is due: 400, 404, 405, 481, 486 or 500; 0, none: send nothing */
    size_t place;   /* where refused by 2 to 11, the place as said above; else 0 */
} net119_event_answer;

typedef struct {
    uint8_t number; /* 0, or 30 to 35, 38, 39; for net119_text 0, or 9, 33, 39 */
    size_t length;  /* where done, the result's length; else 0 */
} net119_write_answer;

typedef struct {
    uint8_t number;    /* 0, or 30, 33, 36, 37, 38 */
    size_t length;     /* where done, the result's length; else 0 */
    size_t host_start; /* where done, the next host is message[host_start .. host_end), as it is spelled there; else both are 0 */
    size_t host_end;
} net119_remove_answer;

/* The layout of the answers, as the library has it. Compilers from C11 and C++11 on check it; older ones are not asked. */
#if defined(__cplusplus) && __cplusplus >= 201103L
#define NET119_LAYOUT(claim) static_assert(claim, #claim);
#elif !defined(__cplusplus) && defined(__STDC_VERSION__) && __STDC_VERSION__ >= 201112L
#define NET119_LAYOUT(claim) _Static_assert(claim, #claim);
#else
#define NET119_LAYOUT(claim)
#endif

NET119_LAYOUT(sizeof(net119_read_answer) == 16)
NET119_LAYOUT(offsetof(net119_read_answer, number) == 0)
NET119_LAYOUT(offsetof(net119_read_answer, place) == 8)

NET119_LAYOUT(sizeof(net119_count_answer) == 24)
NET119_LAYOUT(offsetof(net119_count_answer, number) == 0)
NET119_LAYOUT(offsetof(net119_count_answer, place) == 8)
NET119_LAYOUT(offsetof(net119_count_answer, count) == 16)

NET119_LAYOUT(sizeof(net119_positions_answer) == 24)
NET119_LAYOUT(offsetof(net119_positions_answer, number) == 0)
NET119_LAYOUT(offsetof(net119_positions_answer, home) == 1)
NET119_LAYOUT(offsetof(net119_positions_answer, place) == 8)
NET119_LAYOUT(offsetof(net119_positions_answer, count) == 16)

NET119_LAYOUT(sizeof(net119_position_answer) == 32)
NET119_LAYOUT(offsetof(net119_position_answer, number) == 0)
NET119_LAYOUT(offsetof(net119_position_answer, found) == 1)
NET119_LAYOUT(offsetof(net119_position_answer, provider) == 2)
NET119_LAYOUT(offsetof(net119_position_answer, has_accuracy) == 3)
NET119_LAYOUT(offsetof(net119_position_answer, latitude) == 4)
NET119_LAYOUT(offsetof(net119_position_answer, longitude) == 8)
NET119_LAYOUT(offsetof(net119_position_answer, place) == 16)
NET119_LAYOUT(offsetof(net119_position_answer, accuracy) == 24)

NET119_LAYOUT(sizeof(net119_home_answer) == 24)
NET119_LAYOUT(offsetof(net119_home_answer, number) == 0)
NET119_LAYOUT(offsetof(net119_home_answer, found) == 1)
NET119_LAYOUT(offsetof(net119_home_answer, latitude) == 4)
NET119_LAYOUT(offsetof(net119_home_answer, longitude) == 8)
NET119_LAYOUT(offsetof(net119_home_answer, place) == 16)

NET119_LAYOUT(sizeof(net119_event_answer) == 16)
NET119_LAYOUT(offsetof(net119_event_answer, number) == 0)
NET119_LAYOUT(offsetof(net119_event_answer, word) == 1)
NET119_LAYOUT(offsetof(net119_event_answer, state) == 2)
NET119_LAYOUT(offsetof(net119_event_answer, reply) == 4)
NET119_LAYOUT(offsetof(net119_event_answer, place) == 8)

NET119_LAYOUT(sizeof(net119_write_answer) == 16)
NET119_LAYOUT(offsetof(net119_write_answer, number) == 0)
NET119_LAYOUT(offsetof(net119_write_answer, length) == 8)

NET119_LAYOUT(sizeof(net119_remove_answer) == 32)
NET119_LAYOUT(offsetof(net119_remove_answer, number) == 0)
NET119_LAYOUT(offsetof(net119_remove_answer, length) == 8)
NET119_LAYOUT(offsetof(net119_remove_answer, host_start) == 16)
NET119_LAYOUT(offsetof(net119_remove_answer, host_end) == 24)

#undef NET119_LAYOUT

/*
 * Reads a message, and answers whether document 01 accepts it: number 0, or 2 to 11 with the place. The ceiling is NET119_CEILING.
 * Nothing is written.
 */
net119_read_answer net119_read(const uint8_t *message, size_t message_length);

/*
 * The same under a ceiling of JSON values, any 32-bit number, and how many the message has: a host may give each message a budget. A value
 * is too many where as many values as the ceiling have begun before it; with a ceiling of 0 the outermost is. In a message that is refused by
 * 11 as many values as the ceiling have begun, although no count is told; they may have been walked twice.
 */
net119_count_answer net119_read_within(const uint8_t *message, size_t message_length, uint32_t ceiling);

/*
 * How many positions a message tells, and whether it tells a home. The message is read as by net119_read, and is refused as there.
 *
 * An INVITE request has a position for each element of Locations, in their order, and a home where `location` of Caller's
 * `personal-information` is an object; a NOTIFY request of Content-Type message/vnd.net119.location has one position, that in its Body. Every
 * other message that is accepted has none.
 * Nothing is written.
 */
net119_positions_answer net119_positions(const uint8_t *message, size_t message_length);

/*
 * Position `index` of them, counted from 0; `found` is false behind the last. Each call reads the message.
 * Nothing is written.
 */
net119_position_answer net119_position(const uint8_t *message, size_t message_length, size_t index);

/*
 * The home, if the message tells one.
 * Nothing is written.
 */
net119_home_answer net119_home(const uint8_t *message, size_t message_length);

/*
 * Makes a blank table of `count` free records. `table_length` must be NET119_TABLE_LENGTH(count), and `count` 1 to 255.
 * Answers 0, and the whole buffer is the blank table, whatever it was; or 1, a wrong count or length, and the buffer is as it was.
 */
uint8_t net119_blank(uint8_t *table, size_t table_length, size_t count);

/*
 * Whether a table is well-formed, as after net119_blank and any events: then no event is refused by 1.
 * Nothing is written.
 */
bool net119_well_formed(const uint8_t *table, size_t table_length);

/*
 * A message, request or response, that came at a time: milliseconds, any 64-bit number, by the caller's own clock.
 *
 * Answers number 0 with the word PASS, REPEAT or BYE and the call's new state; or a refusal: 1, then 2 to 11 as net119_read, then 28,
 * 20, 21, 22, 23, 24, 25, 26 or 27, the first that holds, with the place and the reply that is due (net119_reply writes it).
 *
 * The table: after PASS and BYE the record of the message's Call-ID is what document 01's rules give (an INVITE takes the lowest free
 * record), and every byte of every other record is as it was. After REPEAT, and on every refusal, the whole table is as it was.
 */
net119_event_answer net119_message(uint8_t *table, size_t table_length, uint64_t time, const uint8_t *message, size_t message_length);

/*
 * The same, with 2 to 11 as net119_read_within under this ceiling. Give every message on one table the same: only then is it proved that the
 * order of two events of different calls does not matter. A tick reads no message and has no ceiling; net119_reply, net119_add and
 * net119_remove read at NET119_CEILING, and so may take a message that was refused here by 11.
 */
net119_event_answer net119_message_within(uint8_t *table, size_t table_length, uint64_t time, const uint8_t *message, size_t message_length,
                                          uint32_t ceiling);

/*
 * A tick for one call: asks whether a limit has run out at that time. A relay ticks each call it has, every second or so.
 *
 * Answers number 0 with the word TIMEOUT (Calling and Cancelling after 15 s, Ringing after 150 s) or IDLE (half an hour without chat), both
 * to state 5; FREED (over an hour after the end), state 0; or NONE with the state as it is; or a refusal, always with reply 0:
 * 1; 9 at place 0, the Call-ID breaks its rule; 20, no such call; 22, the time is below the call's last time. The Call-ID is bytes as they
 * are: one that was taken from a message may be spelled with escapes, and net119_text decodes it.
 *
 * The table: after TIMEOUT and IDLE the call's record has ended, after FREED it is free; every byte of every other record is as it was.
 * After NONE, and on every refusal, the whole table is as it was.
 */
net119_event_answer net119_tick(uint8_t *table, size_t table_length, uint64_t time, const uint8_t *call_id, size_t call_id_length);

/*
 * Writes the reply to a request, with a code of document 01's list (100, 180, 200, 202, 400, 404, 405, 481, 486, 487, 488, 500, 501, 503)
 * and the Date to give it, as 2024-02-29T23:59:59+0900. CSeq, To, From, Call-ID and Via are the request's own bytes, escapes as they stand.
 *
 * Answers number 0 and the result's length; or, the first that holds: 30, not an accepted request, or an ACK; 31, code not listed, or 202
 * without REFER; 32, bad Date; 39, the result is over 32,768 bytes; 33, the output is shorter than the result.
 *
 * The output: where done, its first `length` bytes are the reply, with no newline and no 0 behind it, and the bytes past it stay as they
 * were; where refused, all of it is as it was. NET119_LONGEST bytes are always enough.
 */
net119_write_answer net119_reply(uint8_t *output, size_t output_length, const uint8_t *message, size_t message_length, uint16_t code,
                                 const uint8_t *date, size_t date_length);

/*
 * Writes a request with our own Via entry behind its last one. Nothing else of the message changes, white space included.
 *
 * Answers number 0 and the result's length; or, the first that holds: 38, our own path breaks the Via rules; 30, not an accepted request;
 * 34, our host and destination stand in one Via object, whose texts are compared decoded; 35, sixteen Via objects; 39, the result is over
 * 32,768 bytes; 33, the output is shorter than the result.
 *
 * The output: as for net119_reply.
 */
net119_write_answer net119_add(uint8_t *output, size_t output_length, const uint8_t *message, size_t message_length, const uint8_t *host,
                               size_t host_length, const uint8_t *destination, size_t destination_length, const uint8_t *organization,
                               size_t organization_length);

/*
 * Writes a response with its last Via entry, which must be ours, taken off, and answers where the next host stands in `message`: that of
 * the last but one Via object. It is shown as it stands there, and may be spelled with escapes: net119_text decodes it. As bytes, this
 * undoes net119_add.
 *
 * Answers number 0, the result's length and the host's start and end; or, the first that holds: 38, our own path breaks the Via rules; 30,
 * not an accepted response; 37, fewer than two Via objects; 36, the last has another host or destination than ours (those in Via decoded;
 * the organization is not compared); 33, the output is shorter than the result. 39 cannot be: the result is shorter than the message.
 *
 * The output: as for net119_reply.
 */
net119_remove_answer net119_remove(uint8_t *output, size_t output_length, const uint8_t *message, size_t message_length,
                                   const uint8_t *host, size_t host_length, const uint8_t *destination, size_t destination_length,
                                   const uint8_t *organization, size_t organization_length);

/*
 * Writes the text that a part of a message spells, such as the next host: `spelled` is the bytes between a string's quotes, and the text has
 * for each escape of RFC 7159 the character that it stands for, in UTF-8; two escapes that are a pair of surrogates stand for one. Every
 * other byte stands for itself, and so does a backslash that begins no escape, which no JSON string has.
 *
 * Answers number 0 and the text's length; or, the first that holds: 9, an escape is a lone surrogate; 39, the text is over 32,768 bytes,
 * which that of a part of a message never is; 33, the output is shorter than the text. `spelled_length` bytes are always enough.
 *
 * The output: as for net119_reply.
 */
net119_write_answer net119_text(uint8_t *output, size_t output_length, const uint8_t *spelled, size_t spelled_length);

#ifdef __cplusplus
}
#endif

#endif
