/* The reader and the writer for C: the functions of the static library libsumturnip.a, which crate sumturnip_c makes for x86-64 (`./ais install` and bindings/test put it down).
 * Each call returns, reads and writes only what is lent to it, and answers as crates/sumturnip/specs/Calls.antt says.
 * A slice is a pointer, never null, and then its length. What is written must not overlap anything else that is lent to the same call.
 * What is proved is the library's answer to such a call; that a caller keeps to this page is not checked.
 * bindings/c/example.c is a small program over this page. */
#ifndef SUMTURNIP_H
#define SUMTURNIP_H

#include <stdbool.h>
#include <stddef.h>
#include <stdint.h>

#ifdef __cplusplus
extern "C" {
#endif

/* The version of this page, 0.2.0: two decimal places for each number. `sumturnip_version` answers that of the library. */
#define SUMTURNIP_VERSION 200

/* What is lent, at the least. */
enum {
    SUMTURNIP_RECORD = 400,  /* bytes of a record */
    SUMTURNIP_PAYLOAD = 384, /* bytes for the payload handed out */
    SUMTURNIP_BITS = 288,    /* bytes for the unarmored message */
    SUMTURNIP_NUMBERS = 50,  /* numbers of an answer */
    SUMTURNIP_TEXTS = 80,    /* bytes for the texts of a type 24 message: four of 20 */
    SUMTURNIP_LINES = 538    /* bytes for the lines of the longest message that the writer takes: 7 lines, 384 characters */
};

/* A record's bytes, which may be kept and handed on. A call takes any bytes; it writes these, and bytes past the 400th stay. */
enum {
    SUMTURNIP_RECORD_HAS_ID = 0,   /* 0: no message number; else 1 is written */
    SUMTURNIP_RECORD_ID = 1,       /* the message number */
    SUMTURNIP_RECORD_FRAGMENT = 2, /* the fragment number; five zeros follow */
    SUMTURNIP_RECORD_LENGTH = 8,   /* how many payload bytes are held: eight bytes, the lowest first */
    SUMTURNIP_RECORD_BYTES = 16    /* 384 payload bytes */
};

/* What a call answers: one of these, or the number of the refusal, 1 to 13, for which `sumturnip_reason` has words. */
enum { SUMTURNIP_COMPLETE = 0, SUMTURNIP_UNFINISHED = 100 };

/* A refusal's number in words; for every other number words that say so. */
static inline const char *sumturnip_reason(uint32_t code) {
    switch (code) {
    case 1: return "line over 1024 bytes";
    case 2: return "line breaks the line rules";
    case 3: return "checksum differs";
    case 4: return "message number differs from the one before";
    case 5: return "fragment number is not the next one";
    case 6: return "payload over 384 bytes";
    case 7: return "fill over 5, or fill with empty data";
    case 8: return "byte cannot be unarmored";
    case 9: return "message ends inside a needed field";
    case 10: return "message type is not decoded";
    case 11: return "message type is unknown";
    case 12: return "a lent output is too small";
    case 13: return "request outside the writer's limits";
    default: return "not a refusal";
    }
}

/* The places of an answer's numbers. What does not apply is 0; HAS_ is 1 where the next number is there, else both are 0.
 * A float is its bit pattern, of 32 bits; a signed number is two's complement of 64 bits; RAW is the number as it was sent, which is
 * there whether or not it stands for an absent reading. */
enum {
    /* of a refusal: the checksum in the line and the one found (3), the offset of the byte in the payload (8), the type (10, 11) */
    SUMTURNIP_VALUE = 0,
    SUMTURNIP_OTHER_VALUE = 1,
    /* the sentence */
    SUMTURNIP_TALKER = 2,    /* 0 unknown, then AB AD AI AN AR AS AT AX BS SA from 1 on */
    SUMTURNIP_REPORT = 3,    /* 0 unknown, 1 VDM, 2 VDO */
    SUMTURNIP_FRAGMENTS = 4, /* how many lines the message has, by its line */
    SUMTURNIP_FRAGMENT = 5,  /* which of them this is, from 1 on */
    SUMTURNIP_HAS_ID = 6,
    SUMTURNIP_ID = 7, /* the message number */
    SUMTURNIP_HAS_CHANNEL = 8,
    SUMTURNIP_CHANNEL = 9,         /* its first byte: 65 is A, 66 is B */
    SUMTURNIP_FILL = 10,           /* bits */
    SUMTURNIP_CRATE_TYPE = 11,     /* the first byte of the line's own payload, divided by 4 */
    SUMTURNIP_HAS_TYPE = 12,
    SUMTURNIP_TYPE = 13,           /* the six-bit value of the first byte of the payload handed out */
    SUMTURNIP_PAYLOAD_LENGTH = 14, /* bytes of the payload handed out */
    SUMTURNIP_SENT_BITS = 15,      /* bits: six for each of them, less the fill */
    /* the message */
    SUMTURNIP_KIND = 16, /* 0 none, 1 position report, 2 static data report, 3 interrogation */
    SUMTURNIP_MESSAGE_TYPE = 17,
    SUMTURNIP_REPEAT = 18,
    SUMTURNIP_MMSI = 19,
    /* kind 1 */
    SUMTURNIP_STATUS = 20, /* 15 absent */
    SUMTURNIP_HAS_TURN = 21,
    SUMTURNIP_TURN = 22, /* signed; the number as it was sent, -127 to 127 */
    SUMTURNIP_HAS_RATE = 23,
    SUMTURNIP_RATE = 24,      /* float, degrees a minute, never negative; absent where the turn is -127 or 127, which have no rate */
    SUMTURNIP_DIRECTION = 25, /* 0 none, 1 port, 2 starboard */
    SUMTURNIP_HAS_SPEED = 26,
    SUMTURNIP_SPEED = 27,     /* float, knots over the ground */
    SUMTURNIP_SPEED_RAW = 28, /* tenths of a knot; 1023 absent */
    SUMTURNIP_ACCURACY = 29,  /* 1 DGPS, 0 unaugmented */
    SUMTURNIP_HAS_LONGITUDE = 30,
    SUMTURNIP_LONGITUDE = 31,     /* float, degrees, east positive */
    SUMTURNIP_LONGITUDE_RAW = 32, /* signed, 1/600000 of a degree; 108600000 absent */
    SUMTURNIP_HAS_LATITUDE = 33,
    SUMTURNIP_LATITUDE = 34,     /* float, degrees, north positive */
    SUMTURNIP_LATITUDE_RAW = 35, /* signed, 1/600000 of a degree; 54600000 absent */
    SUMTURNIP_HAS_COURSE = 36,
    SUMTURNIP_COURSE = 37,     /* float, degrees over the ground from true north */
    SUMTURNIP_COURSE_RAW = 38, /* tenths of a degree; 3600 absent */
    SUMTURNIP_HAS_HEADING = 39,
    SUMTURNIP_HEADING = 40,   /* degrees from true north */
    SUMTURNIP_SECOND = 41,    /* of the minute, as it was sent: 60 to 63 stand for no second */
    SUMTURNIP_MANOEUVRE = 42, /* 0 absent */
    SUMTURNIP_RAIM = 43,      /* 1 in use */
    SUMTURNIP_RADIO = 44,     /* 1 SOTDMA, 2 ITDMA */
    SUMTURNIP_SYNC = 45,
    /* SOTDMA */
    SUMTURNIP_TIMEOUT = 46,    /* frames */
    SUMTURNIP_SUB = 47,        /* 1 slot offset, 2 hour and minute, 3 slot number, 4 stations received */
    SUMTURNIP_SUB_VALUE = 48,  /* the hour, where that is told */
    SUMTURNIP_SUB_MINUTE = 49, /* the minute, where that is told */
    /* ITDMA */
    SUMTURNIP_INCREMENT = 46, /* slots */
    SUMTURNIP_SLOTS = 47,
    SUMTURNIP_KEEP = 48, /* 1 where the slots are kept */
    /* kind 2 */
    SUMTURNIP_PART = 20, /* 0 A, 1 B, 2 and 3 unknown; 21 to 27 are part B's */
    SUMTURNIP_SHIP_TYPE = 21,
    SUMTURNIP_MODEL = 22, /* the unit model code */
    SUMTURNIP_SERIAL = 23,
    SUMTURNIP_BOW = 24, /* metres from the antenna, as the next three */
    SUMTURNIP_STERN = 25,
    SUMTURNIP_PORT = 26,
    SUMTURNIP_STARBOARD = 27,
    SUMTURNIP_NAME_LENGTH = 28,         /* bytes of the text at byte 0 of the texts; each text is ASCII, with zeros after it */
    SUMTURNIP_VENDOR_LENGTH = 29,       /* at byte 20 */
    SUMTURNIP_MODEL_SERIAL_LENGTH = 30, /* at byte 40 */
    SUMTURNIP_CALL_SIGN_LENGTH = 31,    /* at byte 60 */
    /* kind 3: how many stations; then for each eight numbers: the MMSI, how many messages are asked of it, and for each of two the type,
     * whether there is a slot offset, and the offset in slots */
    SUMTURNIP_STATIONS = 20,
    SUMTURNIP_FIRST_STATION = 21,
    SUMTURNIP_SECOND_STATION = 29
};

/* The library's version: SUMTURNIP_VERSION where it is that of this page. */
uint32_t sumturnip_version(void);

/* Makes a record fresh: 0; or 12 where the record has fewer than 400 bytes, and nothing is written. */
uint32_t sumturnip_fresh(uint8_t *record, size_t record_length);

/* Reads one line: SUMTURNIP_COMPLETE, SUMTURNIP_UNFINISHED or a refusal's number (12, 1, 2, 3, 4, 5, 6, 8, 9, 10 or 11). The line may end in
 * CR LF, in LF or bare: what follows its checksum is not looked at, and counts among its 1,024 bytes. The record may hold any bytes. A complete
 * message is decoded if that is asked. The payload handed out stands first in `payload`, a decoded message's unarmored bytes first in `bits`; a
 * refused call writes to neither.
 * 12 speaks of five lent parts: where the record has fewer than 400 bytes, or fewer than 50 numbers or 80 bytes of text are lent, nothing is
 * written; where `payload` has fewer than 384 bytes or `bits` fewer than 288, decoding or not, the numbers and texts tell the refusal.
 * But for the former, the first 50 numbers and 80 bytes of text are written by every call, a refused one too. */
uint32_t sumturnip_read(uint8_t *record, size_t record_length, const uint8_t *line, size_t line_length, bool decode, uint8_t *payload,
                        size_t payload_length, uint8_t *bits, size_t bits_length, uint64_t *numbers, size_t numbers_length,
                        uint8_t *texts, size_t texts_length);

/* Unarmors a payload of at most 384 bytes, of which the last `fill` bits become 0: 0, with the count of bytes that stand first in `out` in
 * numbers[0]; or a refusal's number (7, 6, 12, 8), with the offset of 8 there, else 0, and nothing written to `out`. 12 is of `out`, if it has fewer
 * than three bytes for each four of the payload, rounded up; or of the numbers, if there is no room for that one: then it comes first, and nothing
 * is written. */
uint32_t sumturnip_unarmor(const uint8_t *payload, size_t payload_length, size_t fill, uint8_t *out, size_t out_length, uint64_t *numbers,
                           size_t numbers_length);

/* Writes the lines of a message, each ending in CR LF: 0, with the count of bytes that stand first in `out` in numbers[0]; or 13 or 12, with 0 there
 * and nothing written to `out`. The first `bit_count` bits of `bits`, the highest of each byte first, are sent. Talker, report type and channel have the
 * numbers that `sumturnip_read` tells them by (SUMTURNIP_TALKER, REPORT, HAS_CHANNEL and CHANNEL), so that what was read can be written.
 * 13 where the bits are none, over 2,304 or more than `bits` has, the talker or the report type is 0, the channel is not A (1, 65), B (1, 66) or none
 * (0, 0), or the message number is over 9 (a message of one line does not show it); so is any other number. 12 is of `out`, if the lines do not fit
 * (SUMTURNIP_LINES are always enough); or of the numbers, if there is no room for that one: then it comes first, and nothing is written. */
uint32_t sumturnip_write(size_t bit_count, uint64_t talker, uint64_t report, uint64_t has_channel, uint64_t channel, uint64_t number,
                         const uint8_t *bits, size_t bits_length, uint8_t *out, size_t out_length, uint64_t *numbers, size_t numbers_length);

#ifdef __cplusplus
}
#endif

#endif
