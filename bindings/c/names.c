/* Tries every name of the header on answers in which numbers that could be taken for each other differ; ends with 1 where one is not the library's. The numbers are those of document 01's rules, for segments of request K9 of 02, for errors, rejects and aborts of K2. */
#include <inttypes.h>
#include <stdio.h>
#include <stdlib.h>

#include "thaolisem.h"

#define BYTES(...) (const uint8_t[]){__VA_ARGS__}, sizeof(const uint8_t[]){__VA_ARGS__}
#define IS(place, number) is(#place, answer[place], __LINE__, number)
#define STATE_IS(place, number) is(#place, state[place], __LINE__, number)

static uint64_t answer[8];
static uint64_t state[8];

static void is(const char *name, uint64_t told, int line, uint64_t number) {
    if (told == number) return;
    printf("names.c, line %d: %s is %" PRIu64 "\n", line, name, told);
    exit(1);
}

/* An accepted answer with this next place. */
static void accepted(uint64_t next) {
    IS(THAOLISEM_REFUSAL, 0);
    IS(THAOLISEM_NEXT, next);
}

/* A refusal that carries a number. */
static void refused(uint64_t refusal, uint64_t carried) {
    IS(THAOLISEM_REFUSAL, refusal);
    IS(THAOLISEM_NEXT, 0);
    IS(THAOLISEM_FOUND_CLASS, 0);
    IS(THAOLISEM_CARRIED, carried);
}

/* A refusal that carries a tag. */
static void found(uint64_t refusal, uint64_t tag_class, uint64_t number, uint64_t value) {
    IS(THAOLISEM_REFUSAL, refusal);
    IS(THAOLISEM_NEXT, 0);
    IS(THAOLISEM_FOUND_CLASS, tag_class);
    IS(THAOLISEM_FOUND_NUMBER, number);
    IS(THAOLISEM_FOUND_VALUE, value);
}

static void tags(void) {
    thaolisem_decode_tag(BYTES(0, 0x53), 1, answer);
    accepted(2);
    IS(THAOLISEM_TAG_CLASS, THAOLISEM_APPLICATION);
    IS(THAOLISEM_TAG_NUMBER, 5);
    IS(THAOLISEM_TAG_VALUE, 3);
    thaolisem_decode_tag(BYTES(0x5B), 0, answer);
    IS(THAOLISEM_TAG_CLASS, THAOLISEM_CONTEXT);
    thaolisem_decode_tag(BYTES(0x5E), 0, answer);
    IS(THAOLISEM_TAG_CLASS, THAOLISEM_OPENING);
    thaolisem_decode_tag(BYTES(0x5F), 0, answer);
    IS(THAOLISEM_TAG_CLASS, THAOLISEM_CLOSING);
    thaolisem_decode_unsigned(1, BYTES(7), 0, answer);
    accepted(1);
    IS(THAOLISEM_INTEGER, 7);
}

static void bodies(void) {
    thaolisem_get_tagged_body(9, BYTES(0x6E, 0x22, 7, 8, 0x6F), 0, answer);
    accepted(5);
    IS(THAOLISEM_BODY_START, 1);
    IS(THAOLISEM_BODY_LENGTH, 3);
    IS(THAOLISEM_BODY_NUMBER, 6);
    IS(THAOLISEM_BODY_TAGS, 2);
    thaolisem_get_optional_tagged_body(6, 9, BYTES(0x6E, 0x22, 7, 8, 0x6F), 0, answer);
    accepted(5);
    IS(THAOLISEM_BODY_TAGS, 2);
    IS(THAOLISEM_PRESENCE, THAOLISEM_PRESENT);
    thaolisem_get_optional_tagged_body(6, 9, BYTES(0x10, 0x5B), 1, answer);
    accepted(1);
    IS(THAOLISEM_TAG_CLASS, THAOLISEM_CONTEXT);
    IS(THAOLISEM_TAG_NUMBER, 5);
    IS(THAOLISEM_TAG_VALUE, 3);
    IS(THAOLISEM_PRESENCE, THAOLISEM_ABSENT);
    thaolisem_get_optional_tagged_body(6, 9, BYTES(0x10, 0x5B), 2, answer);
    accepted(2);
    IS(THAOLISEM_TAG_CLASS, 0);
    IS(THAOLISEM_PRESENCE, THAOLISEM_ABSENT);
    thaolisem_get_optional_tagged_body(6, 9, BYTES(0x6E, 0x22), 0, answer);
    refused(THAOLISEM_BYTES_RUN_OUT, 2);
    IS(THAOLISEM_TAGS_READ, 1);
    IS(THAOLISEM_PRESENCE, 0);
    thaolisem_walk(BYTES(0x10, 0x22, 7, 8, 0x10), 0, answer);
    accepted(0);
    IS(THAOLISEM_WALK_TAGS, 3);
}

/* The value of these bytes, with its case and its first field. */
static void value(const uint8_t *bytes, size_t len, uint64_t value_case, uint64_t first) {
    thaolisem_decode_value(bytes, len, 0, answer);
    accepted(len);
    IS(THAOLISEM_CASE, value_case);
    IS(THAOLISEM_VALUE, first);
}

static void values(void) {
    value(BYTES(0x11), THAOLISEM_BOOLEAN, 1);
    value(BYTES(0x44, 0x42, 0x90, 0, 0), THAOLISEM_REAL, 0x42900000);
    value(BYTES(0x45, 8, 0x3F, 0xF0, 0, 0, 0, 0, 0, 0), THAOLISEM_DOUBLE, 0x3FF0000000000000);
    value(BYTES(0xA4, 123, 4, 5, 6), THAOLISEM_DATE, 2023);
    IS(THAOLISEM_DATE_YEAR, 2023);
    IS(THAOLISEM_DATE_MONTH, 4);
    IS(THAOLISEM_DATE_DAY, 5);
    IS(THAOLISEM_DATE_WEEKDAY, 6);
    value(BYTES(0xB4, 1, 2, 3, 4), THAOLISEM_TIME, 1);
    IS(THAOLISEM_TIME_HOUR, 1);
    IS(THAOLISEM_TIME_MINUTE, 2);
    IS(THAOLISEM_TIME_SECOND, 3);
    IS(THAOLISEM_TIME_HUNDREDTHS, 4);
    value(BYTES(0xC4, 0, 0x80, 0, 5), THAOLISEM_OBJECT_ID, 2);
    IS(THAOLISEM_OBJECT_TYPE, 2);
    IS(THAOLISEM_OBJECT_INSTANCE, 5);
    value(BYTES(0x74, 0, 'a', 'b', 'c'), THAOLISEM_TEXT, 2);
    IS(THAOLISEM_TEXT_PLACE, 2);
    IS(THAOLISEM_TEXT_LENGTH, 3);
    value(BYTES(0x63, 7, 8, 9), THAOLISEM_OCTETS, 1);
    IS(THAOLISEM_OCTETS_PLACE, 1);
    IS(THAOLISEM_OCTETS_LENGTH, 3);
    value(BYTES(0x84, 4, 0xF0, 0xF0, 0xF0), THAOLISEM_BITS, 4);
    IS(THAOLISEM_BITS_UNUSED, 4);
    IS(THAOLISEM_BITS_PLACE, 2);
    IS(THAOLISEM_BITS_LENGTH, 3);
    value(BYTES(0x91, 9), THAOLISEM_ENUMERATED, 9);
    value(BYTES(0x21, 7), THAOLISEM_UNSIGNED, 7);
    value(BYTES(0x31, 0xFF), THAOLISEM_SIGNED, (uint64_t)-1);
}

/* The header of these bytes, with its kind. */
static void header(const uint8_t *bytes, size_t len, uint64_t kind) {
    thaolisem_decode_header(bytes, len, 0, answer);
    accepted(len);
    IS(THAOLISEM_KIND, kind);
}

static void headers(void) {
    header(BYTES(0x02, 0x74, 1, 12), THAOLISEM_REQUEST);
    IS(THAOLISEM_REQUEST_SEGMENTS, 7);
    IS(THAOLISEM_REQUEST_SIZE, 4);
    IS(THAOLISEM_REQUEST_ID, 1);
    IS(THAOLISEM_REQUEST_CHOICE, 12);
    header(BYTES(0x30, 1, 12), THAOLISEM_COMPLEX_ACK);
    header(BYTES(0x20, 4, 15), THAOLISEM_SIMPLE_ACK);
    IS(THAOLISEM_ACK_ID, 4);
    IS(THAOLISEM_ACK_CHOICE, 15);
    header(BYTES(0x40, 5, 1, 7), THAOLISEM_SEGMENT_ACK);
    IS(THAOLISEM_SEGMENT_ID, 5);
    IS(THAOLISEM_SEGMENT_SEQUENCE, 1);
    IS(THAOLISEM_SEGMENT_WINDOW, 7);
    header(BYTES(0x50, 8, 12, 0x91, 2, 0x91, 32), THAOLISEM_ERROR);
    IS(THAOLISEM_ERROR_ID, 8);
    IS(THAOLISEM_ERROR_CHOICE, 12);
    IS(THAOLISEM_ERROR_CLASS, 2);
    IS(THAOLISEM_ERROR_CODE, 32);
    header(BYTES(0x60, 7, 9), THAOLISEM_REJECT);
    IS(THAOLISEM_REJECT_ID, 7);
    IS(THAOLISEM_REJECT_REASON, 9);
    header(BYTES(0x71, 8, 4), THAOLISEM_ABORT);
    IS(THAOLISEM_ABORT_SERVER, 1);
    IS(THAOLISEM_ABORT_ID, 8);
    IS(THAOLISEM_ABORT_REASON, 4);
}

/* Takes these bytes as a frame, into a buffer of nine bytes. */
static void take(const uint8_t *bytes, size_t len) {
    static uint8_t buf[9];
    thaolisem_take_segment(state, bytes, len, buf, sizeof buf, answer);
}

/* Three frames of invoke id 5 and choice 14, with parts of 3, 4 and 1 bytes; between them and behind them what each of 24 to 27 refuses. */
static void segments(void) {
    take(BYTES(0x3C, 5, 0, 4, 14, 7, 8, 9));
    accepted(3);
    take(BYTES(0x3C, 5, 1, 128, 14, 6));
    refused(THAOLISEM_WINDOW_NOT_ALLOWED, 0);
    take(BYTES(0x3C, 6, 1, 4, 14, 6));
    refused(THAOLISEM_OTHER_ID_OR_CHOICE, 0);
    take(BYTES(0x3C, 5, 2, 4, 14, 6));
    refused(THAOLISEM_OTHER_SEQUENCE, 0);
    take(BYTES(0x3C, 5, 1, 4, 14, 7, 8, 9, 6));
    accepted(7);
    IS(THAOLISEM_OUTCOME, THAOLISEM_MORE);
    IS(THAOLISEM_DUE, 2);
    STATE_IS(THAOLISEM_STATE_BEGUN, 1);
    STATE_IS(THAOLISEM_STATE_FINISHED, 0);
    STATE_IS(THAOLISEM_STATE_ID, 5);
    STATE_IS(THAOLISEM_STATE_CHOICE, 14);
    STATE_IS(THAOLISEM_STATE_DUE, 2);
    STATE_IS(THAOLISEM_STATE_HELD, 7);
    take(BYTES(0x38, 5, 2, 4, 14, 6));
    accepted(8);
    IS(THAOLISEM_OUTCOME, THAOLISEM_FINISHED);
    IS(THAOLISEM_DUE, 3);
    STATE_IS(THAOLISEM_STATE_FINISHED, 1);
    take(BYTES(0x38, 5, 3, 4, 14, 6));
    refused(THAOLISEM_ALREADY_FINISHED, 0);
}

/* Each refusal but THAOLISEM_OTHER_TAG_VALUE, which no function gives, and those that segments alone are given. */
static void refusals(void) {
    static uint8_t buf[65536];
    thaolisem_decode_tag(buf, sizeof buf, 0, answer);
    refused(THAOLISEM_BUFFER_TOO_LONG, 65536);
    thaolisem_decode_tag(buf, 0, 9, answer);
    refused(THAOLISEM_PLACE_PAST_END, 9);
    thaolisem_decode_unsigned(4, buf, 1, 1, answer);
    refused(THAOLISEM_BYTES_RUN_OUT, 5);
    thaolisem_get_tagged_body_for_tag(5, 9, BYTES(0x6E), 0, answer);
    found(THAOLISEM_OTHER_TAG_NUMBER, THAOLISEM_OPENING, 6, 0);
    thaolisem_get_tagged_body(9, BYTES(0x5B), 0, answer);
    found(THAOLISEM_NO_OPENING_TAG, THAOLISEM_CONTEXT, 5, 3);
    thaolisem_decode_unsigned(9, buf, 1, 0, answer);
    refused(THAOLISEM_LENGTH_NOT_ALLOWED, 9);
    thaolisem_decode_value(BYTES(0xD4), 0, answer);
    found(THAOLISEM_NOT_A_VALUE_TAG, THAOLISEM_APPLICATION, 13, 4);
    thaolisem_decode_value(BYTES(0x71, 4), 0, answer);
    refused(THAOLISEM_OTHER_CHARACTER_SET, 4);
    thaolisem_check_utf8(BYTES('a', 0xFF), answer);
    refused(THAOLISEM_TEXT_NOT_UTF8, 1);
    thaolisem_encode_header(THAOLISEM_SIMPLE_ACK, 1, 34, 0, 0, buf, 9, 0, answer);
    refused(THAOLISEM_SERVICE_CHOICE_TOO_LARGE, 34);
    thaolisem_encode_header(THAOLISEM_SIMPLE_ACK, 1, 256, 0, 0, buf, 9, 0, answer);
    refused(THAOLISEM_CANNOT_BE_WRITTEN, 0);
    thaolisem_encode_header(THAOLISEM_SIMPLE_ACK, 1, 12, 256, 256, buf, 2, 0, answer);
    refused(THAOLISEM_NO_ROOM, 3);
    thaolisem_get_tagged_body(1, BYTES(0x6E, 0x10, 0x6F), 0, answer);
    refused(THAOLISEM_ALLOWANCE_SPENT, 1);
    IS(THAOLISEM_TAGS_READ, 1);
    thaolisem_walk(BYTES(0x21, 7, 0x10, 0x3F), 0, answer);
    refused(THAOLISEM_CLOSING_WITHOUT_OPENING, 3);
    IS(THAOLISEM_TAGS_READ, 2);
    for (int i = 0; i < 17; i++) buf[i] = 0x3E;
    thaolisem_walk(buf, 17, 0, answer);
    refused(THAOLISEM_TOO_MANY_BLOCKS_OPEN, 16);
    thaolisem_decode_header(BYTES(0x10), 0, answer);
    refused(THAOLISEM_OTHER_PDU_TYPE, 0x10);
    thaolisem_decode_value(BYTES(0x95, 5, 1, 0, 0, 0, 0), 0, answer);
    refused(THAOLISEM_ENUMERATED_TOO_LARGE, 0);
}

int main(void) {
    tags();
    bodies();
    values();
    headers();
    segments();
    refusals();
    return 0;
}
