/* Reads the answer to a ReadProperty request, prints its parts, and writes the same answer from them. */
#include <inttypes.h>
#include <stdio.h>
#include <stdlib.h>
#include <string.h>

#include "thaolisem.h"

/* The second frame of samples/frames.txt. */
static const uint8_t frame[] = {0x30, 0x01, 0x0C, 0x0C, 0x00, 0x80, 0x00, 0x05, 0x19,
                                0x55, 0x3E, 0x44, 0x42, 0x90, 0x00, 0x00, 0x3F};

static uint64_t answer[8];

/* Ends the program where the last call was refused, or answered what the example is not about. */
static void need(int as_wanted) {
    if (answer[THAOLISEM_REFUSAL] == 0 && as_wanted) return;
    printf("refused %" PRIu64 " carrying %" PRIu64 "\n", answer[THAOLISEM_REFUSAL], answer[THAOLISEM_CARRIED]);
    exit(1);
}

/* The place after what was read or written last. */
static size_t next(void) {
    need(1);
    return answer[THAOLISEM_NEXT];
}

static void show_bytes(const char *what, const uint8_t *bytes, size_t len) {
    printf("%s: ", what);
    for (size_t i = 0; i < len; i++) printf("%02X", bytes[i]);
}

/* The content of a context tag at a place, an integer. */
static uint64_t content_at(size_t place, uint64_t number) {
    thaolisem_decode_tag(frame, sizeof frame, place, answer);
    need(answer[THAOLISEM_TAG_CLASS] == THAOLISEM_CONTEXT && answer[THAOLISEM_TAG_NUMBER] == number);
    uint32_t value = (uint32_t)answer[THAOLISEM_TAG_VALUE];
    printf("tag: context %" PRIu64 ", value %" PRIu32 "\n", number, value);
    thaolisem_decode_unsigned(value, frame, sizeof frame, next(), answer);
    need(1);
    return answer[THAOLISEM_INTEGER];
}

/* The bits of the real that is the body at a place. */
static uint32_t real_at(size_t place) {
    thaolisem_get_tagged_body(1, frame, sizeof frame, place, answer);
    if (answer[THAOLISEM_REFUSAL] == THAOLISEM_ALLOWANCE_SPENT)
        printf("body, allowance of 1 tag: refused %d carrying %" PRIu64 "\n", THAOLISEM_ALLOWANCE_SPENT, answer[THAOLISEM_CARRIED]);
    thaolisem_get_tagged_body(sizeof frame, frame, sizeof frame, place, answer);
    need(answer[THAOLISEM_BODY_NUMBER] == 3);
    const uint8_t *body = frame + answer[THAOLISEM_BODY_START];
    size_t len = answer[THAOLISEM_BODY_LENGTH];
    show_bytes("body 3", body, len);
    printf(", %" PRIu64 " tags\n", answer[THAOLISEM_BODY_TAGS]);
    thaolisem_decode_value(body, len, 0, answer);
    need(answer[THAOLISEM_CASE] == THAOLISEM_REAL);
    return (uint32_t)answer[THAOLISEM_VALUE];
}

int main(void) {
    if (thaolisem_version() != THAOLISEM_VERSION) {
        printf("the library has version %" PRIu64 ", the header is for %d\n", thaolisem_version(), THAOLISEM_VERSION);
        return 1;
    }
    thaolisem_decode_header(frame, sizeof frame, 0, answer);
    need(answer[THAOLISEM_KIND] == THAOLISEM_COMPLEX_ACK);
    uint64_t id = answer[THAOLISEM_ACK_ID], choice = answer[THAOLISEM_ACK_CHOICE];
    printf("header: complex acknowledgement, invoke id %" PRIu64 ", choice %" PRIu64 "\n", id, choice);
    uint32_t object = (uint32_t)content_at(next(), 0);
    printf("object: type %" PRIu32 ", instance %" PRIu32 "\n", object >> 22, object & 0x3FFFFF);
    uint64_t property = content_at(next(), 1);
    printf("property: %" PRIu64 "\n", property);
    uint32_t bits = real_at(next());
    float real;
    memcpy(&real, &bits, sizeof real);
    printf("value: real %g\n", (double)real);

    uint8_t buf[50];
    thaolisem_encode_header(THAOLISEM_COMPLEX_ACK, id, choice, 0, 0, buf, sizeof buf, 0, answer);
    thaolisem_encode_tag(THAOLISEM_CONTEXT, 0, 4, buf, sizeof buf, next(), answer);
    size_t place = next();
    need(place + 4 <= sizeof buf);
    for (size_t i = 0; i < 4; i++) buf[place + i] = (uint8_t)(object >> (24 - 8 * i));
    thaolisem_encode_unsigned(THAOLISEM_CONTEXT, 1, property, buf, sizeof buf, place + 4, answer);
    thaolisem_encode_tag(THAOLISEM_OPENING, 3, 0, buf, sizeof buf, next(), answer);
    thaolisem_encode_value(THAOLISEM_REAL, bits, 0, 0, 0, frame, 0, buf, sizeof buf, next(), answer);
    thaolisem_encode_tag(THAOLISEM_CLOSING, 3, 0, buf, sizeof buf, next(), answer);
    show_bytes("written", buf, next());
    puts("");
    return 0;
}
