/* Reads what five boards answered to a ReadProperty request: one with the value, three with an error, a reject and an abort, and one with an error that was cut. */
#include <inttypes.h>
#include <stdio.h>

#include "thaolisem.h"

/* The answers, each with the invoke id of the request to that board: the second frame of samples/frames.txt; class property and code unknown-property; reason unrecognized-service; reason segmentation-not-supported. */
static const uint8_t with_value[] = {0x30, 0x01, 0x0C, 0x0C, 0x00, 0x80, 0x00, 0x05, 0x19,
                                     0x55, 0x3E, 0x44, 0x42, 0x90, 0x00, 0x00, 0x3F};
static const uint8_t with_error[] = {0x50, 0x02, 0x0C, 0x91, 0x02, 0x91, 0x20};
static const uint8_t with_reject[] = {0x60, 0x03, 0x09};
static const uint8_t with_abort[] = {0x71, 0x04, 0x04};

/* As the second, without the code's content. */
static const uint8_t cut[] = {0x50, 0x05, 0x0C, 0x91, 0x02, 0x91};

static uint64_t answer[8];

/* Prints a number of the last answer behind its name. */
static void put(const char *name, int place) {
    printf(", %s %" PRIu64, name, answer[place]);
}

/* Prints what the header that was read last is, by the name of its kind and its numbers. */
static void tell(void) {
    switch (answer[THAOLISEM_KIND]) {
    case THAOLISEM_COMPLEX_ACK:
        printf("complex acknowledgement");
        put("invoke id", THAOLISEM_ACK_ID);
        put("choice", THAOLISEM_ACK_CHOICE);
        break;
    case THAOLISEM_ERROR:
        printf("error");
        put("invoke id", THAOLISEM_ERROR_ID);
        put("choice", THAOLISEM_ERROR_CHOICE);
        put("class", THAOLISEM_ERROR_CLASS);
        put("code", THAOLISEM_ERROR_CODE);
        break;
    case THAOLISEM_REJECT:
        printf("reject");
        put("invoke id", THAOLISEM_REJECT_ID);
        put("reason", THAOLISEM_REJECT_REASON);
        break;
    case THAOLISEM_ABORT:
        printf("abort by the %s", answer[THAOLISEM_ABORT_SERVER] == 1 ? "server" : "client");
        put("invoke id", THAOLISEM_ABORT_ID);
        put("reason", THAOLISEM_ABORT_REASON);
        break;
    default: printf("not what was asked for");
    }
}

/* Prints a board's answer by its number. */
static void show(int number, const uint8_t *frame, size_t len) {
    printf("board %d: ", number);
    thaolisem_decode_header(frame, len, 0, answer);
    if (answer[THAOLISEM_REFUSAL] == 0)
        tell();
    else
        printf("unreadable, ask again: refused %" PRIu64 " carrying %" PRIu64, answer[THAOLISEM_REFUSAL], answer[THAOLISEM_CARRIED]);
    puts("");
}

int main(void) {
    if (thaolisem_version() != THAOLISEM_VERSION) return 1;
    show(1, with_value, sizeof with_value);
    show(2, with_error, sizeof with_error);
    show(3, with_reject, sizeof with_reject);
    show(4, with_abort, sizeof with_abort);
    show(5, cut, sizeof cut);
    return 0;
}
