/* Takes a board's answer to a ReadPropertyMultiple request in three segments and acknowledges them, then reads the parts joined: a revision, a model, and an option block if there is one. */
#include <inttypes.h>
#include <stdio.h>

#include "thaolisem.h"

/* The request that is answered and its service, and the window that the board proposes, which is granted. */
enum { INVOKE_ID = 7, READ_PROPERTY_MULTIPLE = 14, WINDOW = 2 };

/* The properties asked for: the model's name is the standard's, the two others are the maker's own. */
enum { REVISION = 512, MODEL = 70, OPTIONS = 513 };

/* A board's answer in three frames, each a header of five bytes (control byte, invoke id, sequence number, window, service) and its part: an object, and in block 1 three properties, each with its value in block 4; the value of the options holds block 0, and that two options, each a number and a block of its own. */

/* The first, behind which more follow: the object, its revision 5, and its model VR-900, cut inside the text. */
static const uint8_t first[] = {
    0x3C, 0x07, 0x00, 0x02, 0x0E, 0x0C, 0x02, 0x00, 0x00, 0x07, 0x1E,
    0x2A, 0x02, 0x00, 0x4E, 0x21, 0x05, 0x4F,
    0x29, 0x46, 0x4E, 0x75, 0x07, 0x00, 'V', 'R'};

/* The second, behind which more follow: the model's rest, the first option, and the second, cut between a tag and its content. */
static const uint8_t second[] = {
    0x3C, 0x07, 0x01, 0x02, 0x0E, '-', '9', '0', '0', 0x4F,
    0x2A, 0x02, 0x01, 0x4E, 0x0E, 0x21, 0x01, 0x1E, 0x91, 0x02, 0x1F, 0x21};

/* The third, which is the last: the second option's rest, and the closing tags; no part alone passes the walk. */
static const uint8_t third[] = {
    0x38, 0x07, 0x02, 0x02, 0x0E, 0x03, 0x1E, 0x91, 0x05, 0x1F, 0x0F, 0x4F,
    0x1F};

/* How far the answer was taken, and the buffer in which its parts are joined. */
static uint64_t state[8];
static uint8_t buf[64];

static uint64_t answer[8];

/* What a step of the reading came to: it goes on, the last call was refused, or the answer is another than the one asked for. */
enum step { READ, REFUSED, OTHER };

/* The parts joined, the place in them that is read next, and the part in which the value of the last property lies. */
struct reading {
    const uint8_t *joined;
    size_t len, place, value, value_len;
};

/* Prints the last call's refusal: its number and what it carries. */
static void print_refusal(void) {
    printf("refused %" PRIu64 " carrying %" PRIu64, answer[THAOLISEM_REFUSAL], answer[THAOLISEM_CARRIED]);
}

/* Prints bytes as hexadecimal digits, and ends the line. */
static void print_hex(const uint8_t *bytes, size_t len) {
    for (size_t i = 0; i < len; i++) printf("%02X", bytes[i]);
    puts("");
}

/* Writes and prints the acknowledgement of all segments that were taken so far. */
static void acknowledge(void) {
    uint8_t ack[4];
    uint8_t sequence = (uint8_t)(state[THAOLISEM_STATE_DUE] - 1);
    thaolisem_encode_header(THAOLISEM_SEGMENT_ACK, INVOKE_ID, sequence, WINDOW, 0, ack, sizeof ack, 0, answer);
    printf("  acknowledged: ");
    print_hex(ack, answer[THAOLISEM_NEXT]);
}

/* Takes a frame, and acknowledges the first segment at once, then the last of each window, and the last of all. */
static void receive(int number, const uint8_t *frame, size_t len) {
    static int until_acknowledged = 1;
    printf("frame %d: ", number);
    thaolisem_take_segment(state, frame, len, buf, sizeof buf, answer);
    if (answer[THAOLISEM_REFUSAL] != 0) {
        /* Nothing has changed, and the segment that is due may still come. */
        print_refusal();
    } else if (answer[THAOLISEM_OUTCOME] == THAOLISEM_MORE) {
        printf("more follow");
        until_acknowledged--;
    } else {
        printf("finished");
        until_acknowledged = 0;
    }
    printf(", %" PRIu64 " bytes held, sequence due %" PRIu64 "\n", state[THAOLISEM_STATE_HELD], state[THAOLISEM_STATE_DUE]);
    if (until_acknowledged > 0) return;
    acknowledge();
    until_acknowledged = WINDOW;
}

/* Reads the tag of a class and a number; its value is left in the answer. */
static enum step tag(struct reading *r, uint64_t tag_class, uint64_t number) {
    thaolisem_decode_tag(r->joined, r->len, r->place, answer);
    if (answer[THAOLISEM_REFUSAL] != 0) return REFUSED;
    r->place = answer[THAOLISEM_NEXT];
    return answer[THAOLISEM_TAG_CLASS] == tag_class && answer[THAOLISEM_TAG_NUMBER] == number ? READ : OTHER;
}

/* Reads a property's identifier and the block of its value. */
static enum step property(struct reading *r, uint64_t identifier) {
    enum step step = tag(r, THAOLISEM_CONTEXT, 2);
    if (step != READ) return step;
    thaolisem_decode_unsigned((uint32_t)answer[THAOLISEM_TAG_VALUE], r->joined, r->len, r->place, answer);
    if (answer[THAOLISEM_REFUSAL] != 0) return REFUSED;
    if (answer[THAOLISEM_INTEGER] != identifier) return OTHER;
    thaolisem_get_tagged_body_for_tag(4, r->len, r->joined, r->len, answer[THAOLISEM_NEXT], answer);
    if (answer[THAOLISEM_REFUSAL] != 0) return REFUSED;
    r->place = answer[THAOLISEM_NEXT];
    r->value = answer[THAOLISEM_BODY_START];
    r->value_len = answer[THAOLISEM_BODY_LENGTH];
    return READ;
}

/* Reads a property whose value begins with one of that case; its fields are left in the answer. */
static enum step value(struct reading *r, uint64_t identifier, uint64_t value_case) {
    enum step step = property(r, identifier);
    if (step != READ) return step;
    thaolisem_decode_value(r->joined + r->value, r->value_len, 0, answer);
    if (answer[THAOLISEM_REFUSAL] != 0) return REFUSED;
    return answer[THAOLISEM_CASE] == value_case ? READ : OTHER;
}

/* Prints the option block in the value of a board's options, or that there is none. */
static enum step options(const uint8_t *value, size_t len) {
    thaolisem_get_optional_tagged_body(0, len, value, len, 0, answer);
    if (answer[THAOLISEM_REFUSAL] != 0) return REFUSED;
    if (answer[THAOLISEM_PRESENCE] == THAOLISEM_ABSENT) {
        puts("  options: none");
        return READ;
    }
    printf("  options: ");
    print_hex(value + answer[THAOLISEM_BODY_START], answer[THAOLISEM_BODY_LENGTH]);
    return READ;
}

/* Walks the tags of the parts joined, where all were taken and they answer the request, and reads up to the results of the object asked for. */
static enum step begin(struct reading *r) {
    if (state[THAOLISEM_STATE_FINISHED] != 1) return OTHER;
    if (state[THAOLISEM_STATE_ID] != INVOKE_ID || state[THAOLISEM_STATE_CHOICE] != READ_PROPERTY_MULTIPLE) return OTHER;
    /* From here on every block that was begun is whole. */
    thaolisem_walk(r->joined, r->len, r->place, answer);
    if (answer[THAOLISEM_REFUSAL] != 0) return REFUSED;
    printf("  tags: %" PRIu64 "\n", answer[THAOLISEM_WALK_TAGS]);
    enum step step = tag(r, THAOLISEM_CONTEXT, 0);
    if (step != READ) return step;
    r->place += answer[THAOLISEM_TAG_VALUE];
    return tag(r, THAOLISEM_OPENING, 1);
}

/* Prints what may be filed of the board's answer. */
static enum step board(void) {
    struct reading r = {buf, state[THAOLISEM_STATE_HELD], 0, 0, 0};
    enum step step = begin(&r);
    if (step == READ) step = value(&r, REVISION, THAOLISEM_UNSIGNED);
    if (step != READ) return step;
    printf("  revision: %" PRIu64 "\n", answer[THAOLISEM_VALUE]);
    step = value(&r, MODEL, THAOLISEM_TEXT);
    if (step != READ) return step;
    printf("  model: %.*s\n", (int)answer[THAOLISEM_TEXT_LENGTH], (const char *)r.joined + r.value + answer[THAOLISEM_TEXT_PLACE]);
    step = property(&r, OPTIONS);
    return step == READ ? options(r.joined + r.value, r.value_len) : step;
}

int main(void) {
    if (thaolisem_version() != THAOLISEM_VERSION) return 1;
    receive(1, first, sizeof first);
    receive(2, second, sizeof second);
    /* The board sends its second segment twice. */
    receive(3, second, sizeof second);
    receive(4, third, sizeof third);
    puts("board");
    switch (board()) {
    case READ: break;
    case OTHER: puts("  not what was asked for"); break;
    case REFUSED:
        printf("  unreadable, ask again: ");
        print_refusal();
        puts("");
    }
    return 0;
}
