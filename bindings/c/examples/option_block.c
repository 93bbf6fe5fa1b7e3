/* Reads what three boards answered to a ReadPropertyMultiple request: a revision, a model, and an option block if there is one. */
#include <inttypes.h>
#include <stdio.h>

#include "thaolisem.h"

/* The service, and the properties asked for: the model's name is the standard's, the two others are the maker's own. */
enum { READ_PROPERTY_MULTIPLE = 14, REVISION = 512, MODEL = 70, OPTIONS = 513 };

/* A board with options: the value of that property, block 4, holds block 0, and that a block of its own. */
static const uint8_t with_options[] = {
    0x30, 0x01, 0x0E, 0x0C, 0x02, 0x00, 0x00, 0x05, 0x1E,
    0x2A, 0x02, 0x00, 0x4E, 0x21, 0x04, 0x4F,
    0x29, 0x46, 0x4E, 0x75, 0x07, 0x00, 'V', 'R', '-', '8', '0', '0', 0x4F,
    0x2A, 0x02, 0x01, 0x4E, 0x0E, 0x21, 0x01, 0x1E, 0x91, 0x02, 0x1F, 0x0F, 0x4F,
    0x1F};

/* A board without: the value holds nothing. */
static const uint8_t without_options[] = {
    0x30, 0x02, 0x0E, 0x0C, 0x02, 0x00, 0x00, 0x06, 0x1E,
    0x2A, 0x02, 0x00, 0x4E, 0x21, 0x03, 0x4F,
    0x29, 0x46, 0x4E, 0x75, 0x07, 0x00, 'V', 'R', '-', '8', '0', '0', 0x4F,
    0x2A, 0x02, 0x01, 0x4E, 0x4F,
    0x1F};

/* Where the first board's option block begins, and where a third board's answer, otherwise the first's, was cut. */
enum { OPTIONS_AT = 33, CUT_AT = 36 };

static uint64_t answer[8];

/* What a step of the reading came to: it goes on, the last call was refused, or the answer is another than the one asked for. */
enum step { READ, REFUSED, OTHER };

/* A frame, the place in it that is read next, and the part in which the value of the last property lies. */
struct reading {
    const uint8_t *frame;
    size_t len, place, value, value_len;
};

/* Reads the tag of a class and a number; its value is left in the answer. */
static enum step tag(struct reading *r, uint64_t tag_class, uint64_t number) {
    thaolisem_decode_tag(r->frame, r->len, r->place, answer);
    if (answer[THAOLISEM_REFUSAL] != 0) return REFUSED;
    r->place = answer[THAOLISEM_NEXT];
    return answer[THAOLISEM_TAG_CLASS] == tag_class && answer[THAOLISEM_TAG_NUMBER] == number ? READ : OTHER;
}

/* Reads a property's identifier and the block of its value. */
static enum step property(struct reading *r, uint64_t identifier) {
    enum step step = tag(r, THAOLISEM_CONTEXT, 2);
    if (step != READ) return step;
    thaolisem_decode_unsigned((uint32_t)answer[THAOLISEM_TAG_VALUE], r->frame, r->len, r->place, answer);
    if (answer[THAOLISEM_REFUSAL] != 0) return REFUSED;
    if (answer[THAOLISEM_INTEGER] != identifier) return OTHER;
    thaolisem_get_tagged_body_for_tag(4, r->len, r->frame, r->len, answer[THAOLISEM_NEXT], answer);
    if (answer[THAOLISEM_REFUSAL] != 0) return REFUSED;
    r->place = answer[THAOLISEM_NEXT];
    r->value = answer[THAOLISEM_BODY_START];
    r->value_len = answer[THAOLISEM_BODY_LENGTH];
    return READ;
}

/* Reads a property whose value begins with one of that case; its fields are left in the answer. */
static enum step value(struct reading *r, uint64_t identifier, uint64_t value_case) {
    enum step step = property(r, identifier);
    if (step != READ) return step;
    thaolisem_decode_value(r->frame + r->value, r->value_len, 0, answer);
    if (answer[THAOLISEM_REFUSAL] != 0) return REFUSED;
    return answer[THAOLISEM_CASE] == value_case ? READ : OTHER;
}

/* Prints the option block in the value of a board's options, or that there is none. */
static enum step options(const uint8_t *value, size_t len) {
    thaolisem_get_optional_tagged_body(0, len, value, len, 0, answer);
    if (answer[THAOLISEM_REFUSAL] != 0) return REFUSED;
    if (answer[THAOLISEM_PRESENCE] == THAOLISEM_ABSENT) {
        puts("  options: none");
        return READ;
    }
    printf("  options: ");
    for (size_t i = 0; i < answer[THAOLISEM_BODY_LENGTH]; i++) printf("%02X", value[answer[THAOLISEM_BODY_START] + i]);
    puts("");
    return READ;
}

/* Reads the header, walks the tags behind it, and reads up to the results of the object asked for. */
static enum step begin(struct reading *r) {
    thaolisem_decode_header(r->frame, r->len, 0, answer);
    if (answer[THAOLISEM_REFUSAL] != 0) return REFUSED;
    if (answer[THAOLISEM_KIND] != THAOLISEM_COMPLEX_ACK || answer[THAOLISEM_ACK_CHOICE] != READ_PROPERTY_MULTIPLE) return OTHER;
    r->place = answer[THAOLISEM_NEXT];
    /* From here on every block that was begun is whole. */
    thaolisem_walk(r->frame, r->len, r->place, answer);
    if (answer[THAOLISEM_REFUSAL] != 0) return REFUSED;
    printf("  tags: %" PRIu64 "\n", answer[THAOLISEM_WALK_TAGS]);
    enum step step = tag(r, THAOLISEM_CONTEXT, 0);
    if (step != READ) return step;
    r->place += answer[THAOLISEM_TAG_VALUE];
    return tag(r, THAOLISEM_OPENING, 1);
}

/* Prints what may be filed of a board's answer. */
static enum step board(const uint8_t *frame, size_t len) {
    struct reading r = {frame, len, 0, 0, 0};
    enum step step = begin(&r);
    if (step == READ) step = value(&r, REVISION, THAOLISEM_UNSIGNED);
    if (step != READ) return step;
    printf("  revision: %" PRIu64 "\n", answer[THAOLISEM_VALUE]);
    step = value(&r, MODEL, THAOLISEM_TEXT);
    if (step != READ) return step;
    printf("  model: %.*s\n", (int)answer[THAOLISEM_TEXT_LENGTH], (const char *)frame + r.value + answer[THAOLISEM_TEXT_PLACE]);
    step = property(&r, OPTIONS);
    return step == READ ? options(frame + r.value, r.value_len) : step;
}

/* Prints a board's answer by its number. */
static void show(int number, const uint8_t *frame, size_t len) {
    printf("board %d\n", number);
    switch (board(frame, len)) {
    case READ: break;
    case OTHER: puts("  not what was asked for"); break;
    case REFUSED: printf("  unreadable, ask again: refused %" PRIu64 " carrying %" PRIu64 "\n", answer[THAOLISEM_REFUSAL], answer[THAOLISEM_CARRIED]);
    }
}

int main(void) {
    if (thaolisem_version() != THAOLISEM_VERSION) return 1;
    show(1, with_options, sizeof with_options);
    show(2, without_options, sizeof without_options);
    show(3, with_options, CUT_AT);
    /* Also without the walk a block that was cut is refused, and never none. */
    thaolisem_get_optional_tagged_body(0, CUT_AT, with_options, CUT_AT, OPTIONS_AT, answer);
    printf("its option block alone: refused %" PRIu64 " carrying %" PRIu64 ", tags read: %" PRIu64 "\n", answer[THAOLISEM_REFUSAL], answer[THAOLISEM_CARRIED], answer[THAOLISEM_TAGS_READ]);
    return 0;
}
