/* Thaolisem: a codec for BACnet's application layer (ASHRAE 135, clauses 20.1 and 20.2).

   Every function but the first puts eight numbers into the array that the caller lends. The first
   of them is 0 where the call is accepted, else the refusal's number; the second is the next place,
   0 where the answer has none; those that a row below does not name are 0.

     a refusal   number, 0, class, a, b, count
                   class 0: a is what the refusal carries
                   class 1 to 4: the tag found, with its number in a and its value in b
                   count: the tags read, where a body or the walk was asked for
     tag         0, next place, class, number, value
     unsigned    0, next place, value
     signed      0, next place, value as int64_t
     body        0, next place, where its view starts, the view's length, the body's number, count
     optional    as a body, and 1 behind the count: the body is there; or 0, the place asked for, class,
                 number, value, 0, 2: it is absent, and this tag stands there, or, where the class is 0,
                 the buffer ends there
     walk        0, 0, count
     value       0, next place, case, a, b, c, d
     header      0, next place, kind, a, b, c, d
     segments    0, bytes held, outcome, sequence due
     utf8        0
     a write     0, next place

   Classes, cases, kinds, outcomes, refusals and the places of the eight numbers, of an answer and of a
   state, have names below.

   A value or a header is written from the fields that it is read with, a to d in their order, except
   that text, octets and bits have no place and no length: their content is the whole lent slice. A
   field that the case or the kind has not is not read.

   NaN: the bits of a Real or Double are kept, read or written, unless they are a NaN's. Every NaN
   is read as 7FC00000 or 7FF8000000000000, and written so, whatever its sign and payload were.

   All that gives 12, each in a write:
     tag         a class that is not 1 to 4; an application number above 15;
                 an opening or a closing with a value that is not 0
     integer     a class that is not 1 or 2
     boolean     a value that is not 0 or 1, under a context tag and as a value
     value       a case that is not 1 to 12
     Real        bits above 4,294,967,295
     Date        a year outside 1900 to 2155; a month, day or day of the week above 255
     Time        a field above 255
     ObjectId    a type above 1,023; an instance above 4,194,303
     Bits        more than 7 unused bits; unused bits with no bytes
     Enumerated  as a value, one above 4,294,967,295
     header      a kind that is not 0 or 2 to 7; segments or size of a request above 15; class or code
                 of an error above 4,294,967,295; a server bit of an abort that is not 0 or 1; another
                 field above 255 (a service choice of 34 to 255 gives 11)

   A read tests 1, then 2, then what the bytes tell as they come; a write tests 1, 2, 12, then 11 or
   10, then 13. A refused write changes no byte of the buffer; one that is accepted changes only the
   bytes from the place to the next place. The writers of integers write the fewest bytes that read as
   the tag and the integer; their 13, which carries how many these are, says that no others would have
   fitted.

   An answer in segments is taken frame by frame. Between the calls the caller keeps its state, eight
   numbers that are all 0 before the first frame, and the bytes held, at the start of a lent buffer. A
   frame tests 27, 1 (for the buffer, then for the frame), 3, 17, 11, 24, 25, 26, then 13. A refused
   frame changes no number of the state and no byte of the buffer; one that is accepted changes only the
   bytes behind those held before, as many as its part has. The buffer may be another at each call, or
   longer: where the bytes held stand at its start as they were left, they are the accepted parts joined.
   Any eight numbers are a state: begun and finished are so by any number but 0, and the others are
   compared as they are, so that one that is no byte is no frame's (25, 26).

   The caller answers for what C cannot say: a pointer is not null, also with a length of 0; so many
   bytes can be read there, in `buf` of a writer or of segments written too; `answer` has room for eight
   numbers, and `state` has eight; and none of the slices and arrays of one call overlap where one of
   them is written. */
#ifndef THAOLISEM_H
#define THAOLISEM_H

#include <stddef.h>
#include <stdint.h>

#ifdef __cplusplus
extern "C" {
#endif

/* The version of the calls that this header declares. */
#define THAOLISEM_VERSION 3

/* The version of the library's calls; where it is not THAOLISEM_VERSION, this header is of another library, and no other function is to be called. */
uint64_t thaolisem_version(void);

/* Classes of a tag. */
enum {
    THAOLISEM_APPLICATION = 1,
    THAOLISEM_CONTEXT = 2,
    THAOLISEM_OPENING = 3,
    THAOLISEM_CLOSING = 4
};

/* Cases of a value, and their fields. */
enum {
    THAOLISEM_BOOLEAN = 1,     /* 0 or 1 */
    THAOLISEM_REAL = 2,        /* the bits of a float */
    THAOLISEM_DOUBLE = 3,      /* the bits of a double */
    THAOLISEM_DATE = 4,        /* year (1900 to 2155), month, day, day of the week */
    THAOLISEM_TIME = 5,        /* hour, minute, second, hundredths */
    THAOLISEM_OBJECT_ID = 6,   /* type, instance */
    THAOLISEM_TEXT = 7,        /* place, length */
    THAOLISEM_OCTETS = 8,      /* place, length */
    THAOLISEM_BITS = 9,        /* unused bits, place, length */
    THAOLISEM_ENUMERATED = 10, /* value */
    THAOLISEM_UNSIGNED = 11,   /* value */
    THAOLISEM_SIGNED = 12      /* value as int64_t */
};

/* Kinds of a header (the PDU type), and their fields. */
enum {
    THAOLISEM_REQUEST = 0,     /* segments, size, invoke id, service choice */
    THAOLISEM_SIMPLE_ACK = 2,  /* invoke id, service choice */
    THAOLISEM_COMPLEX_ACK = 3, /* invoke id, service choice */
    THAOLISEM_SEGMENT_ACK = 4, /* invoke id, sequence number, window size */
    THAOLISEM_ERROR = 5,       /* invoke id, service choice, class, code */
    THAOLISEM_REJECT = 6,      /* invoke id, reason */
    THAOLISEM_ABORT = 7        /* server bit (1: a server sent it), invoke id, reason */
};

/* Whether an optional body is there. */
enum {
    THAOLISEM_PRESENT = 1, /* the body is told */
    THAOLISEM_ABSENT = 2   /* what stands in its place is told: a tag, or, class 0, the buffer's end */
};

/* Outcomes of a frame of an answer in segments. */
enum {
    THAOLISEM_MORE = 1,    /* more frames follow */
    THAOLISEM_FINISHED = 2 /* it was the last: the bytes held are the whole answer's */
};

/* Refusals, and what they carry. */
enum {
    THAOLISEM_BUFFER_TOO_LONG = 1,           /* buffer, lent content or frame over 65,535 bytes: its length */
    THAOLISEM_PLACE_PAST_END = 2,            /* start place past the buffer's end: the place */
    THAOLISEM_BYTES_RUN_OUT = 3,             /* bytes run out: the end for a single byte and for a segment's header, else place plus count */
    THAOLISEM_OTHER_TAG_NUMBER = 4,          /* tag number is not the expected one: the tag found */
    THAOLISEM_OTHER_TAG_VALUE = 5,           /* tag value is not the expected one: the tag found; given by no function here */
    THAOLISEM_NO_OPENING_TAG = 6,            /* no opening tag where a body is asked for: the tag found */
    THAOLISEM_LENGTH_NOT_ALLOWED = 7,        /* content length not allowed: the length */
    THAOLISEM_NOT_A_VALUE_TAG = 8,           /* context class, Null, Double or reserved: the tag found */
    THAOLISEM_OTHER_CHARACTER_SET = 9,       /* character set not 0: the set */
    THAOLISEM_TEXT_NOT_UTF8 = 10,            /* text not UTF-8: the first bad place, from the text's start */
    THAOLISEM_SERVICE_CHOICE_TOO_LARGE = 11, /* service choice above 33: the choice */
    THAOLISEM_CANNOT_BE_WRITTEN = 12,        /* the numbers name nothing that can be written: 0 */
    THAOLISEM_NO_ROOM = 13,                  /* no room: the length of the whole write, for a segment of its part */
    THAOLISEM_ALLOWANCE_SPENT = 14,          /* allowance spent: the tags read */
    THAOLISEM_CLOSING_WITHOUT_OPENING = 15,  /* a closing tag without its opening: its place */
    THAOLISEM_TOO_MANY_BLOCKS_OPEN = 16,     /* a seventeenth block open at once: its place */
    THAOLISEM_OTHER_PDU_TYPE = 17,           /* other PDU type, or segment bit set, for a segment clear: the control byte */
    THAOLISEM_ENUMERATED_TOO_LARGE = 18,     /* enumerated value above 4,294,967,295: 0 */
    THAOLISEM_WINDOW_NOT_ALLOWED = 24,       /* a segment's window is 0 or above 127: 0 */
    THAOLISEM_OTHER_ID_OR_CHOICE = 25,       /* a segment has another invoke id or service choice than the first: 0 */
    THAOLISEM_OTHER_SEQUENCE = 26,           /* a segment has another sequence number than the one due: 0 */
    THAOLISEM_ALREADY_FINISHED = 27          /* the last segment was accepted before: 0 */
};

/* Places of the eight numbers, by kind of answer. */
enum {
    /* every answer */
    THAOLISEM_REFUSAL = 0, /* 0, or the refusal's number */
    THAOLISEM_NEXT = 1,

    /* a refusal; where its class is 0, what it carries is no tag */
    THAOLISEM_FOUND_CLASS = 2,
    THAOLISEM_CARRIED = 3,
    THAOLISEM_FOUND_NUMBER = 3,
    THAOLISEM_FOUND_VALUE = 4,
    THAOLISEM_TAGS_READ = 5,

    /* a tag */
    THAOLISEM_TAG_CLASS = 2,
    THAOLISEM_TAG_NUMBER = 3,
    THAOLISEM_TAG_VALUE = 4,

    /* an integer */
    THAOLISEM_INTEGER = 2,

    /* a body */
    THAOLISEM_BODY_START = 2,
    THAOLISEM_BODY_LENGTH = 3,
    THAOLISEM_BODY_NUMBER = 4,
    THAOLISEM_BODY_TAGS = 5,

    /* an optional body: as a body or, where it is absent, as a tag */
    THAOLISEM_PRESENCE = 6, /* 0 with a refusal */

    /* the walk */
    THAOLISEM_WALK_TAGS = 2,

    /* a value, and the fields of its case; those of one field have it in THAOLISEM_VALUE */
    THAOLISEM_CASE = 2,
    THAOLISEM_VALUE = 3,
    THAOLISEM_DATE_YEAR = 3,
    THAOLISEM_DATE_MONTH = 4,
    THAOLISEM_DATE_DAY = 5,
    THAOLISEM_DATE_WEEKDAY = 6,
    THAOLISEM_TIME_HOUR = 3,
    THAOLISEM_TIME_MINUTE = 4,
    THAOLISEM_TIME_SECOND = 5,
    THAOLISEM_TIME_HUNDREDTHS = 6,
    THAOLISEM_OBJECT_TYPE = 3,
    THAOLISEM_OBJECT_INSTANCE = 4,
    THAOLISEM_TEXT_PLACE = 3,
    THAOLISEM_TEXT_LENGTH = 4,
    THAOLISEM_OCTETS_PLACE = 3,
    THAOLISEM_OCTETS_LENGTH = 4,
    THAOLISEM_BITS_UNUSED = 3,
    THAOLISEM_BITS_PLACE = 4,
    THAOLISEM_BITS_LENGTH = 5,

    /* a header, and the fields of its kind */
    THAOLISEM_KIND = 2,
    THAOLISEM_REQUEST_SEGMENTS = 3,
    THAOLISEM_REQUEST_SIZE = 4,
    THAOLISEM_REQUEST_ID = 5,
    THAOLISEM_REQUEST_CHOICE = 6,
    THAOLISEM_ACK_ID = 3, /* simple and complex */
    THAOLISEM_ACK_CHOICE = 4,
    THAOLISEM_SEGMENT_ID = 3,
    THAOLISEM_SEGMENT_SEQUENCE = 4,
    THAOLISEM_SEGMENT_WINDOW = 5,
    THAOLISEM_ERROR_ID = 3,
    THAOLISEM_ERROR_CHOICE = 4,
    THAOLISEM_ERROR_CLASS = 5,
    THAOLISEM_ERROR_CODE = 6,
    THAOLISEM_REJECT_ID = 3,
    THAOLISEM_REJECT_REASON = 4,
    THAOLISEM_ABORT_SERVER = 3,
    THAOLISEM_ABORT_ID = 4,
    THAOLISEM_ABORT_REASON = 5,

    /* segments; the bytes held are THAOLISEM_NEXT, where the next part goes */
    THAOLISEM_OUTCOME = 2,
    THAOLISEM_DUE = 3
};

/* Places of the eight numbers of a state of segments; the last two are not read, and 0 after every accepted frame. */
enum {
    THAOLISEM_STATE_BEGUN = 0,    /* 0, and 1 once a frame was accepted */
    THAOLISEM_STATE_FINISHED = 1, /* 0, and 1 once the last was accepted */
    THAOLISEM_STATE_ID = 2,       /* the first frame's invoke id */
    THAOLISEM_STATE_CHOICE = 3,   /* the first frame's service choice */
    THAOLISEM_STATE_DUE = 4,      /* the sequence number due */
    THAOLISEM_STATE_HELD = 5      /* the bytes held */
};

/* Reads, at a place of a buffer. */

/* The tag at a place. Refused 1, 2, 3. */
void thaolisem_decode_tag(const uint8_t *buf, size_t len, size_t place, uint64_t answer[8]);

/* The unsigned integer whose content, 1 to 8 bytes, begins at a place; `content` is its length, as a tag's value gives it. Refused 1, 2, 7, 3. */
void thaolisem_decode_unsigned(uint32_t content, const uint8_t *buf, size_t len, size_t place, uint64_t answer[8]);

/* The signed integer, in two's complement, whose content begins at a place. Refused 1, 2, 7, 3. */
void thaolisem_decode_signed(uint32_t content, const uint8_t *buf, size_t len, size_t place, uint64_t answer[8]);

/* The body whose opening tag is at a place, with so many tags read after its opening at the most. Refused 1, 2, 3, 6, 14; 3 also where a body is begun and cut. */
void thaolisem_get_tagged_body(size_t allowance, const uint8_t *buf, size_t len, size_t place, uint64_t answer[8]);

/* The same, where the opening tag is to have the number expected. Refused 1, 2, 3, 4, 14; 3 also where a body is begun and cut. */
void thaolisem_get_tagged_body_for_tag(uint8_t expected, size_t allowance, const uint8_t *buf, size_t len, size_t place, uint64_t answer[8]);

/* The same body if one stands at that place: THAOLISEM_PRESENT, or THAOLISEM_ABSENT where the place is the buffer's end or a whole tag other than the opening of that number stands there. Refused 1, 2, 3, 14; no refusal says that there is none. */
void thaolisem_get_optional_tagged_body(uint8_t expected, size_t allowance, const uint8_t *buf, size_t len, size_t place, uint64_t answer[8]);

/* The strict walk, from a place to the buffer's end: every block closed by its own tag, all content inside. Refused 1, 2, 3, 15, 16, with the tags accepted before. */
void thaolisem_walk(const uint8_t *buf, size_t len, size_t place, uint64_t answer[8]);

/* The value under the application tag at a place; text, octets and bits as a part of the buffer. Refused 1, 2, 3, 7, 8, 9, 10, 18. */
void thaolisem_decode_value(const uint8_t *buf, size_t len, size_t place, uint64_t answer[8]);

/* The header whose control byte is at a place; its body begins at the next place. Refused 1, 2, 3, 11, 17; inside an error, whose class and code are enumerated values under application tag 9, also 4 for another tag, then 7, 3 and 18. */
void thaolisem_decode_header(const uint8_t *buf, size_t len, size_t place, uint64_t answer[8]);

/* Whether a whole text, of any length, is UTF-8. Refused 10. */
void thaolisem_check_utf8(const uint8_t *text, size_t len, uint64_t answer[8]);

/* Writes, at a place of a buffer. Each is refused 1, 2, 12 and 13, and what is named with it. */

/* A tag alone, by its class, number and value. */
void thaolisem_encode_tag(uint8_t tag_class, uint8_t number, uint32_t value, uint8_t *buf, size_t len, size_t place, uint64_t answer[8]);

/* An unsigned integer in the fewest bytes, under application tag 2 (class 1, number not read) or a context tag (class 2). */
void thaolisem_encode_unsigned(uint8_t tag_class, uint8_t number, uint64_t value, uint8_t *buf, size_t len, size_t place, uint64_t answer[8]);

/* A signed integer in the fewest bytes, under application tag 3 (class 1, number not read) or a context tag (class 2). */
void thaolisem_encode_signed(uint8_t tag_class, uint8_t number, int64_t value, uint8_t *buf, size_t len, size_t place, uint64_t answer[8]);

/* An enumerated value, as an unsigned integer of any size, under application tag 9 (class 1, number not read) or a context tag (class 2). */
void thaolisem_encode_enumerated(uint8_t tag_class, uint8_t number, uint64_t value, uint8_t *buf, size_t len, size_t place, uint64_t answer[8]);

/* A boolean, 0 or 1, under a context tag, as one byte of content. */
void thaolisem_encode_context_bool(uint8_t number, uint8_t value, uint8_t *buf, size_t len, size_t place, uint64_t answer[8]);

/* A value under its application tag, by its case and fields; the lent slice is the content of text, octets and bits, and of no other case. Refused 10 too, and 1 also for a lent slice that is too long, whatever the case. */
void thaolisem_encode_value(uint8_t value_case, uint64_t a, uint64_t b, uint64_t c, uint64_t d, const uint8_t *content, size_t content_len, uint8_t *buf, size_t len, size_t place, uint64_t answer[8]);

/* A header alone, by its kind and fields, class and code of an error in the fewest bytes; a field that the kind has not is not read. Refused 11 too. */
void thaolisem_encode_header(uint8_t kind, uint64_t a, uint64_t b, uint64_t c, uint64_t d, uint8_t *buf, size_t len, size_t place, uint64_t answer[8]);

/* Answers in segments, frame by frame. */

/* Takes one whole frame of a complex acknowledgement in segments: its part, the service bytes behind the choice, goes behind the bytes held in `buf`, and the state becomes the one after it. THAOLISEM_MORE, or THAOLISEM_FINISHED with the last frame. Refused 27, 1, 3, 17, 11, 24, 25, 26, 13. */
void thaolisem_take_segment(uint64_t state[8], const uint8_t *frame, size_t frame_len, uint8_t *buf, size_t len, uint64_t answer[8]);

#ifdef __cplusplus
}
#endif

#endif
