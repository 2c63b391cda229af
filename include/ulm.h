/*
 * libulm: RDA/RPG messages of the WSR-88D weather radar, read and written in memory that the caller lends.
 *
 * Every function is total: it takes any pointer with its length and any number, and gives one answer.
 * A slice is a pointer and a length that counts its elements; with length 0 the pointer may be null.
 * An input is never changed, and an output must not overlap an input or another output.
 *
 * Every answer is a struct by value. Its first member is `refusal`: 0, or one of ULM_REFUSED_*.
 * On a refusal every other member is 0 (but `next` of ulm_frame, see there) and no byte of an output has changed.
 * An accepted call that writes fills its output from the start, reports the length and leaves the rest as it was.
 * Where several refusals apply, the answer is the first of the order that stands with each function.
 *
 * Numbers in messages are big-endian. A halfword is 2 bytes. Floats inside messages are handed on by their 32 bits.
 * Widths and order of members are the layout: a host in another language can declare the same structs.
 */
#ifndef ULM_H
#define ULM_H

#include <stddef.h>
#include <stdint.h>

#ifdef __cplusplus
extern "C" {
#endif

/* Why a call was refused. */
enum ulm_refusal {
    /* fewer than 12 bytes left for a frame, or its body runs past the end */
    ULM_REFUSED_FRAME_CUT_OFF = 1,
    /* session kind above 4 */
    ULM_REFUSED_SESSION_KIND = 2,
    /* session body above 1,048,576 bytes */
    ULM_REFUSED_SESSION_BODY = 3,
    /* message under 16 bytes */
    ULM_REFUSED_MESSAGE_SHORT = 4,
    /* size under 8 halfwords or not half of the message's bytes, or, at size 65,535 of type 31, a length in the segment
       fields that is odd, not 131,070 to 1,048,576 or not the message's */
    ULM_REFUSED_SIZE = 5,
    /* message type that is not permitted */
    ULM_REFUSED_TYPE = 6,
    /* segment count not 1 to 128, segment number not 1 to the count where that is above 1, a radial in more than one
       segment, or a size above 1,208 halfwords of another type, 65,535 included */
    ULM_REFUSED_SEGMENT = 7,
    /* date 0, or time of day past 86,399,999 milliseconds */
    ULM_REFUSED_DATE_OR_TIME = 8,
    /* a frame of the set carries no data */
    ULM_REFUSED_NOT_DATA = 9,
    /* a frame disagrees with the set's first */
    ULM_REFUSED_DISAGREES = 10,
    /* a segment number occurs twice */
    ULM_REFUSED_ALREADY_SEEN = 11,
    /* a segment is missing, or the set is empty */
    ULM_REFUSED_ABSENT = 12,
    /* the output has too little room */
    ULM_REFUSED_OUTPUT_SMALL = 13,
    /* radial body under 68 bytes */
    ULM_REFUSED_RADIAL_SHORT = 14,
    /* the radial is compressed */
    ULM_REFUSED_COMPRESSION = 15,
    /* radial length under 68 or above the body's */
    ULM_REFUSED_RADIAL_LENGTH = 16,
    /* block count not 4 to 9 */
    ULM_REFUSED_BLOCK_COUNT = 17,
    /* a pointer too early, or too near the end of the radial for the head of a block */
    ULM_REFUSED_POINTER = 18,
    /* a block's name wrong, unknown or repeated */
    ULM_REFUSED_NAME = 19,
    /* a block shorter than its least, too many gates, a word size other than 8 or 16, or a block past the end of the
       radial */
    ULM_REFUSED_BLOCK = 20,
    /* no such moment, gate, elevation, azimuth or kilometre */
    ULM_REFUSED_ASKED_FOR = 21,
    /* scale not finite or not above 0, or offset not finite */
    ULM_REFUSED_SCALE_OR_OFFSET = 22,
    /* body or list of message 8, 9 or 15 too short or too long */
    ULM_REFUSED_LENGTH = 23,
    /* a field of message 8, 9 or 15 out of range */
    ULM_REFUSED_FIELD = 24,
    /* body to write has an odd length */
    ULM_REFUSED_ODD_BODY = 25,
    /* body to write above 307,200 bytes, or above 1,048,560 for a radial */
    ULM_REFUSED_LONG_BODY = 26
};

/* Kinds of session frames. */
enum ulm_session_kind {
    ULM_LOGIN = 0,
    ULM_LOGIN_ACKNOWLEDGEMENT = 1,
    ULM_DATA = 2,
    ULM_DATA_ACKNOWLEDGEMENT = 3,
    ULM_KEEP_ALIVE = 4
};

/* Kinds of gate values. */
enum ulm_gate_kind {
    ULM_GATE_VALUE = 0,
    ULM_GATE_BELOW_THRESHOLD = 1,
    ULM_GATE_RANGE_FOLDED = 2
};

/* Names of blocks: their four bytes as one big-endian number. The constant blocks: */
#define ULM_RVOL UINT32_C(0x52564F4C)
#define ULM_RELV UINT32_C(0x52454C56)
#define ULM_RRAD UINT32_C(0x52524144)
/* The moments: */
#define ULM_DREF UINT32_C(0x44524546)
#define ULM_DVEL UINT32_C(0x4456454C)
#define ULM_DSW UINT32_C(0x44535720) /* "DSW ", with a space */
#define ULM_DZDR UINT32_C(0x445A4452)
#define ULM_DPHI UINT32_C(0x44504849)
#define ULM_DRHO UINT32_C(0x4452484F)

/* ---- The session frame ---- */

typedef struct ulm_frame_answer {
    uint32_t refusal;
    uint32_t found;  /* 1: a frame; 0: the end */
    uint32_t kind;   /* one of ulm_session_kind */
    uint32_t second; /* the second number, as stored */
    uint64_t start;  /* where the frame's body begins in the buffer */
    uint64_t size;   /* of the body, in bytes */
    uint64_t next;   /* the place after the frame; at the end and on a refusal the place that was given */
} ulm_frame_answer;

/*
 * Reads the session frame at a place of a buffer.
 *
 * A frame is 12 bytes (kind, a second number, body size in bytes, each 32 bits) and its body of at most 1,048,576
 * bytes. A place equal to the length answers the end; a place past it is refusal 1. The body isn't looked into.
 * At the end and on a refusal `next` is the place that was given and the rest is 0.
 *
 * Refusals, in order: 1 (fewer than 12 bytes left), 2, 3, 1 (the body runs past the buffer).
 */
ulm_frame_answer ulm_frame(const uint8_t *buf, size_t len, size_t place);

/* ---- The message header ---- */

/* The bytes of a message header; a message's data begins after them. */
#define ULM_HEADER_SIZE 16

typedef struct ulm_header_answer {
    uint32_t refusal;
    uint32_t size;     /* in halfwords, with the header's ULM_HEADER_SIZE bytes: half of the body's, in both forms */
    uint32_t channel;  /* as stored */
    uint32_t type;     /* 1 to 13, 15, 18 or 31 */
    uint32_t sequence; /* as stored */
    uint32_t date;     /* at least 1 */
    uint32_t ms;       /* milliseconds of the day, at most 86,399,999 */
    uint32_t segments; /* N, 1 to 128; 1 in the long form */
    uint32_t number;   /* of this segment, 1 to N; 1 where N is 1, whatever was stored */
} ulm_header_answer;

/*
 * Reads the header of a message segment: the first ULM_HEADER_SIZE bytes of a data frame's body. The whole
 * body is lent, since its length is checked.
 *
 * Size is 8 to 65,534, and the body is exactly twice that in bytes. Types permitted are 1 to 13, 15, 18 and 31.
 * N is 1 to 128 and the segment number 1 to N; where N is 1 any number is accepted and reported as 1. Type 31 has
 * N = 1; for any other type the size is at most 1,208.
 * Date is at least 1, milliseconds at most 86,399,999.
 *
 * A stored size of 65,535 says that the header has the long form, which type 31 alone may have. The fields of N and of
 * the segment number together are then one number of 32 bits, the body's length in bytes with the header: even, 131,070
 * to 1,048,576, and the length that was lent. Half of it is reported as `size`; `segments` and `number` are 1.
 *
 * Refusals, in order: 4, 5, 6, 7, 8. With the size 65,535: 4, 6, 7 (any other type than 31), 5, 8.
 */
ulm_header_answer ulm_header(const uint8_t *msg, size_t len);

/* ---- Segment sets ---- */

typedef struct ulm_set_answer {
    uint32_t refusal;
    uint32_t size; /* this and the next seven: segment 1's own header, as ulm_header gives it */
    uint32_t channel;
    uint32_t type;
    uint32_t sequence;
    uint32_t date;
    uint32_t ms;
    uint32_t segments;
    uint32_t number;
    uint64_t length; /* of the joined data in the output, in bytes */
} ulm_set_answer;

/*
 * Joins a set of segments: a buffer of frames and nothing else, in any order.
 *
 * All are data frames whose headers pass. They agree with the first in channel, type, date, milliseconds and N;
 * sequence numbers aren't compared. Each of 1 to N appears once.
 * The answer is segment 1's header and, in the output, the data of segment 1, then 2, and so on joined, with its
 * length. At most 307,200 bytes are written (1,048,560 for type 31).
 * In any other order of the same whole frames, with an output of the same length, an accepted set has the same answer
 * and body, 12 stays 12 and 13 stays 13; a refusal by one of 2 to 11 stays one, but may be another of them.
 *
 * Refusals, in order: for each frame in turn those of ulm_frame, 9, those of ulm_header, 10, 11; at the end 12, 13.
 */
ulm_set_answer ulm_set(const uint8_t *buf, size_t len, uint8_t *out, size_t out_len);

/* ---- A damaged recording ---- */

typedef struct ulm_salvage_answer {
    uint32_t refusal;
    uint64_t kept;   /* how many frames */
    uint64_t length; /* of the kept frames in the output, in bytes */
    uint64_t runs;   /* how many runs are listed */
} ulm_salvage_answer;

/*
 * Salvages a damaged recording: walks the buffer from its start. Where a data frame stands that ulm_frame accepts, with
 * a body that ulm_header accepts, it is copied whole to the output and the walk goes on after it; otherwise one byte is
 * skipped. A message's body isn't checked, and nothing is looked for inside a kept frame. Frames of other kinds are
 * skipped bytes. Bytes that pass as a data frame by chance are kept.
 *
 * Each unbroken run of skipped bytes is listed by two numbers, place in the buffer and length. The list has room
 * for n numbers, while `runs` of the answer counts runs. Kept frames and runs cover the buffer, each byte once.
 * Between two runs stands a frame, of 28 bytes or more: out_len = len and n = 2 * ((len + 28) / 29) always suffice.
 *
 * Refusal: 13, where the output or the list is too small.
 */
ulm_salvage_answer ulm_salvage(const uint8_t *buf, size_t len, uint8_t *out, size_t out_len, uint64_t *runs, size_t n);

/* ---- Writing ---- */

typedef struct ulm_written_answer {
    uint32_t refusal;
    uint64_t length; /* of what was written, in bytes */
} ulm_written_answer;

/*
 * Writes a message as data frames, each with its session header and its message header.
 *
 * The body is cut into segments of 2,400 bytes of data; the last may be shorter. An empty body makes one segment; type
 * 31 always makes one frame. The session's second number is 0; every segment repeats the given channel, type, sequence
 * number, date and milliseconds; N is the number of segments, and frames are written in order from number 1 to N.
 * The length written is the body's plus 28 bytes for each segment. A body has at most 307,200 bytes, of type 31 at most
 * 1,048,560. From 131,054 bytes on, which the size cannot hold, the header of type 31 has its long form (ulm_header).
 *
 * Refusals, in order: 6, 8, 25, 26, 13.
 */
ulm_written_answer ulm_write(uint8_t channel, uint8_t type, uint16_t sequence, uint16_t date, uint32_t ms,
                             const uint8_t *body, size_t len, uint8_t *out, size_t out_len);

/* ---- The radial (message 31) ---- */

typedef struct ulm_radial_answer {
    uint32_t refusal;
    uint32_t station;        /* the four bytes of its name */
    uint32_t time;           /* collection time */
    uint32_t date;
    uint32_t azimuth_number;
    uint32_t azimuth;        /* angle, the bits of a float */
    uint32_t radial_length;  /* in bytes */
    uint32_t spacing;        /* azimuth spacing */
    uint32_t status;         /* radial status */
    uint32_t elevation_number;
    uint32_t sector;         /* cut sector */
    uint32_t elevation;      /* angle, the bits of a float */
    uint32_t blanking;       /* spot blanking */
    uint32_t indexing;       /* indexing mode */
    uint32_t blocks;         /* block count, 4 to 9 */
} ulm_radial_answer;

/*
 * Checks a radial and gives its header's values as stored. These, ulm_block for 1 to `blocks` and the lent body are the
 * whole description of the radial.
 *
 * The body has at least 68 bytes, compression 0, a radial length of 68 up to the body's length and 4 to 9 blocks. The
 * radial length has 16 bits, so the blocks of a longer body lie within its first 65,535 bytes.
 * The first block begins at 68 or later, each next one at or after the end of the one before, and all end within the
 * radial length. The first three are RVOL, RELV, RRAD, with a length of at least 44, 12 and 20. Every later block is a
 * moment, no name twice, with at most 1,840 gates of 8 or 16 bits.
 *
 * Refusals, in order: 14, 15, 16, 17, then for each block in pointer order 18, 19, 20.
 */
ulm_radial_answer ulm_radial(const uint8_t *body, size_t len);

typedef struct ulm_block_answer {
    uint32_t refusal;
    uint32_t found;    /* 1: there is such a block; 0: the accepted radial has none, and the rest is 0 */
    uint32_t name;
    uint32_t reserved; /* this and the next nine: of a moment, as stored; 0 for the three constant blocks */
    uint32_t gates;
    uint32_t first;    /* first range */
    uint32_t interval;
    uint32_t overlay;  /* overlay threshold */
    uint32_t noise;    /* noise threshold */
    uint32_t flags;
    uint32_t word;     /* word size in bits, 8 or 16 */
    uint32_t scale;    /* the bits of a float */
    uint32_t offset;   /* the bits of a float */
    uint64_t start;    /* where the block begins in the body */
    uint64_t size;     /* of the whole block, in bytes */
} ulm_block_answer;

/*
 * Finds a block of a radial by its place among the pointers, counted from 1.
 *
 * Refusals: those of ulm_radial. A number that the accepted radial doesn't have is no refusal: `found` is 0.
 */
ulm_block_answer ulm_block(const uint8_t *body, size_t len, uint32_t block);

typedef struct ulm_gates_answer {
    uint32_t refusal;
    uint32_t gates;    /* how many */
    uint32_t word;     /* word size in bits, 8 or 16 */
    uint32_t scale;    /* the bits of a float */
    uint32_t offset;   /* the bits of a float */
    uint32_t first;    /* first range */
    uint32_t interval;
    uint64_t start;    /* where the gates begin in the body */
    uint64_t size;     /* of the gates alone, in bytes */
} ulm_gates_answer;

/*
 * Finds the gates of a moment, by its name: the `size` bytes of the lent body from `start`, one word each, not copied.
 * A word of 16 bits is big-endian. `scale` and `offset` are what ulm_value takes with a code.
 *
 * Refusals, in order: those of ulm_radial, 21 (no moment of that name). A moment with no gates is accepted with size 0.
 */
ulm_gates_answer ulm_gates(const uint8_t *body, size_t len, uint32_t name);

typedef struct ulm_gate_answer {
    uint32_t refusal;
    uint32_t kind; /* one of ulm_gate_kind */
    float value;   /* 0 where kind isn't ULM_GATE_VALUE */
} ulm_gate_answer;

/*
 * Gives the value of one gate of a moment, by the moment's name and the gate's number counted from 0.
 *
 * Code 0 is below threshold, code 1 range folded. Any other code N, turned to a 32-bit float, gives
 * (N - offset) / scale, one rounded subtraction and one rounded division.
 *
 * Refusals, in order: those of ulm_radial, 21 (no such moment or gate), 22 (as ulm_value, whatever the code).
 */
ulm_gate_answer ulm_gate(const uint8_t *body, size_t len, uint32_t name, uint64_t gate);

/*
 * Gives the value of a code at a scale and an offset, given by their bits, as ulm_gate does: for a caller that walks
 * the lent gates itself.
 *
 * Refusal: 22, for a scale that isn't finite or not above 0 or an offset that isn't finite, whatever the code.
 */
ulm_gate_answer ulm_value(uint16_t code, uint32_t scale, uint32_t offset);

/* ---- Requests (message 9) ---- */

typedef struct ulm_request_answer {
    uint32_t refusal;
    uint32_t code; /* 129, 130, 132, 136, 144 or 160 */
} ulm_request_answer;

/*
 * Reads the body of a request: one halfword, 129, 130, 132, 136, 144 or 160.
 *
 * Refusals, in order: 23 (not 2 bytes), 24 (any other number).
 */
ulm_request_answer ulm_request(const uint8_t *body, size_t len);

/*
 * Writes the body of a request, 2 bytes, from a list of exactly one number.
 *
 * Refusals, in order: 23 (not one number), 24 (a number that ulm_request refuses), 13.
 */
ulm_written_answer ulm_write_request(const uint16_t *list, size_t n, uint8_t *out, size_t out_len);

/* ---- Censor zones (message 8) ---- */

typedef struct ulm_censor_answer {
    uint32_t refusal;
    uint32_t count;        /* of regions, 0 to 25 */
    uint16_t regions[150]; /* six numbers each, as stored; 0 past the last region */
} ulm_censor_answer;

/*
 * Reads the body of a censor zones message: region count n (0 to 25), then six halfwords each: start range and stop
 * range 0-511, start azimuth and stop azimuth 0-360, elevation segment 1-5, code 0-2. The length is 2 + 12n.
 * Start above stop is not refused.
 *
 * Refusals, in order: 23 (no count), 24 (the count), 23 (the length), 24 (the fields).
 */
ulm_censor_answer ulm_censor(const uint8_t *body, size_t len);

/*
 * Writes the body of a censor zones message from the same numbers as a list, the count first.
 *
 * Refusals, in order: those of ulm_censor, 13.
 */
ulm_written_answer ulm_write_censor(const uint16_t *list, size_t n, uint8_t *out, size_t out_len);

/* ---- The filter map (message 15) ---- */

typedef struct ulm_map_answer {
    uint32_t refusal;
    uint32_t date;       /* at least 1 */
    uint32_t minutes;    /* 0 to 1,440 */
    uint32_t elevations; /* elevation segments, 1 to 5 */
} ulm_map_answer;

/*
 * Checks the body of a filter map: date (from 1), minutes (0 to 1,440), elevation segments (1 to 5); for each of these
 * 360 azimuths; for each a zone count 1 to 20, then pairs of code (0-2) and end range (0-511). Ends rise strictly and
 * the last is 511.
 *
 * Refusals: fields in byte order, 24 for one out of range and 23 for one that is cut off; then 23 for bytes left over.
 */
ulm_map_answer ulm_map(const uint8_t *body, size_t len);

typedef struct ulm_map_code_answer {
    uint32_t refusal;
    uint32_t code; /* 0 to 2 */
} ulm_map_code_answer;

/*
 * Gives the code of a filter map at an elevation segment (from 1), an azimuth (0-359) and a kilometre (0-511).
 * A zone covers the kilometres after the previous zone's end up to its own end; the first zone begins at 0.
 *
 * Refusals, in order: those of ulm_map, 21 (no such elevation segment, azimuth or kilometre).
 */
ulm_map_code_answer ulm_map_code(const uint8_t *body, size_t len, uint64_t elevation, uint64_t azimuth,
                                 uint64_t kilometre);

typedef struct ulm_comparison_answer {
    uint32_t refusal;
    uint32_t old_elevations; /* elevation segments of the old map, 1 to 5 */
    uint32_t new_elevations; /* and of the new one */
    uint32_t differences;    /* how many are listed, at most 70,200 */
} ulm_comparison_answer;

/*
 * Compares the bodies of two filter maps and lists each difference as six halfwords: elevation segment (from 1),
 * azimuth (0-359), first and last kilometre (0-511), old code, new code. The output has room for n halfwords, which are
 * written in the machine's own byte order.
 *
 * A difference is a longest run of kilometres of one azimuth on which the codes differ and both stay the same. A zone's
 * end at which neither code changes doesn't end the run. Order is by elevation segment, azimuth, kilometre. Elevation
 * segments that only one of the maps has aren't compared, nor are date and minutes.
 * An azimuth has at most 39 differences, so at most 421,200 halfwords are written. Both maps may be the same memory.
 *
 * Refusals, in order: those of ulm_map for the old map, those for the new one, 13.
 */
ulm_comparison_answer ulm_compare_maps(const uint8_t *old_map, size_t old_len, const uint8_t *new_map, size_t new_len,
                                       uint16_t *out, size_t n);

#ifdef __cplusplus
}
#endif

#endif
