/*
 * A relay takes the segments of a message by two lines and hands them to ulm_set, as whole frames, in the order in
 * which they came. Tried are every order of small sets, every way in which two lines come together, and orders of large
 * sets by chance. All orders of a set give one message. Where a frame is missing all are refused as 12, where the
 * output is too small all as 13. Where a frame is refused all are, by one of 2 to 11, but not always by the same one.
 */
#include <inttypes.h>
#include <stdarg.h>
#include <stdio.h>
#include <stdlib.h>
#include <string.h>

#include "make.h"
#include "ulm.h"

#define COUNT(a) (sizeof(a) / sizeof *(a))

enum {
    SMALL = 6,           /* frames of a set of which every order is tried */
    SHARED = 5,          /* frames that two lines share in every way */
    BY_CHANCE = 300,     /* orders of a large set, and as many ways in which two lines bring it */
    NUMBERS = 65536,     /* that the two bytes of a segment number can hold */
    FRAME_HEAD = 12,     /* bytes before a frame's body */
    HEADS = 28,          /* bytes before a segment's data */
    SEGMENT = 2400,      /* bytes of a segment's data, but the last one's */
    MOST_FRAMES = 128,   /* of a message */
    MOST_BODY = 1048560, /* bytes of a radial */
    TOO_LONG = 1048577,  /* bytes of a frame's body that is refused as 3 */
    LEAST_REFUSED = 2,   /* the numbers by which a frame is refused in a set, */
    MOST_REFUSED = 11,   /* up to this one */
    AFTER = 64           /* bytes after the output, which must stay too */
};

static struct chance dice = { 12 };

static uint64_t pick(uint64_t n)
{
    return below(&dice, n);
}

/* ---- What arrives, and what it must give ---- */

/* The frames of a message, its body, and the answer that a set of them must have. */
static struct {
    size_t frames;
    struct {
        uint8_t *bytes;
        size_t size;
    } frame[MOST_FRAMES];
    uint8_t body[MOST_BODY];
    ulm_set_answer answer;
} message;

static uint8_t written[FRAME_HEAD + TOO_LONG + 1024]; /* where the frames lie */

/* An order in which frames came, by their places in the message; some may be absent or come twice. */
struct order {
    size_t n;
    uint32_t frame[MOST_FRAMES + 1];
};

typedef void try_order(const struct order *o);

static void append(struct order *o, uint32_t frame)
{
    o->frame[o->n++] = frame;
}

static struct order order_of_writing(void)
{
    struct order o = { .n = 0 };
    while (o.n < message.frames)
        append(&o, (uint32_t)o.n);
    return o;
}

/* The order without the frame at a place of it. */
static struct order without(const struct order *o, size_t at)
{
    struct order left = { .n = 0 };
    for (size_t i = 0; i < o->n; i++)
        if (i != at)
            append(&left, o->frame[i]);
    return left;
}

/* The order with one frame more, before a place of it. */
static struct order with(const struct order *o, uint32_t frame, size_t at)
{
    struct order more = { .n = 0 };
    for (size_t i = 0; i <= o->n; i++) {
        if (i == at)
            append(&more, frame);
        if (i < o->n)
            append(&more, o->frame[i]);
    }
    return more;
}

/* ---- Failing ---- */

static char check[80]; /* what is tried */
static uint64_t tried; /* how many orders of it */

static void begin(const char *format, ...)
{
    va_list values;
    va_start(values, format);
    vsnprintf(check, sizeof check, format, values);
    va_end(values);
}

_Noreturn static void fail(const struct order *o, const char *what)
{
    printf("FAILED: %s: N = %" PRIu32 ", order%s", check, message.answer.segments, o->n == 0 ? " of no frames" : "");
    for (size_t i = 0; i < o->n; i++)
        printf(" %" PRIu32, o->frame[i] + 1);
    printf(": %s\n", what);
    exit(1);
}

static void expect_tried(uint64_t wanted)
{
    if (tried == wanted)
        return;
    printf("FAILED: %s: %" PRIu64 " orders tried, not %" PRIu64 "\n", check, tried, wanted);
    exit(1);
}

static int same_answer(const ulm_set_answer *a, const ulm_set_answer *b)
{
    return a->refusal == b->refusal && a->size == b->size && a->channel == b->channel && a->type == b->type
           && a->sequence == b->sequence && a->date == b->date && a->ms == b->ms && a->segments == b->segments
           && a->number == b->number && a->length == b->length;
}

static void tell(char *words, size_t room, const ulm_set_answer *a)
{
    snprintf(words, room,
             "refusal %" PRIu32 ", size %" PRIu32 ", channel %" PRIu32 ", type %" PRIu32 ", sequence %" PRIu32
             ", date %" PRIu32 ", ms %" PRIu32 ", segments %" PRIu32 ", number %" PRIu32 ", length %" PRIu64,
             a->refusal, a->size, a->channel, a->type, a->sequence, a->date, a->ms, a->segments, a->number, a->length);
}

static void expect_answer(const struct order *o, const ulm_set_answer *found, const ulm_set_answer *wanted)
{
    char one[300], other[300], both[640];
    if (same_answer(found, wanted))
        return;
    tell(one, sizeof one, found);
    tell(other, sizeof other, wanted);
    snprintf(both, sizeof both, "%s; wanted: %s", one, other);
    fail(o, both);
}

/* ---- Handing over ---- */

static uint8_t handed[2 * sizeof written];
static uint8_t out[MOST_BODY + 2 * AFTER];
static uint8_t held; /* by each byte of the output; another one each time */

static ulm_set_answer hand_over(const struct order *o, size_t room)
{
    size_t n = 0;
    for (size_t i = 0; i < o->n; i++) {
        memcpy(handed + n, message.frame[o->frame[i]].bytes, message.frame[o->frame[i]].size);
        n += message.frame[o->frame[i]].size;
    }
    held += 37;
    memset(out, held, room + AFTER);
    return ulm_set(handed, n, out, room);
}

/* Whether n bytes, at least one, are as the output held them. */
static int still_held(const uint8_t *p, size_t n)
{
    return p[0] == held && memcmp(p, p + 1, n - 1) == 0;
}

/* The answer and the body are held to what was written, so they are the same in every order. */
static void expect_message(const struct order *o, size_t room)
{
    size_t length = message.answer.length;
    ulm_set_answer answer = hand_over(o, room);
    expect_answer(o, &answer, &message.answer);
    if (memcmp(out, message.body, length) != 0)
        fail(o, "another body");
    if (!still_held(out + length, room - length + AFTER))
        fail(o, "a byte after the body changed");
}

static void expect_untouched(const struct order *o, size_t room)
{
    if (!still_held(out, room + AFTER))
        fail(o, "refused, but a byte of the output changed");
}

static void expect_refusal(const struct order *o, size_t room, uint32_t refusal)
{
    ulm_set_answer answer = hand_over(o, room), wanted = { .refusal = refusal };
    expect_answer(o, &answer, &wanted);
    expect_untouched(o, room);
}

/* ---- Messages ---- */

static void add_frame(uint8_t *bytes, size_t size)
{
    if (message.frames == MOST_FRAMES)
        fail(&(struct order){ .n = 0 }, "more frames than a message has segments");
    message.frame[message.frames].bytes = bytes;
    message.frame[message.frames++].size = size;
}

static void cut_frames(size_t n)
{
    message.frames = 0;
    ulm_frame_answer f = ulm_frame(written, n, 0);
    for (; f.found; f = ulm_frame(written, n, f.next))
        add_frame(written + f.start - FRAME_HEAD, FRAME_HEAD + f.size);
    if (f.refusal != 0 || message.frames != message.answer.segments)
        fail(&(struct order){ .n = 0 }, "what was written is not one frame for each segment");
}

static uint32_t any_type(void)
{
    static const uint32_t types[] = { 1, 2, 3, 4, 5, 6, 7, 8, 9, 10, 11, 12, 13, 15, 18 };
    return types[pick(COUNT(types))];
}

static struct make_segment any_segment(uint32_t type, size_t segments)
{
    return (struct make_segment){ .channel = (uint32_t)pick(256),
                                  .type = type,
                                  .sequence = (uint32_t)pick(65536),
                                  .date = 1 + (uint32_t)pick(65535),
                                  .ms = (uint32_t)pick(86400000),
                                  .segments = (uint32_t)segments,
                                  .number = 1 };
}

/* What a set of the message must answer: segment 1's header, with so many bytes of data, and the body's length. */
static void want_answer(const struct make_segment *s, size_t data, size_t length)
{
    message.answer = (ulm_set_answer){ .size = (uint32_t)(HEADS - FRAME_HEAD + data) / 2,
                                       .channel = s->channel,
                                       .type = s->type,
                                       .sequence = s->sequence,
                                       .date = s->date,
                                       .ms = s->ms,
                                       .segments = s->segments,
                                       .number = 1,
                                       .length = length };
}

/* A body by chance, written by the library and cut into frames. */
static void write_message(uint32_t type, size_t length)
{
    size_t most = type == 31 ? MOST_BODY : SEGMENT, segments = (length + most - 1) / most;
    struct make_segment s = any_segment(type, segments);
    fill(&dice, message.body, length);
    want_answer(&s, segments == 1 ? length : most, length);
    ulm_written_answer w = ulm_write((uint8_t)s.channel, (uint8_t)type, (uint16_t)s.sequence, (uint16_t)s.date, s.ms,
                                     message.body, length, written, sizeof written);
    if (w.refusal != 0)
        fail(&(struct order){ .n = 0 }, "the message was not written");
    cut_frames(w.length);
}

/* Segments of any lengths, as others may cut a message; some are empty, but not the first. */
static void make_uneven(size_t segments)
{
    struct make_segment s = any_segment(any_type(), segments);
    size_t at = 0, length = 0, first = 2 + 2 * pick(SEGMENT / 2);
    fill(&dice, message.body, SEGMENT * segments);
    message.frames = 0;
    for (; s.number <= segments; s.number++) {
        size_t data = s.number == 1 ? first : pick(4) == 0 ? 0 : 2 * pick(SEGMENT / 2 + 1);
        size_t size = make_segment(written + at, &s, message.body + length, data);
        add_frame(written + at, size);
        at += size;
        length += data;
    }
    want_answer(&s, first, length);
}

/* Gives each frame a second number and a sequence number of its own. A set's answer has segment 1's. */
static void number_frames(void)
{
    for (size_t i = 0; i < message.frames; i++) {
        put(message.frame[i].bytes + 4, 4, chance(&dice));
        put(message.frame[i].bytes + 16, 2, message.answer.sequence + 1 + i);
    }
    message.answer.sequence = (uint32_t)get(message.frame[0].bytes + 16, 2);
}

enum kind { AS_WRITTEN, NUMBERED, UNEVEN, KINDS };

/* A message of so many segments, the last of which is shorter. */
static void make_message(enum kind kind, size_t segments)
{
    if (kind == UNEVEN)
        make_uneven(segments);
    else
        write_message(any_type(), SEGMENT * (segments - 1) + 2 + 2 * pick(SEGMENT / 2 - 1));
    if (kind != AS_WRITTEN)
        number_frames();
}

/* ---- Every order, and every way in which two lines come together ---- */

static uint8_t marked[SMALL * SMALL * SMALL * SMALL * SMALL * SMALL];

/* No order is tried twice, so if there are as many as there can be, they are all. */
static void mark(const struct order *o)
{
    size_t code = 0;
    for (size_t i = 0; i < o->n; i++)
        code = SMALL * code + o->frame[i];
    if (marked[code]++ != 0)
        fail(o, "this order was tried before");
}

static void swap(struct order *o, size_t i, size_t k)
{
    uint32_t kept = o->frame[i];
    o->frame[i] = o->frame[k];
    o->frame[k] = kept;
}

/* Each order that is the same before a place. */
static void each_order(struct order *o, size_t at, try_order *try)
{
    if (at == o->n) {
        mark(o);
        try(o);
    }
    for (size_t k = at; k < o->n; k++) {
        swap(o, at, k);
        each_order(o, at + 1, try);
        swap(o, at, k);
    }
}

static void every_order(try_order *try)
{
    struct order o = order_of_writing();
    memset(marked, 0, sizeof marked);
    each_order(&o, 0, try);
}

/* Each way in which what is left of two lines comes after what has come; a line brings its frames in their order. */
static void each_merge(struct order *o, const uint32_t *a, size_t a_left, const uint32_t *b, size_t b_left,
                       try_order *try)
{
    if (a_left == 0 && b_left == 0)
        try(o);
    if (a_left > 0) {
        append(o, *a);
        each_merge(o, a + 1, a_left - 1, b, b_left, try);
        o->n--;
    }
    if (b_left > 0) {
        append(o, *b);
        each_merge(o, a, a_left, b + 1, b_left - 1, try);
        o->n--;
    }
}

/* Every way of sharing the frames between two lines: the bits of a number say which frames the second one brings. */
static void every_merge(try_order *try)
{
    for (uint32_t share = 0; share < 1u << message.frames; share++) {
        struct order come = { .n = 0 }, line[2] = { { .n = 0 }, { .n = 0 } };
        for (uint32_t i = 0; i < message.frames; i++)
            append(&line[share >> i & 1], i);
        each_merge(&come, line[0].frame, line[0].n, line[1].frame, line[1].n, try);
    }
}

/* ---- Small sets ---- */

static void try_message(const struct order *o)
{
    expect_message(o, message.answer.length);
    expect_message(o, message.answer.length + 1 + pick(AFTER));
    tried++;
}

static void try_small_room(const struct order *o)
{
    expect_refusal(o, message.answer.length - 1, ULM_REFUSED_OUTPUT_SMALL);
    expect_refusal(o, 0, ULM_REFUSED_OUTPUT_SMALL);
    tried++;
}

/* With room for the whole body and with none: that a frame is missing comes before that. */
static void try_missing(const struct order *o)
{
    for (size_t i = 0; i < o->n; i++) {
        struct order left = without(o, i);
        expect_refusal(&left, message.answer.length, ULM_REFUSED_ABSENT);
        expect_refusal(&left, 0, ULM_REFUSED_ABSENT);
        tried++;
    }
}

/* The frame at a place comes once more, anywhere after it. */
static void try_again(const struct order *o, size_t place)
{
    for (size_t at = place + 1; at <= o->n; at++) {
        struct order twice = with(o, o->frame[place], at);
        expect_refusal(&twice, message.answer.length, ULM_REFUSED_ALREADY_SEEN);
        tried++;
    }
}

static void try_twice(const struct order *o)
{
    for (size_t i = 0; i < o->n; i++)
        try_again(o, i);
}

/* Tries something in every order, or every merge, of sets of each kind. So many are to be tried of one kind. */
static uint64_t try_sets(const char *name, size_t most, void (*every)(try_order *), try_order *try, uint64_t wanted)
{
    begin("%s", name);
    tried = 0;
    for (int kind = 0; kind < KINDS; kind++)
        for (size_t n = 1; n <= most; n++) {
            make_message((enum kind)kind, n);
            every(try);
        }
    expect_tried(KINDS * wanted);
    return tried;
}

static void try_empty(void)
{
    begin("the empty set");
    struct order none = { .n = 0 };
    message.answer.segments = 0;
    for (size_t room = 0; room <= 2; room++) {
        expect_refusal(&none, room, ULM_REFUSED_ABSENT);
        if (ulm_set(NULL, 0, out, room).refusal != ULM_REFUSED_ABSENT)
            fail(&none, "not refused as 12");
        expect_untouched(&none, room);
    }
}

/* ---- Large sets ---- */

static struct order any_order(void)
{
    struct order o = order_of_writing();
    shuffle(&dice, o.frame, o.n);
    return o;
}

/* Each frame is brought by one of two lines, and these come together, all by chance. */
static struct order any_merge(void)
{
    struct order o = { .n = 0 }, line[2] = { { .n = 0 }, { .n = 0 } };
    size_t come[2] = { 0, 0 };
    for (uint32_t i = 0; i < message.frames; i++)
        append(&line[pick(2)], i);
    while (o.n < message.frames) {
        size_t k = pick(2);
        if (come[k] < line[k].n)
            append(&o, line[k].frame[come[k]++]);
    }
    return o;
}

static void try_large(const struct order *o)
{
    struct order left = without(o, pick(o->n));
    try_message(o);
    expect_refusal(o, message.answer.length - 1, ULM_REFUSED_OUTPUT_SMALL);
    expect_refusal(&left, message.answer.length, ULM_REFUSED_ABSENT);
    expect_refusal(&left, 0, ULM_REFUSED_ABSENT);
}

static uint64_t try_large_sets(void)
{
    static const size_t lengths[] = { SEGMENT * 128, SEGMENT * 63 + 2, SEGMENT * 16 + 1234 };
    begin("orders of large sets");
    tried = 0;
    for (size_t i = 0; i < COUNT(lengths); i++) {
        write_message(any_type(), lengths[i]);
        number_frames();
        for (unsigned left = BY_CHANCE; left > 0; left--) {
            struct order shuffled = any_order(), merged = any_merge();
            try_large(&shuffled);
            try_large(&merged);
        }
    }
    expect_tried(2 * BY_CHANCE * COUNT(lengths));
    return tried;
}

/* ---- Messages of one frame ---- */

/* A message of one segment, with every number in its header. */
static uint64_t try_lone(uint32_t type)
{
    tried = 0;
    write_message(type, 2 + 2 * pick(AFTER));
    struct order o = order_of_writing();
    for (uint32_t number = 0; number < NUMBERS; number++) {
        begin("a lone segment of type %" PRIu32 " with the number %" PRIu32, type, number);
        put(message.frame[0].bytes + 26, 2, number);
        try_message(&o);
        expect_refusal(&o, message.answer.length - 1, ULM_REFUSED_OUTPUT_SMALL);
    }
    expect_tried(NUMBERS);
    return tried;
}

/* A short radial with the message's channel, date and time. */
static void add_short_radial(void)
{
    static uint8_t bytes[HEADS + SEGMENT];
    const ulm_set_answer *a = &message.answer;
    ulm_written_answer w = ulm_write((uint8_t)a->channel, 31, (uint16_t)~a->sequence, (uint16_t)a->date, a->ms,
                                     message.body, SEGMENT, bytes, sizeof bytes);
    add_frame(bytes, w.length);
}

/* A radial whose header has the long form, alone, with itself and with a short one. */
static void try_long(size_t length)
{
    begin("a radial of %zu bytes", length);
    write_message(31, length);
    struct order alone = order_of_writing();
    if (get(message.frame[0].bytes + FRAME_HEAD, 2) != 65535)
        fail(&alone, "not in the long form");
    expect_message(&alone, length);
    try_message(&alone);
    expect_refusal(&alone, length - 1, ULM_REFUSED_OUTPUT_SMALL);
    add_short_radial();
    struct order itself = with(&alone, 0, 1), before = with(&alone, 1, 0), after = with(&alone, 1, 1);
    expect_refusal(&itself, length, ULM_REFUSED_ALREADY_SEEN);
    expect_refusal(&before, length, ULM_REFUSED_ALREADY_SEEN);
    expect_refusal(&after, length, ULM_REFUSED_ALREADY_SEEN);
}

/* ---- The numbers that depend on the order ---- */

/* A whole frame that is refused as one of 2 to 11 after the first of two segments; 11 is that segment again. */
static size_t make_refused(uint8_t *to, uint32_t refusal, const struct make_segment *first)
{
    struct make_segment s = *first;
    s.number = 2;
    switch (refusal) {
    case 2: return make_frame(to, 5, 0, NULL, 0);
    case 3: return make_frame(to, ULM_DATA, 0, to + FRAME_HEAD, TOO_LONG);
    case 4: return make_frame(to, ULM_DATA, 0, message.body, 15);
    case 6: s.type = 14; break;
    case 7: s.number = 3; break;
    case 8: s.date = 0; break;
    case 9: return make_frame(to, ULM_KEEP_ALIVE, 0, NULL, 0);
    case 10: s.channel ^= 1; break;
    case 11: s.number = 1; break;
    }
    size_t n = make_segment(to, &s, message.body, 2);
    if (refusal == 5)
        put(to + FRAME_HEAD, 2, 8);
    return n;
}

static uint32_t pair[2]; /* the refusals of the second frame and of the third */

/* The first frame is good: after it, the one that comes next decides. In another order one of 2 to 11 does. */
static void try_trio(const struct order *o)
{
    ulm_set_answer answer = hand_over(o, AFTER), wanted = { .refusal = answer.refusal };
    if (o->frame[0] == 0)
        wanted.refusal = pair[o->frame[1] - 1];
    expect_answer(o, &answer, &wanted);
    expect_untouched(o, AFTER);
    if (answer.refusal < LEAST_REFUSED || answer.refusal > MOST_REFUSED)
        fail(o, "not refused as one of 2 to 11");
    tried++;
}

static void try_pair(uint32_t one, uint32_t other)
{
    struct make_segment s = any_segment(any_type(), 2);
    begin("a good frame, one refused as %" PRIu32 " and one as %" PRIu32, one, other);
    want_answer(&s, 2, 2);
    fill(&dice, message.body, AFTER);
    message.frames = 0;
    pair[0] = one;
    pair[1] = other;
    size_t n = make_segment(written, &s, message.body, 2);
    add_frame(written, n);
    for (size_t i = 0; i < COUNT(pair); i++) {
        size_t size = make_refused(written + n, pair[i], &s);
        add_frame(written + n, size);
        n += size;
    }
    every_order(try_trio);
}

static uint64_t try_pairs(void)
{
    uint64_t pairs = 0;
    tried = 0;
    for (uint32_t one = LEAST_REFUSED; one <= MOST_REFUSED; one++)
        for (uint32_t other = one + 1; other <= MOST_REFUSED; other++, pairs++)
            try_pair(one, other);
    expect_tried(45 * 6);
    return pairs;
}

/* ---- The run ---- */

int main(void)
{
    uint64_t orders = try_sets("every order", SMALL, every_order, try_message, 873);
    uint64_t small = try_sets("every order, too little room", SMALL, every_order, try_small_room, 873);
    uint64_t missing = try_sets("every order, a frame missing", SMALL, every_order, try_missing, 5039);
    uint64_t twice = try_sets("every order, a frame twice", SMALL, every_order, try_twice, 17203);
    uint64_t merges = try_sets("two lines", SHARED, every_merge, try_message, 350);
    try_empty();
    uint64_t large = try_large_sets(), lone = try_lone(any_type()) + try_lone(31);
    try_long(131054);
    try_long(MOST_BODY);
    uint64_t pairs = try_pairs();
    printf("%" PRIu64 " orders and %" PRIu64 " merges of two lines of small sets, %" PRIu64
           " orders of large ones, %" PRIu64 " lone numbers, 2 long radials: one message each; %" PRIu64
           " orders with a frame missing: 12; %" PRIu64 " with too little room: 13; %" PRIu64
           " with a frame twice: 11; %" PRIu64 " pairs of refusals by the order\n",
           orders, merges, large, lone, missing, small, twice, pairs);
    return 0;
}
