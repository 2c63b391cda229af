/*
 * What a display's loader does with a recording: it walks the frames where they lie in memory, takes the radials
 * (message 31), finds the gates of one moment in each and sums them in place. Nothing of the recording is copied.
 *
 *     loader FILE [MOMENT]        MOMENT is REF (the default), VEL, SW, ZDR, PHI or RHO
 */
#include <inttypes.h>
#include <stdio.h>
#include <stdlib.h>
#include <string.h>

#include "ulm.h"

enum { RADIAL = 31 };

struct totals {
    uint64_t frames, radials, without, refused; /* without the moment; radials or headers refused */
    uint64_t gates, below_threshold, range_folded, codes;
    double values;
};

static uint16_t code_at(const uint8_t *gates, uint32_t word, uint64_t i)
{
    return word == 8 ? gates[i] : (uint16_t)(gates[2 * i] << 8 | gates[2 * i + 1]);
}

static void add_gate(struct totals *t, uint16_t code, ulm_gate_answer gate)
{
    t->gates++;
    t->codes += code;
    if (gate.kind == ULM_GATE_BELOW_THRESHOLD)
        t->below_threshold++;
    else if (gate.kind == ULM_GATE_RANGE_FOLDED)
        t->range_folded++;
    else
        t->values += (double)gate.value;
}

/* One radial: the gates are the part of its body that the library names. */
static void add_radial(struct totals *t, const uint8_t *body, size_t len, uint32_t name)
{
    ulm_gates_answer found = ulm_gates(body, len, name);
    if (found.refusal == ULM_REFUSED_ASKED_FOR) {
        t->without++;
        return;
    }
    if (found.refusal != 0) {
        t->refused++;
        return;
    }
    t->radials++;
    for (uint64_t i = 0; i < found.gates; i++) {
        uint16_t code = code_at(body + found.start, found.word, i);
        ulm_gate_answer gate = ulm_value(code, found.scale, found.offset);
        if (gate.refusal != 0) { /* the scale or the offset is wrong, so every gate is refused */
            t->refused++;
            return;
        }
        add_gate(t, code, gate);
    }
}

static void add_message(struct totals *t, const uint8_t *message, size_t len, uint32_t name)
{
    ulm_header_answer header = ulm_header(message, len);
    if (header.refusal != 0)
        t->refused++;
    else if (header.type == RADIAL)
        add_radial(t, message + ULM_HEADER_SIZE, len - ULM_HEADER_SIZE, name);
}

/* Walks the frames. Returns the refusal that stopped the walk, or 0 at the recording's end. */
static uint32_t add_recording(struct totals *t, const uint8_t *recording, size_t len, uint32_t name)
{
    ulm_frame_answer frame = ulm_frame(recording, len, 0);
    for (; frame.found; frame = ulm_frame(recording, len, frame.next)) {
        t->frames++;
        if (frame.kind == ULM_DATA)
            add_message(t, recording + frame.start, frame.size, name);
    }
    if (frame.refusal != 0)
        printf("refused as %" PRIu32 " at byte %" PRIu64 "\n", frame.refusal, frame.next);
    return frame.refusal;
}

static const struct {
    const char *word;
    uint32_t name;
} moments[] = {
    { "REF", ULM_DREF }, { "VEL", ULM_DVEL }, { "SW", ULM_DSW }, { "ZDR", ULM_DZDR }, { "PHI", ULM_DPHI },
    { "RHO", ULM_DRHO },
};

static uint32_t name_of(const char *word)
{
    for (size_t i = 0; i < sizeof moments / sizeof *moments; i++)
        if (strcmp(moments[i].word, word) == 0)
            return moments[i].name;
    return 0;
}

/* The file in memory, or NULL. */
static uint8_t *load(const char *path, size_t *len)
{
    FILE *file = fopen(path, "rb");
    if (file == NULL)
        return NULL;
    uint8_t *bytes = NULL;
    long size = fseek(file, 0, SEEK_END) == 0 ? ftell(file) : -1;
    rewind(file);
    if (size >= 0 && (bytes = malloc((size_t)size + 1)) != NULL)
        *len = fread(bytes, 1, (size_t)size, file);
    fclose(file);
    return bytes;
}

int main(int count, char **arguments)
{
    const char *word = count > 2 ? arguments[2] : "REF";
    size_t len = 0;
    uint8_t *recording = count > 1 && name_of(word) != 0 ? load(arguments[1], &len) : NULL;
    if (recording == NULL) {
        fprintf(stderr, "usage: loader FILE [REF|VEL|SW|ZDR|PHI|RHO]\n");
        return 2;
    }
    struct totals t = { 0 };
    uint32_t refusal = add_recording(&t, recording, len, name_of(word));
    printf("%s: %" PRIu64 " frames, %" PRIu64 " radials, %" PRIu64 " without, %" PRIu64 " refused\n", word, t.frames,
           t.radials, t.without, t.refused);
    printf("%s: %" PRIu64 " gates, %" PRIu64 " below threshold, %" PRIu64 " range folded\n", word, t.gates,
           t.below_threshold, t.range_folded);
    printf("%s: codes sum to %" PRIu64 ", values to %.6f\n", word, t.codes, t.values);
    free(recording);
    return refusal != 0;
}
