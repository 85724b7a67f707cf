/* What tests/measure/library_cost counts: one of the ways below over the frames of a file. It tells how many frames there are, how
 * many bytes their messages have, and how many bytes memcpy and memmove copied, where these are wrapped by -DCOPIES. */
#include <stdio.h>
#include <stdlib.h>
#include <string.h>
#include "plain_codec.h"
#include "uecp.h"

enum { LONGEST = 1 << 20, MOST = 1 << 17, PIECE = 4096 };

typedef struct {
    uint16_t site;
    uint8_t encoder, counter, length, message[255];
} kept_frame;

static uint8_t bytes[LONGEST], out[UECP_FRAME_MAX];
static kept_frame frames[MOST];
static size_t length, count, messages, copied;
static uecp_finding finding;
static uecp_answer answer;
static uecp_handle handle = UECP_NO_OBJECT;

/* The ways: each answers how many frames it found, or how many bytes it made. */

static size_t plain_encodes(void)
{
    size_t all = 0;
    for (size_t i = 0; i < count; i++)
        all += plain_encode(frames[i].site, frames[i].encoder, frames[i].counter, frames[i].message, frames[i].length, out);
    return all;
}

static size_t encodes(void)
{
    size_t all = 0;
    for (size_t i = 0; i < count; i++)
        all += uecp_encode(frames[i].site, frames[i].encoder, frames[i].counter, frames[i].message, frames[i].length, out,
                           sizeof out);
    return all;
}

static size_t plain_finds(void)
{
    static plain_finding found;
    size_t place = 0, all = 0;
    do {
        place += plain_find(bytes + place, length - place, &found);
        all += found.kind == 1;
    } while (found.kind);
    return all;
}

static size_t finds(void)
{
    size_t place = 0, all = 0;
    do {
        place += uecp_find(bytes + place, length - place, &finding);
        all += finding.kind == UECP_FRAME;
    } while (finding.kind);
    return all;
}

static size_t feeds(void)
{
    size_t all = 0;
    for (size_t place = 0, used; place < length; place += used) {
        size_t piece = length - place < PIECE ? length - place : PIECE;
        uecp_deframer_feed(&handle, bytes + place, piece, &used, &finding);
        all += finding.kind == UECP_FRAME;
    }
    return all;
}

static size_t answers(void)
{
    size_t all = 0;
    for (size_t place = 0, used; place < length; place += used) {
        size_t piece = length - place < PIECE ? length - place : PIECE;
        uecp_encoder_feed(&handle, bytes + place, piece, &used, &answer);
        all += answer.kind == UECP_REPLY;
    }
    return all;
}

/* A call with no bytes, for each frame: what is paid to come to the object and back. */
static size_t nothings(void)
{
    size_t used = 0;
    for (size_t i = 0; i < count; i++)
        uecp_deframer_feed(&handle, bytes, 0, &used, &finding);
    return count;
}

static const struct {
    const char *name;
    size_t (*run)(void);
} ways[] = {{"plain encode", plain_encodes}, {"uecp_encode", encodes}, {"plain find", plain_finds}, {"uecp_find", finds},
            {"uecp_deframer_feed", feeds}, {"uecp_encoder_feed", answers}, {"no bytes", nothings}};

#ifdef COPIES
static bool counts;
void *__real_memcpy(void *to, const void *from, size_t size);
void *__real_memmove(void *to, const void *from, size_t size);
void *__wrap_memcpy(void *to, const void *from, size_t size);
void *__wrap_memmove(void *to, const void *from, size_t size);

static size_t noted(size_t size)
{
    copied += counts ? size : 0;
    return size;
}

void *__wrap_memcpy(void *to, const void *from, size_t size) { return __real_memcpy(to, from, noted(size)); }
void *__wrap_memmove(void *to, const void *from, size_t size) { return __real_memmove(to, from, noted(size)); }
#endif

/* What callgrind counts. */
__attribute__((noinline)) size_t measured(size_t (*run)(void));
size_t measured(size_t (*run)(void)) { return run(); }

/* Both codecs find the same, and the frames are kept. */
static void same_findings(void)
{
    static plain_finding found;
    size_t place = 0;
    do {
        size_t used = uecp_find(bytes + place, length - place, &finding);
        bool is_same = plain_find(bytes + place, length - place, &found) == used && found.kind == finding.kind;
        if (is_same && found.kind == 1)
            is_same = found.plain[0] == finding.site >> 2 && found.plain[1] == (uint8_t)(finding.site << 6 | finding.encoder)
                && found.plain[2] == finding.counter && found.plain[3] == finding.length
                && !memcmp(found.plain + 4, finding.message, finding.length);
        if (is_same && found.kind == 2)
            is_same = found.fault == finding.fault && (found.fault != 2 || found.place == finding.place);
        if (!is_same || count == MOST) {
            printf("other findings at %zu\n", place);
            exit(1);
        }
        if (found.kind == 1) {
            kept_frame *kept = &frames[count++];
            *kept = (kept_frame){finding.site, finding.encoder, finding.counter, finding.length, {0}};
            memcpy(kept->message, finding.message, finding.length);
            messages += finding.length;
        }
        place += used;
    } while (found.kind);
}

int main(int given, char **words)
{
    static const uint8_t services[] = {1};
    FILE *file = given == 3 ? fopen(words[2], "rb") : NULL;
    if (!file)
        return 2;
    length = fread(bytes, 1, sizeof bytes, file);
    fclose(file);
    plain_begin();
    same_findings();
    for (size_t i = 0; i < sizeof ways / sizeof *ways; i++)
        if (!strcmp(words[1], ways[i].name)) {
            uint8_t status = ways[i].run == answers ? uecp_encoder_new(&handle, 1, 1, 1, services, 1) : uecp_deframer_new(&handle);
#ifdef COPIES
            counts = true;
#endif
            size_t all = measured(ways[i].run);
#ifdef COPIES
            counts = false;
#endif
            printf("%zu %zu %zu %zu\n", count, messages, copied, all);
            uecp_free(&handle);
            return status;
        }
    return 2;
}
