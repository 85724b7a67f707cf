/* A plain codec of UECP frames in C, beside which tests/measure/library_cost counts what the library costs. */
#ifndef PLAIN_CODEC_H
#define PLAIN_CODEC_H

#include <stddef.h>
#include <stdint.h>

typedef struct {
    int kind;           /* 0 nothing, 1 a frame, 2 a segment that is none */
    int fault;          /* of a segment that is no frame: 1 to 6, as in uecp.h */
    size_t place;       /* of fault 2 the place of the FD */
    size_t count;       /* how many plain bytes there are */
    uint8_t plain[262]; /* of a frame address, counter, length, message and check */
} plain_finding;

void plain_begin(void);
size_t plain_encode(uint16_t site, uint8_t encoder, uint8_t counter, const uint8_t *message, size_t length, uint8_t *out);
size_t plain_find(const uint8_t *bytes, size_t length, plain_finding *found);

#endif
