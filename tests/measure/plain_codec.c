/* A plain codec, as one writes it by hand: a table for the check, one pass over the bytes, no copy of a message. It finds
 * what uecp_find finds; tests/measure/library_cost compares each finding. */
#include "plain_codec.h"
#include <string.h>

static uint16_t table[256];

void plain_begin(void)
{
    for (unsigned byte = 0; byte < 256; byte++) {
        unsigned sum = byte << 8;
        for (int bit = 0; bit < 8; bit++)
            sum = sum << 1 ^ (sum & 0x8000 ? 0x1021 : 0);
        table[byte] = (uint16_t)sum;
    }
}

static uint16_t check(const uint8_t *bytes, size_t length)
{
    uint16_t sum = 0xFFFF;
    for (size_t i = 0; i < length; i++)
        sum = (uint16_t)(sum << 8 ^ table[sum >> 8 ^ bytes[i]]);
    return (uint16_t)~sum;
}

size_t plain_encode(uint16_t site, uint8_t encoder, uint8_t counter, const uint8_t *message, size_t length, uint8_t *out)
{
    uint8_t plain[261], *to = out;
    plain[0] = (uint8_t)(site >> 2);
    plain[1] = (uint8_t)(site << 6 | encoder);
    plain[2] = counter;
    plain[3] = (uint8_t)length;
    memcpy(plain + 4, message, length);
    uint16_t sum = check(plain, length + 4);
    plain[length + 4] = (uint8_t)(sum >> 8);
    plain[length + 5] = (uint8_t)sum;
    *to++ = 0xFE;
    for (size_t i = 0; i < length + 6; i++)
        if (plain[i] < 0xFD)
            *to++ = plain[i];
        else {
            *to++ = 0xFD;
            *to++ = (uint8_t)(plain[i] - 0xFD);
        }
    *to++ = 0xFF;
    return (size_t)(to - out);
}

static int fault_of(const plain_finding *found)
{
    const uint8_t *plain = found->plain;
    size_t count = found->count;
    if (found->place)
        return 2;
    if (count > 261)
        return 3;
    if (count < 6)
        return 4;
    if (plain[3] != count - 6)
        return 5;
    return check(plain, count - 2) == (plain[count - 2] << 8 | plain[count - 1]) ? 0 : 6;
}

size_t plain_find(const uint8_t *bytes, size_t length, plain_finding *found)
{
    const uint8_t *end = bytes + length, *start = memchr(bytes, 0xFE, length);
    found->kind = 0;
    if (!start)
        return length;
    found->count = found->place = 0;
    const uint8_t *at = start + 1;
    for (; at < end && *at < 0xFE; at++) {
        uint8_t byte = *at;
        if (byte == 0xFD && !found->place) {
            if (at + 1 == end)
                return (size_t)(start - bytes);
            if (at[1] < 3)
                byte = (uint8_t)(0xFD + *++at);
            else if (found->count < 261)
                found->place = (size_t)(at - start);
        }
        if (found->count < 262)
            found->plain[found->count++] = byte;
    }
    if (at == end)
        return (size_t)(start - bytes);
    found->fault = *at == 0xFE ? 1 : fault_of(found);
    found->kind = found->fault ? 2 : 1;
    return (size_t)(at - bytes) + (*at == 0xFF);
}
