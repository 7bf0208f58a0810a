/*
 * capture ORDER TRACE RESENT STEP: writes the slots of a trace to standard output as a packet capture, its numbers with
 * the low or the high byte first. A frame of zeros is left out, unless it is the first of its slot; the first RESENT
 * packets come twice, the second time changed; from slot to slot the numbers grow by STEP.
 */
#include <stdint.h>
#include <stdio.h>
#include <stdlib.h>
#include <string.h>

#define FRAME 11

static int low_first;
static unsigned long resent;

static uint32_t number(const uint8_t *at, unsigned len)
{
    return len == 0 ? 0 : number(at, len - 1) << 8 | at[len - 1];
}

static void put(uint32_t value, int low)
{
    unsigned k;

    for (k = 0; k < 4; k++)
        putchar((int)(value >> 8 * (low ? k : 3 - k) & 255));
}

static void record(uint32_t slot, unsigned host, const uint8_t *frame, int changed)
{
    unsigned k;

    put(0, low_first);
    put(0, low_first);
    put(5 + FRAME, low_first);
    put(5 + FRAME, low_first);
    put(slot, 0);
    putchar((int)host);
    for (k = 0; k < FRAME; k++)
        putchar(frame[k] ^ changed);
}

static void packet(uint32_t slot, unsigned host, const uint8_t *frame)
{
    static const uint8_t zeros[FRAME];

    if (host != 0 && memcmp(frame, zeros, FRAME) == 0)
        return;
    record(slot, host, frame, 0);
    if (resent != 0) {
        resent--;
        record(slot, host, frame, 0x5A);
    }
}

/* Slot k of the whole trace has k times so much added. */
static void slots(const uint8_t *trace, uint32_t step)
{
    unsigned ports = trace[0], bodies = number(trace + 1, 2), b, s, h;
    uint32_t before = 0;

    for (b = 0; b < bodies; b++) {
        const uint8_t *entry = trace + 3 + 10 * b;
        const uint8_t *frame = trace + number(entry + 6, 4) + 3;

        for (s = 0; s < number(entry + 4, 2); s++, before++)
            for (h = 0; h < ports; h++, frame += FRAME)
                packet(number(entry, 4) + s + before * (step - 1), h, frame);
    }
}

int main(int count, char **words)
{
    static uint8_t trace[1 << 26];
    FILE *file = count == 5 ? fopen(words[2], "rb") : NULL;

    if (file == NULL || fread(trace, 1, sizeof trace, file) < 5)
        return 2;
    low_first = strcmp(words[1], "low") == 0;
    resent = strtoul(words[3], NULL, 10);
    put(0xA1B2C3D4u, low_first);
    put(low_first ? 0x00040002u : 0x00020004u, low_first);
    put(0, low_first);
    put(0, low_first);
    put(65535, low_first);
    put(147, low_first);
    slots(trace, (uint32_t)strtoul(words[4], NULL, 10));
    return fclose(stdout) == 0 ? 0 : 1;
}
