// A serial protocol: frames begin with 0x7e, 0x7d escapes, and a CRC-16 ends each. A sender makes frames, a line loses and changes
// bytes, and a receiver takes what is whole and asks again for the rest. What was received is written at the end.
#include <stdbool.h>
#include <stdint.h>
#include <stdio.h>
#include <string.h>

enum { FLAG = 0x7e, ESCAPE = 0x7d, FLIP = 0x20 };

#define MAX_DATA    32
#define OVERHEAD    4

typedef struct {
    uint8_t sequence;
    uint8_t length;
    uint8_t data[MAX_DATA];
} Frame;

typedef struct {
    uint8_t bytes[40];
    int count;
    bool escaped;
    bool running;
    int expected;
} Receiver;

static Frame sent, got;
static Receiver receiver;
static uint8_t line[128];
static uint32_t line_errors, bad_frames, resent;

static uint32_t crc16(const uint8_t *data, int length)
{
    uint32_t crc = 0xffff;
    for (int i = 0; i < length; i++) {
        crc ^= data[i] << 8;
        for (int k = 0; k < 8; k++) crc = crc & 0x8000 ? (crc << 1 ^ 0x1021) & 0xffff : crc << 1;
    }
    return crc;
}

static int escape(int at, uint8_t byte)
{
    if (byte == FLAG || byte == ESCAPE) {
        line[at++] = ESCAPE;
        byte ^= FLIP;
    }
    line[at++] = byte;
    return at;
}

// Writes a frame to the line and gives how many bytes it takes.
static int encode(const Frame *f)
{
    uint8_t raw[MAX_DATA + OVERHEAD];
    uint32_t crc;
    int at = 0, n = 0;
    raw[n++] = f->sequence;
    raw[n++] = f->length;
    memcpy(raw + n, f->data, f->length);
    n += f->length;
    crc = crc16(raw, n);
    raw[n++] = crc >> 8;
    raw[n++] = crc & 255;
    line[at++] = FLAG;
    for (int k = 0; k < n; k++) at = escape(at, raw[k]);
    line[at++] = FLAG;
    return at;
}

// Takes one byte of the line, and gives 1 where a whole frame is there, which `got` then holds.
static int receive(Receiver *r, uint8_t byte)
{
    int n = r->count;
    if (byte == FLAG) {
        r->count = 0;
        r->escaped = false;
        r->running = true;
        if (n == 0) return 0;
        if (n < 4 || r->bytes[1] != n - 4 || crc16(r->bytes, n - 2) != (r->bytes[n - 2] << 8 | r->bytes[n - 1])) {
            bad_frames++;
            return 0;
        }
        got.sequence = r->bytes[0];
        got.length = r->bytes[1];
        memcpy(got.data, &r->bytes[2], got.length);
        return 1;
    }
    if (!r->running) return 0;
    if (byte == ESCAPE) {
        r->escaped = true;
        return 0;
    }
    if (n == MAX_DATA + OVERHEAD) r->running = r->count = 0;
    else r->bytes[r->count++] = r->escaped ? byte ^ FLIP : byte;
    r->escaped = false;
    return 0;
}

// Sends the frame over the bad line, and gives 1 where it came through.
static bool transmit(void)
{
    static uint32_t noise = 12345;
    int size = encode(&sent);
    bool whole = false;
    for (int k = 0; k < size; k++) {
        noise = noise * 1103515245 + 12345;
        if (noise >> 24 < 2) {
            line_errors++;
            if (noise & 0x10000) continue;
            line[k] ^= 1 << (noise >> 17 & 7);
        }
        if (receive(&receiver, line[k]) && got.sequence == receiver.expected) whole = true;
    }
    return whole;
}

int main(void)
{
    uint32_t sum = 0;
    int c = 0;
    while (c != EOF) {
        sent.length = 0;
        while (sent.length < MAX_DATA && (c = getchar()) != EOF) sent.data[sent.length++] = c;
        while (!transmit()) resent++;
        for (int k = 0; k < got.length; k++) sum = (sum * 31 + got.data[k]) % 65521;
        sent.sequence++;
        receiver.expected = sent.sequence;
    }
    printf("%u %u %u %u %u\n", sent.sequence, line_errors, bad_frames, resent, sum);
    return 0;
}
