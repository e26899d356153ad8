// A serial protocol: frames begin with 0x7e, 0x7d escapes, and a CRC-16 ends each. A sender makes frames, a line loses and changes
// bytes, and a receiver takes what is whole and asks again for the rest. What was received is written at the end.
#include <stdio.h>

struct Frame {
    unsigned char sequence;
    unsigned char length;
    unsigned char data[32];
};

struct Receiver {
    unsigned char bytes[40];
    int count;
    int escaped;
    int running;
    int expected;
};

struct Frame sent, got;
struct Receiver receiver;
unsigned char line[128];
unsigned int noise = 12345, line_errors, bad_frames, resent;

static void put_number(unsigned int n)
{
    if (n >= 10) put_number(n / 10);
    putchar('0' + n % 10);
}

static unsigned int crc16(const unsigned char *data, int length)
{
    unsigned int crc = 0xffff;
    for (int i = 0; i < length; i++) {
        crc ^= data[i] << 8;
        for (int k = 0; k < 8; k++) crc = crc & 0x8000 ? (crc << 1 ^ 0x1021) & 0xffff : crc << 1;
    }
    return crc;
}

static int escape(int at, unsigned char byte)
{
    if (byte == 0x7e || byte == 0x7d) {
        line[at++] = 0x7d;
        byte ^= 0x20;
    }
    line[at++] = byte;
    return at;
}

// Writes a frame to the line and gives how many bytes it takes.
static int encode(const struct Frame *f)
{
    unsigned char raw[36];
    unsigned int crc;
    int at = 0, n = 0;
    raw[n++] = f->sequence;
    raw[n++] = f->length;
    for (int k = 0; k < f->length; k++) raw[n++] = f->data[k];
    crc = crc16(raw, n);
    raw[n++] = crc >> 8;
    raw[n++] = crc & 255;
    line[at++] = 0x7e;
    for (int k = 0; k < n; k++) at = escape(at, raw[k]);
    line[at++] = 0x7e;
    return at;
}

// Takes one byte of the line, and gives 1 where a whole frame is there, which `got` then holds.
static int receive(struct Receiver *r, unsigned char byte)
{
    int n = r->count;
    if (byte == 0x7e) {
        r->count = 0;
        r->escaped = 0;
        r->running = 1;
        if (n == 0) return 0;
        if (n < 4 || r->bytes[1] != n - 4 || crc16(r->bytes, n - 2) != (r->bytes[n - 2] << 8 | r->bytes[n - 1])) {
            bad_frames++;
            return 0;
        }
        got.sequence = r->bytes[0];
        got.length = r->bytes[1];
        for (int k = 0; k < got.length; k++) got.data[k] = r->bytes[k + 2];
        return 1;
    }
    if (!r->running) return 0;
    if (byte == 0x7d) {
        r->escaped = 1;
        return 0;
    }
    if (n == 36) r->running = r->count = 0;
    else r->bytes[r->count++] = r->escaped ? byte ^ 0x20 : byte;
    r->escaped = 0;
    return 0;
}

// Sends the frame over the bad line, and gives 1 where it came through.
static int transmit(void)
{
    int size = encode(&sent), whole = 0;
    for (int k = 0; k < size; k++) {
        noise = noise * 1103515245 + 12345;
        if (noise >> 24 < 2) {
            line_errors++;
            if (noise & 0x10000) continue;
            line[k] ^= 1 << (noise >> 17 & 7);
        }
        if (receive(&receiver, line[k]) && got.sequence == receiver.expected) whole = 1;
    }
    return whole;
}

int main(void)
{
    unsigned int sum = 0;
    int c = 0;
    while (c != -1) {
        sent.length = 0;
        while (sent.length < 32 && (c = getchar()) != -1) sent.data[sent.length++] = c;
        while (!transmit()) resent++;
        for (int k = 0; k < got.length; k++) sum = (sum * 31 + got.data[k]) % 65521;
        sent.sequence++;
        receiver.expected = sent.sequence;
    }
    put_number(sent.sequence); putchar(' ');
    put_number(line_errors); putchar(' ');
    put_number(bad_frames); putchar(' ');
    put_number(resent); putchar(' ');
    put_number(sum); putchar('\n');
    return 0;
}
