// LZSS: the input is packed with a window of 256 bytes, unpacked again and compared. A flag byte stands in front of eight
// items, each a byte or a match of 3 to 18 bytes. The sizes and a sum are written, and the first packed bytes.
#include <stdint.h>
#include <stdio.h>
#include <string.h>

#define WINDOW      256
#define SHORTEST    3
#define LONGEST     18
#define MIN(a, b)   ((a) < (b) ? (a) : (b))

static uint8_t text[4096], packed[5120], unpacked[4096];

typedef struct {
    int length;
    int distance;
} Match;

static Match find(int at, int size)
{
    int from = at > WINDOW ? at - WINDOW : 0, most = MIN(size - at, LONGEST);
    Match best = { .length = 0 };
    for (int k = at - 1; k >= from; k--) {
        int n = 0;
        while (n < most && text[k + n] == text[at + n]) n++;
        if (n > best.length) {
            best.length = n;
            best.distance = at - k;
            if (n == most) break;
        }
    }
    return best;
}

static int pack(int size)
{
    Match match;
    int out = 0, flags = 0, bit = 8, at = 0;
    while (at < size) {
        if (bit == 8) {
            flags = out++;
            packed[flags] = 0;
            bit = 0;
        }
        match = find(at, size);
        if (match.length >= SHORTEST) {
            packed[flags] |= 1 << bit;
            packed[out++] = match.distance & 255;
            packed[out++] = (match.distance >> 8) << 4 | (match.length - SHORTEST);
            at += match.length;
        } else {
            packed[out++] = text[at++];
        }
        bit++;
    }
    return out;
}

static int unpack(int size)
{
    int out = 0, flags = 0, bit = 8, at = 0;
    while (at < size) {
        if (bit == 8) {
            flags = packed[at++];
            bit = 0;
            continue;
        }
        if (flags >> bit & 1) {
            int distance = packed[at] | packed[at + 1] >> 4 << 8, length = (packed[at + 1] & 15) + SHORTEST;
            at += 2;
            while (length-- > 0) {
                unpacked[out] = unpacked[out - distance];
                out++;
            }
        } else {
            unpacked[out++] = packed[at++];
        }
        bit++;
    }
    return out;
}

int main(void)
{
    int size = 0, c, small, back;
    uint32_t sum = 0;
    while (size < (int)sizeof text && (c = getchar()) != EOF) text[size++] = c;
    small = pack(size);
    back = unpack(small);
    if (back != size || memcmp(text, unpacked, size) != 0) return 1;
    for (int k = 0; k < small; k++) sum = sum * 31 + packed[k];
    printf("%d %d %u\n", size, small, sum % 65536);
    for (int k = 0; k < 16 && k < small; k++) printf("%02x", packed[k]);
    putchar('\n');
    return 0;
}
