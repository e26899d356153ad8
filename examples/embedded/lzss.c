// LZSS: the input is packed with a window of 256 bytes, unpacked again and compared. A flag byte stands in front of eight
// items, each a byte or a match of 3 to 18 bytes. The sizes and a sum are written, and the first packed bytes.
#include <stdio.h>

unsigned char text[4096], packed[5120], unpacked[4096];

struct Match {
    int length;
    int distance;
};

static void put_number(int n)
{
    if (n >= 10) put_number(n / 10);
    putchar('0' + n % 10);
}

static void put_byte(unsigned int v)
{
    putchar("0123456789abcdef"[v >> 4]);
    putchar("0123456789abcdef"[v & 15]);
}

static void find(struct Match *best, int at, int size)
{
    int from = at > 256 ? at - 256 : 0, most = size - at < 18 ? size - at : 18;
    best->length = 0;
    best->distance = 0;
    for (int k = at - 1; k >= from; k--) {
        int n = 0;
        while (n < most && text[k + n] == text[at + n]) n++;
        if (n > best->length) {
            best->length = n;
            best->distance = at - k;
            if (n == most) return;
        }
    }
}

static int pack(int size)
{
    struct Match match;
    int out = 0, flags = 0, bit = 8, at = 0;
    while (at < size) {
        if (bit == 8) {
            flags = out++;
            packed[flags] = 0;
            bit = 0;
        }
        find(&match, at, size);
        if (match.length >= 3) {
            packed[flags] |= 1 << bit;
            packed[out++] = match.distance & 255;
            packed[out++] = (match.distance >> 8) << 4 | (match.length - 3);
            at += match.length;
        } else {
            packed[out++] = text[at++];
        }
        bit++;
    }
    return out;
}

static int unpack(int size)
{
    int out = 0, flags = 0, bit = 8, at = 0;
    while (at < size) {
        if (bit == 8) {
            flags = packed[at++];
            bit = 0;
            continue;
        }
        if (flags >> bit & 1) {
            int distance = packed[at] | packed[at + 1] >> 4 << 8, length = (packed[at + 1] & 15) + 3;
            at += 2;
            while (length-- > 0) {
                unpacked[out] = unpacked[out - distance];
                out++;
            }
        } else {
            unpacked[out++] = packed[at++];
        }
        bit++;
    }
    return out;
}

int main(void)
{
    int size = 0, c, small, back;
    unsigned int sum = 0;
    while (size < 4096 && (c = getchar()) != -1) text[size++] = c;
    small = pack(size);
    back = unpack(small);
    for (int k = 0; k < size; k++)
        if (back != size || text[k] != unpacked[k]) return 1;
    for (int k = 0; k < small; k++) sum = sum * 31 + packed[k];
    put_number(size); putchar(' ');
    put_number(small); putchar(' ');
    put_number(sum % 65536); putchar('\n');
    for (int k = 0; k < 16 && k < small; k++) put_byte(packed[k]);
    putchar('\n');
    return 0;
}
