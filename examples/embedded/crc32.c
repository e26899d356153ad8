// CRC-32 of a boot image: a table is made, and the sum is taken of the whole image, of its blocks, and bit by bit without
// the table. The sums of a damaged image tell the block that is wrong.
#include <stdio.h>

unsigned int crc_table[256];
unsigned char image[4096];
unsigned int block_sums[16];

static void put_hex(unsigned int v)
{
    for (int shift = 28; shift >= 0; shift -= 4) putchar("0123456789abcdef"[v >> shift & 15]);
}

static void put_text(const char *s)
{
    while (*s) putchar(*s++);
}

static void crc_init(void)
{
    for (unsigned int n = 0; n < 256; n++) {
        unsigned int c = n;
        for (int k = 0; k < 8; k++) c = c & 1 ? 0xedb88320 ^ c >> 1 : c >> 1;
        crc_table[n] = c;
    }
}

static unsigned int crc_update(unsigned int crc, const unsigned char *data, unsigned int length)
{
    while (length-- > 0) crc = crc_table[(crc ^ *data++) & 0xff] ^ crc >> 8;
    return crc;
}

static unsigned int crc32(const unsigned char *data, unsigned int length)
{
    return ~crc_update(0xffffffff, data, length);
}

static unsigned int crc32_bitwise(const unsigned char *data, unsigned int length)
{
    unsigned int crc = 0xffffffff;
    for (unsigned int i = 0; i < length; i++) {
        crc ^= data[i];
        for (int k = 0; k < 8; k++) crc = crc >> 1 ^ (0xedb88320 & -(crc & 1));
    }
    return ~crc;
}

static void fill_image(unsigned int seed)
{
    for (int i = 0; i < 4096; i++) {
        seed = seed * 1664525 + 1013904223;
        image[i] = seed >> 24;
    }
}

// The first block whose sum is not the stored one, or -1.
static int damaged_block(void)
{
    for (int b = 0; b < 16; b++)
        if (crc32(&image[b * 256], 256) != block_sums[b]) return b;
    return -1;
}

int main(void)
{
    const unsigned char check[9] = {'1', '2', '3', '4', '5', '6', '7', '8', '9'};
    crc_init();
    put_hex(crc32(check, 9));
    putchar('\n');
    for (unsigned int round = 0; round < 4; round++) {
        fill_image(round);
        put_text("image ");
        put_hex(crc32(image, 4096));
        putchar(' ');
        put_hex(crc32_bitwise(image, 2048));
        for (int b = 0; b < 16; b++) block_sums[b] = crc32(&image[b * 256], 256);
        image[round * 1111 + 77] ^= 1 << round;
        put_text(" damaged ");
        put_hex(damaged_block());
        putchar('\n');
    }
    return 0;
}
