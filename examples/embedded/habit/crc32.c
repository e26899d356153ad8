// CRC-32 of a boot image: a table is made, and the sum is taken of the whole image, of its blocks, and bit by bit without
// the table. The sums of a damaged image tell the block that is wrong.
#include <stdint.h>
#include <stdio.h>
#include <string.h>

#define POLY        0xEDB88320u
#define IMAGE_SIZE  4096
#define BLOCK_SIZE  256
#define BLOCKS      (IMAGE_SIZE / BLOCK_SIZE)
#define ARRAY(a)    (sizeof(a) / sizeof((a)[0]))

static uint32_t crc_table[256];
static uint8_t image[IMAGE_SIZE];
static uint32_t block_sums[BLOCKS];

static void crc_init(void)
{
    for (uint32_t n = 0; n < ARRAY(crc_table); n++) {
        uint32_t c = n;
        for (int k = 0; k < 8; k++) c = c & 1 ? POLY ^ c >> 1 : c >> 1;
        crc_table[n] = c;
    }
}

static uint32_t crc_update(uint32_t crc, const uint8_t *data, uint32_t length)
{
    while (length-- > 0) crc = crc_table[(crc ^ *data++) & 0xff] ^ crc >> 8;
    return crc;
}

static uint32_t crc32(const uint8_t *data, uint32_t length)
{
    return ~crc_update(0xffffffff, data, length);
}

static uint32_t crc32_bitwise(const uint8_t *data, uint32_t length)
{
    uint32_t crc = 0xffffffff;
    for (uint32_t i = 0; i < length; i++) {
        crc ^= data[i];
        for (int k = 0; k < 8; k++) crc = crc >> 1 ^ (POLY & -(crc & 1));
    }
    return ~crc;
}

static void fill_image(uint32_t seed)
{
    for (int i = 0; i < IMAGE_SIZE; i++) {
        seed = seed * 1664525 + 1013904223;
        image[i] = seed >> 24;
    }
}

// The first block whose sum is not the stored one, or -1.
static int damaged_block(void)
{
    for (int b = 0; b < BLOCKS; b++)
        if (crc32(&image[b * BLOCK_SIZE], BLOCK_SIZE) != block_sums[b]) return b;
    return -1;
}

int main(void)
{
    static const char digits[] = "123456789";
    uint8_t check[9];

    memcpy(check, digits, sizeof check);
    crc_init();
    printf("%08x\n", crc32(check, sizeof check));
    for (uint32_t round = 0; round < 4; round++) {
        fill_image(round);
        printf("image %08x %08x", crc32(image, sizeof image), crc32_bitwise(image, sizeof image / 2));
        for (int b = 0; b < BLOCKS; b++) block_sums[b] = crc32(&image[b * BLOCK_SIZE], BLOCK_SIZE);
        image[round * 1111 + 77] ^= 1 << round;
        printf(" damaged %08x\n", damaged_block());
    }
    return 0;
}
