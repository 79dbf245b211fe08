// CRC-32 (IEEE 802.3) of a block of memory, four bits at a time by a table of 16 words. Used by memory scrubbers and
// boot loaders to tell whether a page is still what was loaded.
// Input: the number of words, then the words. Output: the CRC of their bytes, the high byte first; then the same for
// each page of four words, as a scrubber of memory keeps them.

const unsigned TABLE[16] = {
    0x00000000, 0x1db71064, 0x3b6e20c8, 0x26d930ac, 0x76dc4190, 0x6b6b51f4, 0x4db26158, 0x5005713c,
    0xedb88320, 0xf00f9344, 0xd6d6a3e8, 0xcb61b38c, 0x9b64c2b0, 0x86d3d2d4, 0xa00ae278, 0xbdbdf21c,
};
const int PAGE = 4;
const int MEMORY_WORDS = 64;
unsigned memory[64];

unsigned crc_of_byte(unsigned crc, unsigned byte) {
    crc ^= byte & 0xff;
    crc = TABLE[crc & 15] ^ (crc >> 4);
    return TABLE[crc & 15] ^ (crc >> 4);
}

unsigned crc_of_words(int from, int to) {
    unsigned crc = 0xffffffff;
    for (int i = from; i < to; i++) {
        unsigned word = memory[i];
        for (int shift = 24; shift >= 0; shift -= 8) {
            crc = crc_of_byte(crc, word >> shift);
        }
    }
    return ~crc;
}

int main(void) {
    int count = in_word();
    if (count < 0 || count > MEMORY_WORDS) {
        return 1;
    }
    for (int i = 0; i < count; i++) {
        memory[i] = in_word();
    }
    out_word(crc_of_words(0, count));
    for (int page = 0; page + PAGE <= count; page += PAGE) {
        out_word(crc_of_words(page, page + PAGE));
    }
    return 0;
}
