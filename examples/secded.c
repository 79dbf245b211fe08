// A memory with SEC-DED: an extended Hamming code (8,4) keeps each nibble, corrects one wrong bit and shows two. Used
// with a scrubber for memory whose cells are upset by particles.
// Input: the number of words (each of four nibbles, 16 bits), then the words; the number of upsets, then for each the
// word and the mask of the bits that it inverts. Output: for each scrubbing how many code words were corrected and how
// many were lost; after both the words as they are read.

const int WORD_LIMIT = 16;
unsigned code[16];
int corrected;
int lost;

unsigned parity(unsigned bits) {
    bits ^= bits >> 4;
    bits ^= bits >> 2;
    bits ^= bits >> 1;
    return bits & 1;
}

// Bits 1, 2, 4 of a code word are the parities, 3, 5, 6, 7 the data, and bit 0 makes the whole even.
unsigned encode(unsigned nibble) {
    unsigned word = (nibble & 1) << 3 | (nibble & 14) << 4;
    word |= parity(word & 0xa8) << 1;
    word |= parity(word & 0xc8) << 2;
    word |= parity(word & 0xe0) << 4;
    return word | parity(word);
}

unsigned decode(unsigned word) {
    return (word >> 3 & 1) | (word >> 4 & 14);
}

// The code word with its wrong bit corrected.
unsigned repair(unsigned word) {
    unsigned syndrome = parity(word & 0xaa) | parity(word & 0xcc) << 1 | parity(word & 0xf0) << 2;
    if (parity(word) != 0) {
        corrected++;
        return word ^ 1u << syndrome;
    }
    if (syndrome != 0) {
        lost++;
    }
    return word;
}

void keep(int at, unsigned value) {
    unsigned packed = 0;
    for (int shift = 0; shift < 16; shift += 4) {
        packed |= encode(value >> shift & 15) << 2 * shift;
    }
    code[at] = packed;
}

unsigned recall(int at) {
    unsigned value = 0;
    for (int shift = 0; shift < 16; shift += 4) {
        value |= decode(code[at] >> 2 * shift & 255) << shift;
    }
    return value;
}

void scrub(int count) {
    corrected = 0;
    lost = 0;
    for (int at = 0; at < count; at++) {
        unsigned repaired = 0;
        for (int shift = 0; shift < 32; shift += 8) {
            repaired |= repair(code[at] >> shift & 255) << shift;
        }
        code[at] = repaired;
    }
    out_word(corrected);
    out_word(lost);
}

int main(void) {
    int count = in_word();
    if (count < 0 || count > WORD_LIMIT) {
        return 1;
    }
    for (int at = 0; at < count; at++) {
        keep(at, in_word());
    }
    int upsets = in_word();
    for (int i = 0; i < upsets; i++) {
        int at = in_word();
        code[at] ^= in_word();
    }
    scrub(count);
    scrub(count);
    for (int at = 0; at < count; at++) {
        out_word(recall(at));
    }
    return 0;
}
