// Lossless compression of image lines: the differences of neighbours as Rice codes, with the parameter chosen for each
// block of eight; and the way back. Used on board before images are sent.
// Input: the number of pixels, a multiple of eight, then the pixels of 12 bits. Output: the number of bits, the words,
// and how many pixels came back wrong.

const int BLOCK = 8;
const int PIXEL_LIMIT = 64;
int pixel[64];
unsigned stream[64];
int bits;
int at;

void put_bits(unsigned value, int width) {
    for (int i = width - 1; i >= 0; i--) {
        stream[bits >> 5] |= (value >> i & 1) << (31 - (bits & 31));
        bits++;
    }
}

unsigned get_bits(int width) {
    unsigned value = 0;
    for (int i = 0; i < width; i++) {
        value = value << 1 | (stream[at >> 5] >> (31 - (at & 31)) & 1);
        at++;
    }
    return value;
}

// Differences with a sign as numbers without: 0, -1, 1, -2, 2 ..
unsigned fold(int difference) {
    return difference < 0 ? -2 * difference - 1 : 2 * difference;
}

int unfold(unsigned folded) {
    int half = folded >> 1;
    return folded & 1 ? -half - 1 : half;
}

// The parameter that suits a sum of eight folded differences.
int parameter(unsigned sum) {
    int k = 0;
    while (k < 12 && sum > 8u << k) {
        k++;
    }
    return k;
}

int before(int i) {
    return i == 0 ? 0 : pixel[i - 1];
}

void encode_block(int from) {
    unsigned sum = 0;
    for (int i = from; i < from + BLOCK; i++) {
        sum += fold(pixel[i] - before(i));
    }
    int k = parameter(sum);
    put_bits(k, 4);
    for (int i = from; i < from + BLOCK; i++) {
        unsigned folded = fold(pixel[i] - before(i));
        for (unsigned quotient = folded >> k; quotient > 0; quotient--) {
            put_bits(1, 1);
        }
        put_bits(0, 1);
        put_bits(folded, k);
    }
}

int main(void) {
    int count = in_word();
    if (count < 0 || count > PIXEL_LIMIT || count % BLOCK != 0) {
        return 1;
    }
    for (int i = 0; i < count; i++) {
        pixel[i] = in_word() & 0xfff;
    }
    for (int from = 0; from < count; from += BLOCK) {
        encode_block(from);
    }
    out_word(bits);
    for (int i = 0; 32 * i < bits; i++) {
        out_word(stream[i]);
    }
    int wrong = 0;
    int last = 0;
    int k = 0;
    for (int i = 0; i < count; i++) {
        if (i % BLOCK == 0) {
            k = get_bits(4);
        }
        unsigned quotient = 0;
        while (get_bits(1)) {
            quotient++;
        }
        last += unfold(quotient << k | get_bits(k));
        if (last != pixel[i]) {
            wrong++;
        }
    }
    out_word(wrong);
    return 0;
}
