// Two checksums of a packet: Fletcher-16 and Adler-32, both in one pass without a division for each byte. Used where a
// CRC is too slow: files on their way to a spacecraft, images in flash memory.
// Input: the number of bytes, then the bytes. Output: Fletcher-16, Adler-32, and how many packets of the eight with one
// byte changed Fletcher-16 can tell from the first.

const unsigned ADLER_BASE = 65521;
const int PACKET_LIMIT = 128;
unsigned packet[128];

unsigned fold_fletcher(unsigned sum) {
    while (sum > 255) {
        sum = (sum & 255) + (sum >> 8);
    }
    return sum;
}

unsigned fletcher16(int count) {
    unsigned low = 255;
    unsigned high = 255;
    for (int i = 0; i < count; i++) {
        low = fold_fletcher(low + packet[i]);
        high = fold_fletcher(high + low);
    }
    return (high << 8) | low;
}

unsigned adler32(int count) {
    unsigned low = 1;
    unsigned high = 0;
    for (int i = 0; i < count; i++) {
        low += packet[i];
        if (low >= ADLER_BASE) {
            low -= ADLER_BASE;
        }
        high += low;
        if (high >= ADLER_BASE) {
            high -= ADLER_BASE;
        }
    }
    return (high << 16) | low;
}

int main(void) {
    int count = in_word();
    if (count < 1 || count > PACKET_LIMIT) {
        return 1;
    }
    for (int i = 0; i < count; i++) {
        packet[i] = in_word() & 0xff;
    }
    unsigned sum = fletcher16(count);
    out_word(sum);
    out_word(adler32(count));
    int told = 0;
    for (int bit = 0; bit < 8; bit++) {
        int place = bit % count;
        packet[place] ^= 1u << bit;
        if (fletcher16(count) != sum) {
            told++;
        }
        packet[place] ^= 1u << bit;
    }
    out_word(told);
    return 0;
}
