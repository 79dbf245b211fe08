// CRC-16/CCITT-FALSE of a telemetry frame, bit by bit: polynomial 0x1021, begins with 0xffff. Used as the frame error
// control of space packets.
// Input: the number of bytes, then the bytes. Output: the CRC, and 0, the CRC of the frame with its CRC behind it.

const int FRAME_LIMIT = 64;
unsigned frame[64];

unsigned crc_of_byte(unsigned crc, unsigned byte) {
    crc ^= byte << 8;
    for (int bit = 0; bit < 8; bit++) {
        if (crc & 0x8000) {
            crc = (crc << 1) ^ 0x1021;
        } else {
            crc = crc << 1;
        }
    }
    return crc & 0xffff;
}

unsigned crc_of_frame(int count) {
    unsigned crc = 0xffff;
    for (int i = 0; i < count; i++) {
        crc = crc_of_byte(crc, frame[i]);
    }
    return crc;
}

int main(void) {
    int count = in_word();
    if (count < 0 || count > FRAME_LIMIT - 2) {
        return 1;
    }
    for (int i = 0; i < count; i++) {
        frame[i] = in_word() & 0xff;
    }
    unsigned crc = crc_of_frame(count);
    out_word(crc);
    frame[count] = crc >> 8;
    frame[count + 1] = crc & 0xff;
    out_word(crc_of_frame(count + 2));
    return 0;
}
