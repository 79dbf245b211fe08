// A receiver of telecommands: a state machine that finds frames in a stream of bytes, checks them and obeys them. Used
// between the radio and what commands are for.
// A frame is 0xeb 0x90, the command, the number of its bytes, these bytes, and a sum that makes all from the command on
// 0 modulo 256. Input: the number of bytes, then the bytes. Output: a word for each thing that is done, then how many
// frames were accepted and how many were refused.

// The states. A case takes a constant, so these numbers stand in `receive` again.
const int HUNT = 0;
const int SYNC = 1;
const int COMMAND = 2;
const int LENGTH = 3;
const int DATA = 4;
const int SUM = 5;

const int DATA_LIMIT = 8;
int state;
int command;
int length;
int have;
unsigned sum;
unsigned data[8];

int accepted;
int refused;
int mode;
unsigned memory[16];

void refuse(void) {
    refused++;
    state = HUNT;
}

void obey(void) {
    accepted++;
    switch (command) {
        case 1:
            // No operation, with an echo.
            out_word(0x100);
            break;
        case 2:
            mode = length > 0 ? data[0] : 0;
            out_word(0x200 | mode);
            break;
        case 3:
            // Loads a word of memory.
            if (length == 5 && data[0] < 16) {
                memory[data[0]] = data[1] << 24 | data[2] << 16 | data[3] << 8 | data[4];
                break;
            }
            out_word(0x3ff);
            break;
        case 4:
            // Dumps words of memory.
            for (int i = 0; i < length; i++) {
                out_word(memory[data[i] & 15]);
            }
            break;
        default:
            out_word(0xf00 | command);
    }
}

void receive(unsigned byte) {
    switch (state) {
        case 0:
            state = byte == 0xeb ? SYNC : HUNT;
            return;
        case 1:
            state = byte == 0x90 ? COMMAND : byte == 0xeb ? SYNC : HUNT;
            return;
    }
    sum = (sum + byte) & 255;
    switch (state) {
        case 2:
            command = byte;
            sum = byte;
            state = LENGTH;
            return;
        case 3:
            if (byte > DATA_LIMIT) {
                refuse();
                return;
            }
            length = byte;
            have = 0;
            state = length == 0 ? SUM : DATA;
            return;
        case 4:
            data[have++] = byte;
            if (have == length) {
                state = SUM;
            }
            return;
        case 5:
            if (sum != 0) {
                refuse();
                return;
            }
            obey();
            state = HUNT;
    }
}

int main(void) {
    int count = in_word();
    for (int i = 0; i < count; i++) {
        receive(in_word() & 255);
    }
    out_word(accepted);
    out_word(refused);
    return 0;
}
