// A ring buffer between the sensors and the transmitter: samples of twelve bits are kept while the link is away and
// packed densely into words when it is there. Used in every instrument that sees its ground station for minutes.
// Input: pairs of an event and a value until event 0: event 1 puts a sample, 2 asks for so many words, 3 clears. Output:
// the words; at the end how many samples are left and how many were lost.

const int RING = 16;
unsigned ring[16];
int first;
int count;
int lost;

// What waits to be sent, its newest bit lowest.
unsigned pending;
int pending_bits;

void put(unsigned sample) {
    if (count == RING) {
        // The oldest makes room.
        first = (first + 1) & (RING - 1);
        count--;
        lost++;
    }
    ring[(first + count) & (RING - 1)] = sample & 0xfff;
    count++;
}

unsigned take(void) {
    unsigned sample = ring[first];
    first = (first + 1) & (RING - 1);
    count--;
    return sample;
}

// Puts out a word as soon as there are enough bits for one.
int send_word(void) {
    while (count > 0) {
        unsigned sample = take();
        int room = 32 - pending_bits;
        if (room > 12) {
            pending = pending << 12 | sample;
            pending_bits += 12;
        } else {
            int over = 12 - room;
            out_word((room == 32 ? 0 : pending << room) | sample >> over);
            pending = sample & ((1u << over) - 1);
            pending_bits = over;
            return 1;
        }
    }
    return 0;
}

void forget(void) {
    first = 0;
    count = 0;
    pending = 0;
    pending_bits = 0;
}

int main(void) {
    int event = in_word();
    while (event != 0) {
        int value = in_word();
        if (event == 1) {
            put(value);
        } else if (event == 2) {
            while (value > 0 && send_word()) {
                value--;
            }
        } else if (event == 3) {
            forget();
        }
        event = in_word();
    }
    out_word(count);
    out_word(lost);
    return 0;
}
