// Two filters over the samples of an accelerometer: a FIR low pass of eleven taps in Q15, and a notch as a biquad in
// Q14. Used against noise and against the hum of a reaction wheel.
// Input: the number of samples, then the samples of 14 bits. Output: both filtered samples of each.

const int TAPS = 11;
const int COEFFICIENT[11] = {-210, -328, 516, 3010, 6316, 7850, 6316, 3010, 516, -328, -210};
const int B0 = 14746;
const int B1 = -23859;
const int A1 = -23859;
const int A2 = 13108;

int line[11];
int newest;
int input_1;
int input_2;
int output_1;
int output_2;

int saturate(int value) {
    if (value > 8191) {
        return 8191;
    }
    return value < -8192 ? -8192 : value;
}

int low_pass(int sample) {
    line[newest] = sample;
    int sum = 1 << 14;
    int at = newest;
    for (int tap = 0; tap < TAPS; tap++) {
        sum += COEFFICIENT[tap] * line[at];
        at = at == 0 ? TAPS - 1 : at - 1;
    }
    newest = newest == TAPS - 1 ? 0 : newest + 1;
    return saturate(sum >> 15);
}

int notch(int x) {
    // The last coefficient of the numerator is the first.
    int sum = (1 << 13) + B0 * x + B1 * input_1 + B0 * input_2 - A1 * output_1 - A2 * output_2;
    int y = saturate(sum >> 14);
    input_2 = input_1;
    input_1 = x;
    output_2 = output_1;
    output_1 = y;
    return y;
}

int main(void) {
    int count = in_word();
    for (int i = 0; i < count; i++) {
        int sample = saturate(in_word());
        out_word(low_pass(sample));
        out_word(notch(sample));
    }
    return 0;
}
