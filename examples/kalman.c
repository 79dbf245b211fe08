// A Kalman filter in Q16 for height and speed, with its covariance as a product of matrices of 2 by 2. Used to bring
// measurements together, as of a radar altimeter in a descent.
// Input: the number of steps, then the measured height of each in sixteenths of a metre. Output: height and speed after
// each fourth step, in sixteenths, and at the end the four words of the covariance.

const int ONE = 65536;
const int NOISE = 655;
const int MEASURED_NOISE = 262144;
const int DRIFT[4] = {65536, 6554, 0, 65536};

int height;
int speed;
int covariance[4] = {655360, 0, 0, 655360};
int left[4];
int right[4];
int result[4];

// The product of two numbers in Q16. There are no words of 64 bits, so it is made of halves.
int product(int a, int b) {
    int whole = a >> 16;
    int part = a & 0xffff;
    int other = b >> 16;
    unsigned rest = b & 0xffff;
    return (whole * other << 16) + whole * rest + part * other + (part * rest >> 16);
}

// The quotient of two numbers in Q16, with the second above 0: bit by bit.
int quotient(int a, int b) {
    unsigned rest = a < 0 ? -a : a;
    unsigned divisor = b;
    unsigned q = rest / divisor;
    rest = rest % divisor;
    for (int i = 0; i < 16; i++) {
        rest <<= 1;
        q <<= 1;
        if (rest >= divisor) {
            rest -= divisor;
            q |= 1;
        }
    }
    return a < 0 ? -q : q;
}

// result = left times right.
void multiply(void) {
    for (int row = 0; row < 2; row++) {
        for (int column = 0; column < 2; column++) {
            int sum = 0;
            for (int k = 0; k < 2; k++) {
                sum += product(left[2 * row + k], right[2 * k + column]);
            }
            result[2 * row + column] = sum;
        }
    }
}

// One step of time: the height moves on by the speed, and the covariance becomes F P F' + Q.
void predict(void) {
    height += product(DRIFT[1], speed);
    for (int i = 0; i < 4; i++) {
        left[i] = DRIFT[i];
        right[i] = covariance[i];
    }
    multiply();
    for (int i = 0; i < 4; i++) {
        left[i] = result[i];
        right[i] = DRIFT[(i & 1) << 1 | i >> 1];
    }
    multiply();
    for (int i = 0; i < 4; i++) {
        covariance[i] = result[i] + (i == 0 || i == 3 ? NOISE : 0);
    }
}

void update(int measured) {
    int error = measured - height;
    int spread = covariance[0] + MEASURED_NOISE;
    int gain = quotient(covariance[0], spread);
    int speed_gain = quotient(covariance[2], spread);
    height += product(gain, error);
    speed += product(speed_gain, error);
    covariance[3] -= product(speed_gain, covariance[1]);
    covariance[2] = product(ONE - gain, covariance[2]);
    covariance[1] = covariance[2];
    covariance[0] = product(ONE - gain, covariance[0]);
}

int main(void) {
    int steps = in_word();
    for (int step = 1; step <= steps; step++) {
        predict();
        update(in_word() << 12);
        if (step % 4 == 0) {
            out_word(height >> 12);
            out_word(speed >> 12);
        }
    }
    for (int i = 0; i < 4; i++) {
        out_word(covariance[i]);
    }
    return 0;
}
