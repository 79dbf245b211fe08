// The attitude of a spacecraft as a quaternion in Q14: turned by the rates of a gyroscope, and normalised after each
// step. Used in attitude control between two fixes of the star tracker.
// Input: the number of steps, then three rates for each, as Q14 of half the angle of a step. Output: the quaternion
// after every fourth step, then the square of its norm in Q14.

const int ONE = 16384;
int q[4];
int turned[4];

// The integer square root, digit by digit.
unsigned square_root(unsigned value) {
    unsigned root = 0;
    unsigned bit = 1u << 30;
    while (bit > value) {
        bit >>= 2;
    }
    while (bit != 0) {
        if (value >= root + bit) {
            value -= root + bit;
            root = (root >> 1) + bit;
        } else {
            root >>= 1;
        }
        bit >>= 2;
    }
    return root;
}

int product(int a, int b) {
    return a * b >> 14;
}

int norm_squared(void) {
    int sum = 0;
    for (int i = 0; i < 4; i++) {
        sum += q[i] * q[i];
    }
    return sum;
}

void normalise(void) {
    int norm = square_root(norm_squared());
    if (norm == 0) {
        q[0] = ONE;
        return;
    }
    for (int i = 0; i < 4; i++) {
        q[i] = q[i] * ONE / norm;
    }
}

// q times (1, a, b, c).
void turn(int a, int b, int c) {
    turned[0] = q[0] - product(q[1], a) - product(q[2], b) - product(q[3], c);
    turned[1] = q[1] + product(q[0], a) + product(q[2], c) - product(q[3], b);
    turned[2] = q[2] + product(q[0], b) + product(q[3], a) - product(q[1], c);
    turned[3] = q[3] + product(q[0], c) + product(q[1], b) - product(q[2], a);
    for (int i = 0; i < 4; i++) {
        q[i] = turned[i];
    }
}

int main(void) {
    int steps = in_word();
    q[0] = ONE;
    for (int step = 1; step <= steps; step++) {
        int a = in_word();
        int b = in_word();
        int c = in_word();
        turn(a, b, c);
        normalise();
        if (step % 4 == 0) {
            for (int i = 0; i < 4; i++) {
                out_word(q[i]);
            }
        }
    }
    out_word(norm_squared() >> 14);
    return 0;
}
