// Sine and cosine by CORDIC, in Q14 with angles as 65536 parts of a turn; and angle and length of a vector by the same
// turns. Used for pointing, phases and coordinates on processors without floating point.
// Input: the number of angles, then the angles. Output for each: sine, cosine, and the angle and length found from them.

const int STEPS = 14;
// The arc tangents of 1, 1/2, 1/4 .., with 2^32 as a whole turn.
const int ANGLE[14] = {
    536870912, 316933406, 167458907, 85004756, 42667331, 21354465, 10679838, 5340245,
    2670163, 1335087, 667544, 333772, 166886, 83443,
};
// What undoes the growth of a vector by all steps, in Q14.
const int SCALE = 9949;
const int QUARTER = 1073741824;
const unsigned HALF = 0x80000000;

int x;
int y;

// Turns (x, y) by z, at most a quarter of a turn to either side.
void rotate(int z) {
    for (int i = 0; i < STEPS; i++) {
        int dx = x >> i;
        int dy = y >> i;
        if (z >= 0) {
            x -= dy;
            y += dx;
            z -= ANGLE[i];
        } else {
            x += dy;
            y -= dx;
            z += ANGLE[i];
        }
    }
}

// Turns (x, y) with x not below 0 onto the axis, and gives the angle that it had.
int vectoring(void) {
    int z = 0;
    for (int i = 0; i < STEPS; i++) {
        int dx = x >> i;
        int dy = y >> i;
        if (y < 0) {
            x -= dy;
            y += dx;
            z -= ANGLE[i];
        } else {
            x += dy;
            y -= dx;
            z += ANGLE[i];
        }
    }
    return z;
}

int main(void) {
    int count = in_word();
    for (int n = 0; n < count; n++) {
        int angle = in_word() * 65536;
        int mirrored = angle > QUARTER || angle < -QUARTER;
        if (mirrored) {
            angle = angle + HALF;
        }
        x = SCALE;
        y = 0;
        rotate(angle);
        out_word(mirrored ? -y : y);
        out_word(mirrored ? -x : x);
        angle = vectoring();
        if (mirrored) {
            angle = angle + HALF;
        }
        out_word(angle >> 16);
        out_word(x * SCALE >> 14);
    }
    return 0;
}
