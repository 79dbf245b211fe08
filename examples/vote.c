// A vote over redundant sensors: the median of those that are in use; one that is far from it three times in a row is
// left out. Used for sensors of attitude, pressure and temperature that fly in fives.
// Input: the number of rounds, then five readings for each. Output: for each round the median, then the mask of the
// sensors that are still in use.

const int SENSORS = 5;
const int FAR = 50;
const int PATIENCE = 3;
int reading[5];
int sorted[5];
int strikes[5];

// Sorts the readings of the sensors in use and gives how many there are.
int gather(void) {
    int count = 0;
    for (int i = 0; i < SENSORS; i++) {
        if (strikes[i] < PATIENCE) {
            int at = count;
            while (at > 0 && sorted[at - 1] > reading[i]) {
                sorted[at] = sorted[at - 1];
                at--;
            }
            sorted[at] = reading[i];
            count++;
        }
    }
    return count;
}

int median(int count) {
    int middle = count / 2;
    if (count % 2 != 0) {
        return sorted[middle];
    }
    return (sorted[middle - 1] + sorted[middle]) / 2;
}

int distance(int a, int b) {
    return a < b ? b - a : a - b;
}

void judge(int value) {
    for (int i = 0; i < SENSORS; i++) {
        if (strikes[i] < PATIENCE) {
            strikes[i] = distance(reading[i], value) > FAR ? strikes[i] + 1 : 0;
        }
    }
}

int main(void) {
    int rounds = in_word();
    for (int round = 0; round < rounds; round++) {
        for (int i = 0; i < SENSORS; i++) {
            reading[i] = in_word();
        }
        int count = gather();
        if (count == 0) {
            return 1;
        }
        int value = median(count);
        out_word(value);
        judge(value);
    }
    unsigned in_use = 0;
    for (int i = 0; i < SENSORS; i++) {
        if (strikes[i] < PATIENCE) {
            in_use |= 1u << i;
        }
    }
    out_word(in_use);
    return 0;
}
