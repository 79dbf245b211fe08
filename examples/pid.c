// A PID controller in Q8 for the temperature of a detector, against a simple model of its heater. Used in thermal
// control and wherever an actuator follows a set point.
// Input: how many steps, the set point and the first temperature in hundredths of a degree, then a disturbance for each
// step. Output: the temperature and the power after every eighth step, then the greatest overshoot.

const int GAIN_P = 640;
const int GAIN_I = 40;
const int GAIN_D = 256;
const int POWER_LIMIT = 4000;
const int SUM_LIMIT = 20000;

int error_sum;
int last_error;

int clamp(int value, int low, int high) {
    if (value < low) {
        return low;
    }
    if (value > high) {
        return high;
    }
    return value;
}

int control(int set_point, int measured) {
    int error = set_point - measured;
    int change = error - last_error;
    last_error = error;
    int wanted = (GAIN_P * error + GAIN_I * error_sum + GAIN_D * change) >> 8;
    int power = clamp(wanted, 0, POWER_LIMIT);
    // No integration while the heater is at its end and the error drives it further: no windup.
    if (power == wanted || (error < 0) != (wanted < 0)) {
        error_sum = clamp(error_sum + error, -SUM_LIMIT, SUM_LIMIT);
    }
    return power;
}

int plant(int temperature, int power, int disturbance) {
    int gained = power * 5 >> 7;
    int lost = (temperature + 2000) >> 6;
    return temperature + gained - lost + disturbance;
}

int main(void) {
    int steps = in_word();
    int set_point = in_word();
    int temperature = in_word();
    int overshoot = 0;
    last_error = set_point - temperature;
    for (int step = 1; step <= steps; step++) {
        int power = control(set_point, temperature);
        temperature = plant(temperature, power, in_word());
        if (temperature - set_point > overshoot) {
            overshoot = temperature - set_point;
        }
        if (step % 8 == 0) {
            out_word(temperature);
            out_word(power);
        }
    }
    out_word(overshoot);
    return 0;
}
