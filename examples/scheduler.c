// A cooperative scheduler: tasks with a period and a priority, and a watchdog that starts a task anew which has not
// reported for too long. Used as the main loop of small on-board computers.
// Input: the number of ticks; a word for each tick, whose bit i says that task i hangs in it. Output: for each tick
// which task ran (or -1), then for each task how often it ran, was late and was started anew.

const int TASKS = 4;
const int READY = 1;
const int WAITING = 0;
// The first task has the highest priority.
const int PERIOD[4] = {2, 5, 8, 20};
const int ALLOWED[4] = {6, 15, 24, 60};

int state[4];
int due[4];
int reported[4];
int runs[4];
int late[4];
int restarts[4];
int attitude;
int temperature = 20;
unsigned journal;

void start(int task, int now) {
    state[task] = WAITING;
    due[task] = now + PERIOD[task];
    reported[task] = now;
}

void wake(int now) {
    for (int task = 0; task < TASKS; task++) {
        if (now >= due[task]) {
            if (state[task] == READY) {
                late[task]++;
            }
            state[task] = READY;
            due[task] += PERIOD[task];
        }
    }
}

int choose(void) {
    for (int task = 0; task < TASKS; task++) {
        if (state[task] == READY) {
            return task;
        }
    }
    return -1;
}

void work(int task, int now) {
    switch (task) {
        case 0:
            attitude = (attitude * 3 + now) & 1023;
            break;
        case 1:
            temperature += attitude > 512 ? 1 : -1;
            break;
        case 2:
            journal = journal << 5 ^ journal >> 27 ^ temperature;
            break;
        default:
            journal ^= now;
    }
}

void watch(int now) {
    for (int task = 0; task < TASKS; task++) {
        if (now - reported[task] > ALLOWED[task]) {
            restarts[task]++;
            start(task, now);
        }
    }
}

int main(void) {
    int ticks = in_word();
    for (int task = 0; task < TASKS; task++) {
        start(task, 0);
    }
    for (int now = 1; now <= ticks; now++) {
        unsigned hanging = in_word();
        wake(now);
        int task = choose();
        if (task >= 0 && (hanging >> task & 1) == 0) {
            work(task, now);
            state[task] = WAITING;
            reported[task] = now;
            runs[task]++;
        }
        out_word(task);
        watch(now);
    }
    for (int task = 0; task < TASKS; task++) {
        out_word(runs[task]);
        out_word(late[task]);
        out_word(restarts[task]);
    }
    out_word(journal);
    return 0;
}
