// A list of star magnitudes sorted by a heap, and the same by insertion, which must agree; then a search by halves. Used
// for catalogues and for the medians of measurements.
// Input: the number of words, then the words; the number of searches, then what is searched. Output: the sorted words, 1
// where both sorts agree, and for each search the place of the word or -1.

const int LIMIT = 64;
int heap[64];
int list[64];

void sift(int root, int count) {
    int value = heap[root];
    int child = 2 * root + 1;
    while (child < count) {
        if (child + 1 < count && heap[child] < heap[child + 1]) {
            child++;
        }
        if (heap[child] <= value) {
            break;
        }
        heap[root] = heap[child];
        root = child;
        child = 2 * root + 1;
    }
    heap[root] = value;
}

void sort_by_heap(int count) {
    for (int root = count / 2 - 1; root >= 0; root--) {
        sift(root, count);
    }
    for (int end = count - 1; end > 0; end--) {
        int greatest = heap[0];
        heap[0] = heap[end];
        heap[end] = greatest;
        sift(0, end);
    }
}

void sort_by_insertion(int count) {
    for (int i = 1; i < count; i++) {
        int value = list[i];
        int at = i;
        while (at > 0 && list[at - 1] > value) {
            list[at] = list[at - 1];
            at--;
        }
        list[at] = value;
    }
}

int find(int value, int count) {
    int low = 0;
    int high = count;
    while (low < high) {
        int middle = (low + high) / 2;
        if (heap[middle] < value) {
            low = middle + 1;
        } else {
            high = middle;
        }
    }
    return low < count && heap[low] == value ? low : -1;
}

int main(void) {
    int count = in_word();
    if (count < 0 || count > LIMIT) {
        return 1;
    }
    for (int i = 0; i < count; i++) {
        heap[i] = in_word();
        list[i] = heap[i];
    }
    sort_by_heap(count);
    sort_by_insertion(count);
    int same = 1;
    for (int i = 0; i < count; i++) {
        out_word(heap[i]);
        same = same && heap[i] == list[i];
    }
    out_word(same);
    int searches = in_word();
    for (int i = 0; i < searches; i++) {
        out_word(find(in_word(), count));
    }
    return 0;
}
