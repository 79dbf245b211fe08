// The spots of a star tracker's image: a recursive fill joins the bright pixels that touch, and gives the brightness and
// the centre of each spot. Used as the first step from an image to an attitude.
// Input: a threshold, then 8 by 8 pixels. Output: for each spot of at least two pixels the number of pixels, its
// brightness, and its centre as column and row in sixteenths; at the end the number of spots.

const int SIDE = 8;
const int PIXELS = 64;
int image[64];
int threshold;

int size;
int brightness;
int column_sum;
int row_sum;

// Takes the pixel and all bright ones that hang together with it out of the image.
void fill(int column, int row) {
    if (column < 0 || column >= SIDE || row < 0 || row >= SIDE) {
        return;
    }
    int light = image[SIDE * row + column];
    if (light < threshold) {
        return;
    }
    image[SIDE * row + column] = 0;
    size++;
    brightness += light;
    column_sum += light * column;
    row_sum += light * row;
    fill(column + 1, row);
    fill(column - 1, row);
    fill(column, row + 1);
    fill(column, row - 1);
}

int main(void) {
    threshold = in_word();
    if (threshold < 1) {
        return 1;
    }
    for (int i = 0; i < PIXELS; i++) {
        image[i] = in_word();
    }
    int spots = 0;
    for (int i = 0; i < PIXELS; i++) {
        size = 0;
        brightness = 0;
        column_sum = 0;
        row_sum = 0;
        fill(i % SIDE, i / SIDE);
        if (size >= 2) {
            spots++;
            out_word(size);
            out_word(brightness);
            out_word(16 * column_sum / brightness);
            out_word(16 * row_sum / brightness);
        }
    }
    out_word(spots);
    return 0;
}
