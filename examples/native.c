/* Builds an example for the computer at hand, with the two functions that hardcc knows without a declaration:

       gcc -fwrapv -w -include examples/native.c -o crc16 examples/crc16.c && ./crc16 < examples/crc16.in

   It stands before the example, and makes its `main` a function of another name. Numbers come from standard input and words go to
   standard output, as `hardcc run` reads and prints them: `exit N` at the end, `starved` where no number is left. What ends a run
   of hardcc in a trap is undefined in C, and is not imitated; nor are refused inputs.
   `long long` has 64 bits wherever this is used; so 4294967295 can be read. */
#include <stdio.h>
#include <stdlib.h>

static int in_word(void) {
    long long number;
    if (scanf("%lld", &number) != 1) {
        puts("starved");
        exit(0);
    }
    return (int)(unsigned)number;
}

static void out_word(int word) {
    printf("%d\n", word);
}

int program(void);

int main(void) {
    int status = program();
    printf("exit %d\n", status);
    return 0;
}

#define main program
