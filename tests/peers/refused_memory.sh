#!/usr/bin/env bash
# Refuses each allocation of a call of the program in turn, and tells where the call then does anything but end with status 9,
# with nothing printed and nothing put. Build the program first: rt ci. It needs a C compiler, for a library
# that stands between the program and the system's allocator.
set -eu
top=$(cd "$(dirname "$0")/../.." && pwd)
program=$top/crates/hardcc/out/hardcc
compiler=${CC:-cc}
command -v "$compiler" >/dev/null || { echo "skipped: $compiler is not installed"; exit 0; }
[ -x "$program" ] || { echo "skipped: $program is not built"; exit 0; }
folder=$(mktemp -d)
trap 'rm -rf "$folder"' EXIT
cd "$folder"

# Counts the calls for memory; the one whose number stands in REFUSE gets none. The count is written to COUNT, where it is set.
cat > refuse.c <<'END'
#define _GNU_SOURCE
#include <dlfcn.h>
#include <stdio.h>
#include <stdlib.h>

static long count;

static int refused(void) {
    const char *number = getenv("REFUSE");
    count++;
    return number && count == atol(number);
}

static void *next(const char *name) {
    return dlsym(RTLD_NEXT, name);
}

void *malloc(size_t size) {
    static void *(*real)(size_t);
    if (!real) real = (void *(*)(size_t))next("malloc");
    return refused() ? NULL : real(size);
}

void *realloc(void *old, size_t size) {
    static void *(*real)(void *, size_t);
    if (!real) real = (void *(*)(void *, size_t))next("realloc");
    return refused() ? NULL : real(old, size);
}

void *aligned_alloc(size_t alignment, size_t size) {
    static void *(*real)(size_t, size_t);
    if (!real) real = (void *(*)(size_t, size_t))next("aligned_alloc");
    return refused() ? NULL : real(alignment, size);
}

int posix_memalign(void **to, size_t alignment, size_t size) {
    static int (*real)(void **, size_t, size_t);
    if (!real) real = (int (*)(void **, size_t, size_t))next("posix_memalign");
    return refused() ? 12 : real(to, alignment, size);
}

__attribute__((destructor)) static void tell(void) {
    long told = count;
    const char *path = getenv("COUNT");
    FILE *file = path ? fopen(path, "w") : NULL;
    if (file) {
        fprintf(file, "%ld\n", told);
        fclose(file);
    }
}
END
"$compiler" -shared -fPIC -O1 -o refuse.so refuse.c -ldl

printf 'int main(void){ out_word(5); return 0; }' > a.c
"$program" compile a.c a.img >/dev/null
printf '%s' '/* all kinds of tokens */ static const unsigned a[3] = {1, 2u, 3,}, b = 4; int f(int x, unsigned y); void g(void);
int main(void){ int i = 0; for (int k = 0; k < 3; k++) { if (a[k] == 2 ? i : b) continue; else { while (i--) ;
do { i += f(k, i), g(); } while (0); } } return i; }' > whole.c
printf 'int main(void){ out_word(((0x7fffffff))); out_word(1); out_word(2); out_word(3); out_word(4); return 4294967295u; }' > outputs.c
printf '%s' 'int main(void){int a = in_word(); int b = in_word(); int c = in_word(); if ((a && b) || c) out_word(1); else out_word(2); return 0;}' > short.c
printf '1 2 -3\n' > in

calls=0
failed=0
# $1: the status where nothing is refused; then the words of the call
each() {
  wanted=$1
  shift
  rm -f new.img self.img
  status=0
  COUNT=count LD_PRELOAD=./refuse.so "$program" "$@" > told || status=$?
  [ "$status" = "$wanted" ] || { echo "$*: status $status, not $wanted"; failed=$((failed + 1)); }
  most=$(cat count)
  for number in $(seq 1 "$most"); do
    calls=$((calls + 1))
    rm -f new.img self.img
    status=0
    REFUSE=$number LD_PRELOAD=./refuse.so "$program" "$@" > told || status=$?
    if [ "$status" != 9 ] || [ -s told ] || [ -e new.img ] || [ -e self.img ]; then
      echo "$*: allocation $number of $most refused: status $status"
      failed=$((failed + 1))
    fi
  done
}
each 0 compile a.c new.img
each 0 compile outputs.c new.img
each 0 compile short.c new.img
each 0 compile-split short.c new.img
each 0 selfrun 1 1 100000
each 3 compile whole.c new.img
each 0 run a.img in 100
each 4 run a.c in 100
each 6 run a.img a.c 100
each 0 audit a.img in 100
each 0 campaign a.img in 100 3 5
each 7 compile missing.c new.img
each 2 compile
echo "$calls allocations refused, $failed differ"
exit "$((failed > 0))"
