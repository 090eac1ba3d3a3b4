/* A stand-in for a program, built for x86-64: writes its first argument and a newline to descriptor 3, as a program gives its status, and its input to its output. */
#include "libc.h"

long read(int, void *, size_t);
long write(int, const void *, size_t);

int main(int count, char **words) {
    char room[256];
    long n;
    while ((n = read(0, room, sizeof room)) > 0) {
        if (write(1, room, (size_t)n) != n) return 3;
    }
    if (count > 1) {
        int length = snprintf(room, sizeof room, "%s\n", words[1]);
        if (write(3, room, (size_t)length) != length) return 4;
    }
    return 0;
}
