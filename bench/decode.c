/* Decodes records of an unsigned byte and a big-endian 16-bit number from standard input, as
   `plchost decode p P` does. Used by decode.py for comparison. */
#include <stdio.h>
#include <stdlib.h>

int main(void) {
    size_t room = 16777216 + 1, have = 0, got;
    unsigned char *in = malloc(room);
    if (!in) return 8;
    while (have < room && (got = fread(in + have, 1, room - have, stdin)) > 0) have += got;
    static char out[1 << 16];
    setvbuf(stdout, out, _IOFBF, sizeof out);
    size_t at = 0;
    for (; at + 3 <= have; at += 3)
        printf("a = %u\nb = %u\n\n", (unsigned)in[at], (unsigned)in[at + 1] * 256 + in[at + 2]);
    if (at < have) printf("truncated %zu\n", 8 * (have - at));
    return fflush(stdout) ? 5 : at < have ? 7 : 0;
}
