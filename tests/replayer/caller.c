/* The header, used from C: document 01's bundle, its target, an X form, stops, and a reserved tag. Exit status 1 where it is not so. */
#include "../../include/glindorsc.h"
#include <stdio.h>
#include <string.h>

static int wrong;

static void same(const char *what, uint64_t got, uint64_t want)
{
    if (got != want) {
        printf("%s: %llu, and not %llu\n", what, (unsigned long long)got, (unsigned long long)want);
        wrong = 1;
    }
}

int main(void)
{
    /* MIB; the slots are 1, 1 and 2^40 + 1 */
    static const uint8_t mib[16] = {0x30, 0, 0, 0, 0, 0x40, 0, 0, 0, 0, 0x80, 0, 0, 0, 0, 0x80};
    /* MLX; slot 1, the L word, is 4 and slot 2 is 0 */
    static const uint8_t mlx[16] = {0x04, 0, 0, 0, 0, 0, 1, 0, 0, 0, 0, 0, 0, 0, 0, 0};
    /* M;MI; with all slots 0, and a reserved tag */
    static const uint8_t stops[32] = {11, 0, 0, 0, 0, 0, 0, 0, 0, 0, 0, 0, 0, 0, 0, 0, 31};
    uint64_t out[GLINDORSC_CUT + 1] = {0, 0, 0, 0, 0, 0, 0, 0, 0, 0, 99};
    static const uint64_t cut[GLINDORSC_CUT + 1] = {16, 'M', 'I', 'B', 1, 1, 1099511627777u, 0, 0, 0, 99};
    static const uint64_t stopped[GLINDORSC_CUT + 1] = {11, 'M', 'M', 'I', 0, 0, 0, 1, 0, 1, 99};
    static const uint64_t reserved[GLINDORSC_CUT + 1] = {31, 0, 0, 0, 0, 0, 0, 0, 0, 0, 99};
    static const uint64_t none[GLINDORSC_CUT + 1] = {0, 0, 0, 0, 0, 0, 0, 0, 0, 0, 99};
    uint64_t number = 99;

    same("cut", glindorsc_cut(mib, 16, 0, out), 0);
    same("cut's numbers", memcmp(out, cut, sizeof out), 0);
    same("a cut with stops", glindorsc_cut(stops, 32, 0, out), 0);
    same("its numbers", memcmp(out, stopped, sizeof out), 0);
    same("a reserved tag", glindorsc_cut(stops, 32, 1, out), 2);
    same("its tag alone", memcmp(out, reserved, sizeof out), 0);
    same("cut past the end", glindorsc_cut(mib, 16, 1, out), 1);
    same("no numbers", memcmp(out, none, sizeof out), 0);
    same("B1", glindorsc_immediate(mib, 16, 0, 2, 'B', 1, &number), 0);
    same("B1's value", number, 0);
    same("X3", glindorsc_immediate(mlx, 16, 0, 2, 'X', 3, &number), 0);
    same("X3's value", number, 16777216);
    same("X3's target", glindorsc_target(mlx, 16, 0, 2, 'X', 3, 0xfffffffffffffff0u, &number), 0);
    same("the target", number, 16777200);
    same("an odd address", glindorsc_target(mlx, 16, 0, 2, 'X', 3, 8, &number), 6);
    same("no target", number, 0);
    return wrong;
}
