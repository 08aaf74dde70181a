/* Writes rows of operations on words, and what C's own arithmetic answers (built with -fwrapv). */
#include <inttypes.h>
#include <stdint.h>
#include <stdio.h>

static FILE *rows, *answers;

static void row(const char *op, uint64_t a, uint64_t b, int bits, uint64_t answer)
{
    fprintf(rows, "%s %" PRIu64 " %" PRIu64 " %d\n", op, a, b, bits);
    fprintf(answers, "%" PRIu64 "\n", answer);
}

static void no_answer(const char *op, uint64_t a, uint64_t b, int bits)
{
    fprintf(rows, "%s %" PRIu64 " %" PRIu64 " %d\n", op, a, b, bits);
    fprintf(answers, "-\n");
}

#define WORDS(BITS, S, U)                                                                      \
    static void divided##BITS(U a, U b)                                                        \
    {                                                                                          \
        S x = (S)a, y = (S)b, unused;                                                          \
        if (b == 0) {                                                                          \
            no_answer("udiv", a, b, BITS);                                                     \
            no_answer("urem", a, b, BITS);                                                     \
            no_answer("sdiv", a, b, BITS);                                                     \
            no_answer("srem", a, b, BITS);                                                     \
            return;                                                                            \
        }                                                                                      \
        row("udiv", a, b, BITS, (U)(a / b));                                                   \
        row("urem", a, b, BITS, (U)(a % b));                                                   \
        if (y == -1 && __builtin_sub_overflow((S)0, x, &unused)) {                             \
            no_answer("sdiv", a, b, BITS);                                                     \
            no_answer("srem", a, b, BITS);                                                     \
            return;                                                                            \
        }                                                                                      \
        row("sdiv", a, b, BITS, (U)(S)(x / y));                                                \
        row("srem", a, b, BITS, (U)(S)(x % y));                                                \
    }                                                                                          \
    static void pair##BITS(U a, U b)                                                           \
    {                                                                                          \
        S x = (S)a, y = (S)b, unused;                                                          \
        row("add", a, b, BITS, (U)(a + b));                                                    \
        row("sub", a, b, BITS, (U)(a - b));                                                    \
        row("mul", a, b, BITS, (U)((uint64_t)a * b));                                          \
        row("ult", a, b, BITS, a < b);                                                         \
        row("slt", a, b, BITS, x < y);                                                         \
        row("add_over", a, b, BITS, __builtin_add_overflow(x, y, &unused));                    \
        row("sub_over", a, b, BITS, __builtin_sub_overflow(x, y, &unused));                    \
        row("mul_over", a, b, BITS, __builtin_mul_overflow(x, y, &unused));                    \
        divided##BITS(a, b);                                                                   \
    }                                                                                          \
    static void shifts##BITS(U a)                                                              \
    {                                                                                          \
        S x = (S)a;                                                                            \
        for (int by = 0; by <= BITS + 1; by++) {                                               \
            if (by >= BITS) {                                                                  \
                no_answer("shl", a, by, BITS);                                                 \
                row("shl_over", a, by, BITS, 1);                                               \
                continue;                                                                      \
            }                                                                                  \
            row("shl", a, by, BITS, (U)((uint64_t)a << by));                                   \
            row("lshr", a, by, BITS, (U)(a >> by));                                            \
            row("ashr", a, by, BITS, (U)(S)(x >> by));                                         \
            row("shl_over", a, by, BITS, x < 0 || ((__int128)x << by) >> (BITS - 1) != 0);     \
        }                                                                                      \
    }                                                                                          \
    static void all##BITS(void)                                                                \
    {                                                                                          \
        const U half = (U)1 << (BITS - 1), most = (U)-1;                                       \
        const U edges[] = {0, 1, 2, 3, 10, (U)(half - 2), (U)(half - 1), half, (U)(half + 1),  \
                           (U)(most / 3), (U)(most - 9), (U)(most - 1), most};                 \
        const int count = sizeof edges / sizeof *edges;                                        \
        for (int i = 0; i < count; i++) {                                                      \
            shifts##BITS(edges[i]);                                                            \
            for (int j = 0; j < count; j++)                                                    \
                pair##BITS(edges[i], edges[j]);                                                \
        }                                                                                      \
    }

WORDS(8, int8_t, uint8_t)
WORDS(16, int16_t, uint16_t)
WORDS(32, int32_t, uint32_t)
WORDS(64, int64_t, uint64_t)

int main(int argc, char **argv)
{
    if (argc != 3 || !(rows = fopen(argv[1], "w")) || !(answers = fopen(argv[2], "w")))
        return 2;
    all8();
    all16();
    all32();
    all64();
    return fclose(rows) || fclose(answers);
}
