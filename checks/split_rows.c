/* Writes rows of a random format, a log that begins with what the C library's printf makes of it and random arguments, and
   arguments; and how many splits these arguments must meet there: one, or none where they print another text. */
#include <inttypes.h>
#include <stdint.h>
#include <stdio.h>
#include <stdlib.h>
#include <string.h>

enum { FORMATS = 1000, PIECES = 3, ROOM = 4096 };

struct args {
    int width, precision;
    int64_t value;
    char text[8];
    void *pointer;
};

struct piece {
    char format[32];
    char letter;
    int literal, stars, wide;
};

static FILE *rows, *answers;
static uint64_t state = 1;

static int pick(int n)
{
    state = state * 6364136223846793005u + 1442695040888963407u;
    return (int)((state >> 33) % (uint64_t)n);
}

static void hex(const char *bytes, int count)
{
    if (count == 0)
        fputc('.', rows);
    for (int i = 0; i < count; i++)
        fprintf(rows, "%02x", (unsigned char)bytes[i]);
}

static struct piece random_piece(void)
{
    static const char *const literals[] = {": ", "a", "0", " ", "%%", "-", "x\n"};
    static const char *const lengths[] = {"", "hh", "h", "l", "ll"};
    static const char *const widths[] = {"", "", "1", "3", "6", "*"};
    static const char *const precisions[] = {"", "", ".0", ".1", ".4", ".*"};
    struct piece p = {.letter = 0};
    if (pick(3) == 0) {
        p.literal = 1;
        strcpy(p.format, literals[pick(7)]);
        return p;
    }
    p.letter = "dddiuoxXcsssp"[pick(13)];
    int number = strchr("diuoxX", p.letter) != NULL;
    const char *length = number ? lengths[pick(5)] : "";
    const char *width = widths[pick(6)];
    const char *precision = p.letter == 'c' || p.letter == 'p' ? "" : precisions[pick(6)];
    char flags[6] = "";
    if (pick(3) == 0)
        strcat(flags, "-");
    if (strchr("di", p.letter) && pick(4) == 0)
        strcat(flags, pick(2) ? "+" : " ");
    if (strchr("oxX", p.letter) && pick(3) == 0)
        strcat(flags, "#");
    if (number && pick(3) == 0)
        strcat(flags, "0");
    p.wide = *length == 'l';
    p.stars = (*width == '*') + 2 * (strcmp(precision, ".*") == 0);
    snprintf(p.format, sizeof p.format, "%%%s%s%s%s%c", flags, width, precision, length, p.letter);
    return p;
}

static struct args random_args(void)
{
    static const int64_t values[] = {0, 1, -1, 7, 42, 300, -128, INT32_MAX, INT32_MIN, INT64_MAX, INT64_MIN};
    struct args a;
    a.width = pick(9) - 4;
    a.precision = pick(7) - 2;
    a.value = values[pick(11)];
    a.pointer = (void *)(uintptr_t)(pick(2) ? 0 : 1 + pick(1000));
    int n = pick(6);
    for (int i = 0; i < n; i++)
        a.text[i] = "ab 0-"[pick(5)];
    a.text[n] = 0;
    return a;
}

#define PRINT(ARG)                                                            \
    (p->stars == 0   ? snprintf(out, ROOM, p->format, ARG)                    \
     : p->stars == 1 ? snprintf(out, ROOM, p->format, a->width, ARG)          \
     : p->stars == 2 ? snprintf(out, ROOM, p->format, a->precision, ARG)      \
                     : snprintf(out, ROOM, p->format, a->width, a->precision, ARG))

static int print(char *out, const struct piece *p, const struct args *a)
{
    if (p->literal)
        return snprintf(out, ROOM, p->format);
    if (p->letter == 's')
        return PRINT(a->text);
    if (p->letter == 'p')
        return PRINT(a->pointer);
    return p->wide ? PRINT(a->value) : PRINT((int)a->value);
}

static void write_args(const struct piece *p, const struct args *a)
{
    if (p->literal)
        return;
    if (p->stars & 1)
        fprintf(rows, " s32=%" PRIu32, (uint32_t)a->width);
    if (p->stars & 2)
        fprintf(rows, " s32=%" PRIu32, (uint32_t)a->precision);
    if (p->letter == 's') {
        fputs(" t=", rows);
        hex(a->text, (int)strlen(a->text));
    } else if (p->letter == 'p' && a->pointer)
        fprintf(rows, " p=%" PRIuPTR, (uintptr_t)a->pointer);
    else if (p->letter == 'p')
        fputs(" null", rows);
    else if (p->wide)
        fprintf(rows, " s64=%" PRIu64, (uint64_t)a->value);
    else
        fprintf(rows, " s32=%" PRIu32, (uint32_t)a->value);
}

static int print_all(char *out, const struct piece *pieces, const struct args *args)
{
    int length = 0;
    for (int i = 0; i < PIECES; i++)
        length += print(out + length, &pieces[i], &args[i]);
    return length;
}

static void row(const struct piece *pieces, const struct args *args, const char *log, int end, int size, int met)
{
    char format[PIECES * 32] = "";
    for (int i = 0; i < PIECES; i++)
        strcat(format, pieces[i].format);
    hex(format, (int)strlen(format));
    fprintf(rows, " %d ", end);
    hex(log, size);
    for (int i = 0; i < PIECES; i++)
        write_args(&pieces[i], &args[i]);
    fputc('\n', rows);
    fprintf(answers, "%d\n", met);
}

int main(int argc, char **argv)
{
    static const char *const tails[] = {"", "0", " a", "x\n"};
    static char log[PIECES * ROOM + 8], other[PIECES * ROOM];
    if (argc != 3 || !(rows = fopen(argv[1], "w")) || !(answers = fopen(argv[2], "w")))
        return 2;
    for (int n = 0; n < FORMATS; n++) {
        struct piece pieces[PIECES];
        struct args args[PIECES];
        for (int i = 0; i < PIECES; i++) {
            pieces[i] = random_piece();
            args[i] = random_args();
        }
        int end = print_all(log, pieces, args);
        const char *tail = tails[pick(4)];
        memcpy(log + end, tail, strlen(tail));
        int size = end + (int)strlen(tail);
        row(pieces, args, log, end, size, 1);
        for (int k = 0; k < 3; k++) {
            struct args changed[PIECES];
            memcpy(changed, args, sizeof changed);
            changed[pick(PIECES)] = random_args();
            int length = print_all(other, pieces, changed);
            row(pieces, changed, log, end, size, length == end && memcmp(other, log, end) == 0);
        }
    }
    return fclose(rows) || fclose(answers);
}
