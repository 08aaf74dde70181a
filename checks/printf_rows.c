/* Writes rows of formats and arguments, and the texts that the C library's printf makes of them.
   Left out is what the accepted formats leave out, and `+` and space on `%p`, which act on `d` and `i` alone. */
#include <inttypes.h>
#include <limits.h>
#include <stdint.h>
#include <stdio.h>
#include <string.h>

static FILE *rows, *answers;
static char text[4096];
static const char *const lengths[] = {"hh", "h", "", "l", "ll", "j", "z", "t"};
static const char *const widths[] = {"", "1", "5", "12", "*"};
static const char *const precisions[] = {"", ".", ".0", ".1", ".3", ".25", ".*"};

static void hex(FILE *file, const char *bytes, int count)
{
    for (int i = 0; i < count; i++)
        fprintf(file, "%02x", (unsigned char)bytes[i]);
}

/* The flags of a set, of which each bit is one. */
static const char *flags_of(int set)
{
    static char flags[6];
    int n = 0;
    for (int i = 0; i < 5; i++)
        if (set >> i & 1)
            flags[n++] = "-+ #0"[i];
    flags[n] = 0;
    return flags;
}

static void begin(const char *format)
{
    hex(rows, format, strlen(format));
}

static void end(int count)
{
    fputc('\n', rows);
    fputs("text ", answers);
    hex(answers, text, count);
    fputc('\n', answers);
}

/* One row of a format with up to two stars and a 64-bit or 32-bit argument. */
#define ROW(FORMAT, STARS, W, P, ARG)                                                          \
    ((STARS) == 0   ? snprintf(text, sizeof text, FORMAT, ARG)                                 \
     : (STARS) == 1 ? snprintf(text, sizeof text, FORMAT, W, ARG)                              \
     : (STARS) == 2 ? snprintf(text, sizeof text, FORMAT, P, ARG)                              \
                    : snprintf(text, sizeof text, FORMAT, W, P, ARG))

static void stars(int which, int w, int p)
{
    if (which & 1)
        fprintf(rows, " s32=%" PRIu32, (uint32_t)w);
    if (which & 2)
        fprintf(rows, " s32=%" PRIu32, (uint32_t)p);
}

static void number(const char *flags, const char *width, const char *precision, const char *length, char letter, int w, int p, int64_t value)
{
    char format[64];
    int which = (*width == '*') + 2 * (strcmp(precision, ".*") == 0);
    int is_long = strchr("ljzt", *length) && *length;
    snprintf(format, sizeof format, "%%%s%s%s%s%c", flags, width, precision, length, letter);
    begin(format);
    stars(which, w, p);
    if (is_long) {
        fprintf(rows, " s64=%" PRIu64, (uint64_t)value);
        end(ROW(format, which, w, p, value));
    } else {
        fprintf(rows, " s32=%" PRIu32, (uint32_t)value);
        end(ROW(format, which, w, p, (int)value));
    }
}

static void numbers(const char *flags, char letter)
{
    static const int64_t values[] = {0, 1, -1, 42, INT_MAX, INT_MIN};
    for (int w = 0; w < 5; w++)
        for (int p = 0; p < 7; p++)
            for (int v = 0; v < 6; v++) {
                number(flags, widths[w], precisions[p], "", letter, 7, 4, values[v]);
                if (w == 4 || p == 6)
                    number(flags, widths[w], precisions[p], "", letter, -7, -2, values[v]);
            }
}

static void all_numbers(void)
{
    static const int64_t values[] = {0, 1, -1, 300, CHAR_MAX, CHAR_MIN, SHRT_MAX, SHRT_MIN, INT_MAX, INT_MIN, INT64_MAX, INT64_MIN};
    for (const char *letter = "diuoxX"; *letter; letter++) {
        for (int set = 0; set < 32; set++)
            if (!(set & 8) || strchr("oxX", *letter))
                numbers(flags_of(set), *letter);
        for (int l = 0; l < 8; l++)
            for (int v = 0; v < 12; v++) {
                number("", "", "", lengths[l], *letter, 0, 0, values[v]);
                number("+0", "24", "", lengths[l], *letter, 0, 0, values[v]);
                number(strchr("oxX", *letter) ? "#-" : "-", "12", ".8", lengths[l], *letter, 0, 0, values[v]);
            }
    }
}

static void texts(void)
{
    static const char *const values[] = {"", "a", "ab", "twelve bytes", "\xc3\xa4 \x7f"};
    char format[64];
    for (int set = 0; set < 8; set++)
        for (int w = 0; w < 5; w++)
            for (int p = 0; p < 7; p++)
                for (int v = 0; v < 5; v++)
                    for (int sign = -1; sign <= 1; sign += 2) {
                        int which = (w == 4) + 2 * (p == 6);
                        snprintf(format, sizeof format, "<%%%s%s%ss>", flags_of(set), widths[w], precisions[p]);
                        begin(format);
                        stars(which, sign * 4, sign * 1);
                        fputs(" t=", rows);
                        hex(rows, values[v], strlen(values[v]));
                        end(ROW(format, which, sign * 4, sign * 1, values[v]));
                    }
}

static void characters(void)
{
    static const int values[] = {0, 65, 127, 128, 255, 300, -1};
    char format[64];
    for (int set = 0; set < 8; set++)
        for (int w = 0; w < 5; w++)
            for (int v = 0; v < 7; v++) {
                snprintf(format, sizeof format, "<%%%s%sc>", flags_of(set), widths[w]);
                begin(format);
                stars(w == 4, -3, 0);
                fprintf(rows, " s32=%" PRIu32, (uint32_t)values[v]);
                end(ROW(format, w == 4, -3, 0, values[v]));
            }
}

static void pointers(void)
{
    static const uint64_t values[] = {0, 1, 0x7ffd1234, UINT64_MAX};
    char format[64];
    for (int set = 0; set < 2; set++)
        for (int w = 0; w < 5; w++)
            for (int v = 0; v < 4; v++) {
                snprintf(format, sizeof format, "<%%%s%sp>", flags_of(set), widths[w]);
                begin(format);
                stars(w == 4, 20, 0);
                if (values[v])
                    fprintf(rows, " p=%" PRIu64, values[v]);
                else
                    fputs(" null", rows);
                end(ROW(format, w == 4, 20, 0, (void *)(uintptr_t)values[v]));
            }
}

int main(int argc, char **argv)
{
    if (argc != 3 || !(rows = fopen(argv[1], "w")) || !(answers = fopen(argv[2], "w")))
        return 2;
    all_numbers();
    texts();
    characters();
    pointers();
    begin("100%% of %d%%\n");
    fputs(" s32=7", rows);
    end(snprintf(text, sizeof text, "100%% of %d%%\n", 7));
    return fclose(rows) || fclose(answers);
}
