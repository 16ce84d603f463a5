/* Prepares, checks and runs definitions through the library.
 *
 *     pipeline [-p | -m] [-d]      reads one definition from standard input and says what becomes of it, and of the tuple 1,2,3,4
 *     pipeline [-p | -m] [-d] -x   the same for each line of standard input, which holds a definition in hexadecimal digits
 *
 * With -p the definition is read in PROJ's reading. With -m the first record is then marked as of the crate's: a mixture, which is
 * refused. With -d it is prepared in the documented mode. A number that is none is underlined in its step, and a step that the check
 * names in the normalised definition (not with -x).
 *
 * examples/run builds it.
 */
#include <stdio.h>
#include <string.h>

#include "sakondreno.h"

/* The normalised definition, and a line under a step of it: an editor's underline. */
static void underline_step(const uint8_t *text, size_t length, sakondreno_span span)
{
    static uint8_t form[65536];
    sakondreno_answer all = sakondreno_definition(text, length, form, sizeof form);
    fwrite(form, 1, all.length, stdout);
    printf("\n%*s", (int)span.from, "");
    for (uint32_t i = 0; i < span.length; i++)
        putchar('^');
    printf("\n");
}

/* What the check says; the span of a step that it names. */
static sakondreno_span say_check(const char *direction, const sakondreno_step *table, size_t steps, uint8_t inverse)
{
    sakondreno_checked c = sakondreno_check(table, steps, inverse);
    printf("%s: ", direction);
    if (c.said.number == 0) {
        printf("deepest %zu left %zu", c.deepest, c.left);
        for (int i = 0; c.told && i < 4; i++)
            printf("%s%s%u", i == 0 ? " places " : ",", c.places[i].minus ? "-" : "", (unsigned)c.places[i].axis);
        printf("\n");
    } else if (c.said.number == SAKONDRENO_RECORD) {
        printf("refused 18 %zu\n", c.said.place);
    } else {
        const char *what = c.said.number == 1 ? "few" : "many";
        printf("step %zu too %s at %u+%u\n", c.said.place, what, (unsigned)c.span.from, (unsigned)c.span.length);
    }
    return c.span;
}

static void say_run(const char *direction, const sakondreno_step *table, size_t steps, uint8_t inverse)
{
    double tuple[4] = {1, 2, 3, 4}, store[64];
    sakondreno_done d = sakondreno_run(table, steps, inverse, tuple, 4, store, 64);
    if (d.number != 0)
        printf("%s: refused %u %zu\n", direction, d.number, d.place);
    else
        printf("%s: %.17g,%.17g,%.17g,%.17g count %zu left %zu\n", direction, tuple[0], tuple[1], tuple[2], tuple[3], d.count, d.left);
}

/* The text of the step at a place, and a mark under one of its bytes. Splitting gives the steps, a line each. A step is normalised
 * again when it is cut into parameters, so its line is split once more. */
static void underline(const uint8_t *text, size_t length, size_t place, size_t offset)
{
    static uint8_t lines[65536], cut[65536];
    sakondreno_answer all = sakondreno_split(text, length, lines, sizeof lines);
    const uint8_t *line = lines, *end = memchr(line, '\n', all.length);
    for (size_t i = 1; i < place; i++) {
        line = end + 1;
        end = memchr(line, '\n', (size_t)(lines + all.length - line));
    }
    sakondreno_answer one = sakondreno_split(line, (size_t)(end - line), cut, sizeof cut);
    int label = printf("step %zu: ", place);
    fwrite(cut, 1, one.length, stdout);
    printf("%*s^\n", label + (int)offset, "");
}

/* How a definition is prepared. */
typedef struct {
    uint8_t reading, mode;
    bool mixed;
} way;

static sakondreno_answer prepare(const uint8_t *text, size_t length, way how, sakondreno_step table[64])
{
    if (how.reading == SAKONDRENO_CRATE && how.mode == SAKONDRENO_MODE_CRATE)
        return sakondreno_prepare(text, length, table, 64);
    return sakondreno_prepare_as(text, length, how.reading, how.mode, table, 64);
}

static void say(const uint8_t *text, size_t length, way how, bool underlined)
{
    sakondreno_step table[64];
    sakondreno_answer p = prepare(text, length, how, table);
    if (p.number == SAKONDRENO_NUMBER) {
        printf("refused 12 %zu %zu\n", p.place, p.offset);
        if (underlined)
            underline(text, length, p.place, p.offset);
        return;
    }
    if (p.number != 0) {
        printf("refused %u %zu\n", p.number, p.place);
        return;
    }
    if (how.mixed && p.length > 0)
        table[0].reading = SAKONDRENO_CRATE;
    printf("steps %zu\n", p.length);
    for (uint8_t inverse = 0; inverse < 2; inverse++) {
        sakondreno_span span = say_check(inverse ? "check inverse" : "check forward", table, p.length, inverse);
        if (underlined && span.length > 0)
            underline_step(text, length, span);
    }
    say_run("run forward", table, p.length, 0);
    say_run("run inverse", table, p.length, 1);
}

static int digit(int c)
{
    return c <= '9' ? c - '0' : (c | 32) - 'a' + 10;
}

static bool given(int argc, char **argv, const char *option)
{
    for (int i = 1; i < argc; i++)
        if (strcmp(argv[i], option) == 0)
            return true;
    return false;
}

int main(int argc, char **argv)
{
    static uint8_t text[65536], line[131075];
    bool mixed = given(argc, argv, "-m");
    way how = {
        .reading = mixed || given(argc, argv, "-p") ? SAKONDRENO_PROJ : SAKONDRENO_CRATE,
        .mode = given(argc, argv, "-d") ? SAKONDRENO_MODE_DOCUMENTED : SAKONDRENO_MODE_CRATE,
        .mixed = mixed,
    };
    if (!given(argc, argv, "-x")) {
        say(text, fread(text, 1, sizeof text, stdin), how, true);
        return 0;
    }
    while (fgets((char *)line, sizeof line, stdin)) {
        size_t n = strcspn((char *)line, "\n") / 2;
        for (size_t i = 0; i < n; i++)
            text[i] = (uint8_t)(digit(line[2 * i]) << 4 | digit(line[2 * i + 1]));
        say(text, n, how, false);
    }
    return 0;
}
