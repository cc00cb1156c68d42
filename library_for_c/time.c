/* Times calls of the library: time REQUIREMENTS MARKERS. Each file has a text on each line. Prints the
   processor time of each call in nanoseconds. */
#include "pep508.h"
#include <stdio.h>
#include <stdlib.h>
#include <string.h>
#include <time.h>

struct lines {
    char *bytes;
    struct pep508_text *texts;
    size_t count;
};

static void stop(const char *why) {
    fprintf(stderr, "time: %s\n", why);
    exit(2);
}

static struct lines read_lines(const char *name) {
    FILE *file = fopen(name, "rb");
    if (file == NULL || fseek(file, 0, SEEK_END) != 0)
        stop(name);
    const long size = ftell(file);
    rewind(file);
    struct lines all = {malloc((size_t)size + 1), NULL, 0};
    if (size < 0 || all.bytes == NULL || fread(all.bytes, 1, (size_t)size, file) != (size_t)size)
        stop(name);
    fclose(file);
    all.bytes[size] = '\0';
    all.texts = malloc((size_t)(size + 1) * sizeof *all.texts);
    if (all.texts == NULL)
        stop("no memory");
    for (char *line = strtok(all.bytes, "\n"); line != NULL; line = strtok(NULL, "\n")) {
        all.texts[all.count].bytes = line;
        all.texts[all.count++].length = strlen(line);
    }
    return all;
}

static const struct pep508_environment environment = {
    PEP508_TEXT("value1"), PEP508_TEXT("3.9.1"),  PEP508_TEXT("value1"), PEP508_TEXT("value1"),
    PEP508_TEXT("value1"), PEP508_TEXT("value1"), PEP508_TEXT("value1"), PEP508_TEXT("value1"),
    PEP508_TEXT("3.9.1"),  PEP508_TEXT("3.9"),    PEP508_TEXT("value1"),
};
static const struct pep508_text extra = PEP508_TEXT("extra1");
static char buffer[4096];
static size_t needed;

enum { CHECK, NORMALIZE, PARTS, EVALUATE, COMPARE, CALLS };
static const char *const names[CALLS] = {"check", "normalize", "parts", "evaluate", "compare"};
static int32_t call(int which, struct pep508_text text, struct pep508_text next) {
    struct pep508_span span;
    bool value;
    int32_t relation;
    switch (which) {
    case CHECK:
        return pep508_requirement_check(text.bytes, text.length, NULL, 0, &span, buffer,
                                        sizeof buffer, &needed);
    case NORMALIZE:
        return pep508_requirement_normalize(text.bytes, text.length, NULL, 0, buffer,
                                            sizeof buffer, &needed);
    case PARTS:
        return pep508_requirement_parts(text.bytes, text.length, NULL, 0, buffer, sizeof buffer,
                                        &needed);
    case EVALUATE:
        return pep508_marker_evaluate(text.bytes, text.length, &environment, &extra, 1, NULL, 0,
                                      &value);
    default:
        return pep508_markers_compare(text.bytes, text.length, next.bytes, next.length, NULL, 0,
                                      &relation);
    }
}

int main(int argc, char **argv) {
    if (argc != 3)
        stop("time REQUIREMENTS MARKERS");
    const struct lines given[] = {read_lines(argv[1]), read_lines(argv[2])};
    for (int which = 0; which < CALLS; which++) {
        const struct lines *lines = &given[which >= EVALUATE];
        const clock_t begun = clock();
        for (size_t i = 0; i < lines->count; i++)
            if (call(which, lines->texts[i], lines->texts[i ? i - 1 : 0]) != PEP508_DONE)
                stop(lines->texts[i].bytes);
        const double taken = (double)(clock() - begun) / CLOCKS_PER_SEC;
        printf("%s %.0f\n", names[which], taken / (double)lines->count * 1e9);
    }
    for (int i = 0; i < 2; i++) {
        free(given[i].bytes);
        free(given[i].texts);
    }
    return 0;
}
