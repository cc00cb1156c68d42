/* Asks for each answer of each call, with each length of a buffer, and refuses each growth of memory
   in turn. Linked with -Wl,--wrap=malloc,--wrap=realloc. */
#include "pep508.h"
#include <stdio.h>
#include <stdlib.h>
#include <string.h>

static long left = -1, grown;
void *__real_malloc(size_t size);
void *__real_realloc(void *at, size_t size);
void *__wrap_malloc(size_t size);
void *__wrap_realloc(void *at, size_t size);
static bool refuses(void) {
    grown++;
    return left >= 0 && left-- == 0;
}
void *__wrap_malloc(size_t size) { return refuses() ? NULL : __real_malloc(size); }
void *__wrap_realloc(void *at, size_t size) { return refuses() ? NULL : __real_realloc(at, size); }

static long checks, failures;
static void expect(bool holds, const char *what, long number) {
    checks++;
    if (!holds) {
        failures++;
        printf("failed: %s (%ld)\n", what, number);
    }
}

static const struct pep508_environment linux_312 = {
    PEP508_TEXT("cpython"), PEP508_TEXT("3.12.1"), PEP508_TEXT("posix"),
    PEP508_TEXT("x86_64"),  PEP508_TEXT("CPython"), PEP508_TEXT("6.1"),
    PEP508_TEXT("Linux"),   PEP508_TEXT("#1"),      PEP508_TEXT("3.12.1"),
    PEP508_TEXT("3.12"),    PEP508_TEXT("linux"),
};
static const struct pep508_text extras[] = {PEP508_TEXT("Dev"), PEP508_TEXT("test_2")};
static const struct pep508_bound any = PEP508_UNBOUNDED;
static const struct pep508_bound from_39 = {1, PEP508_TEXT("3.9")};
static const char no_text[] = "\xff";
static struct pep508_options chosen = PEP508_OPTIONS;
static size_t needed;
static bool value;
static int32_t relation;
static struct pep508_span span;

/* The calls that write bytes: which, for a text, into a buffer. */
enum { VERSION, MARKER, SIMPLIFY, REQUIREMENT, PARTS, URL, SCRIPT, WRITERS };
static int32_t write_by(int which, const char *text, size_t length, char *buffer, size_t room) {
    switch (which) {
    case VERSION: return pep508_version(buffer, room, &needed);
    case MARKER: return pep508_marker_normalize(text, length, &chosen, 1, buffer, room, &needed);
    case SIMPLIFY:
        return pep508_marker_simplify(text, length, &from_39, &any, extras, 2, &chosen, 1, buffer,
                                      room, &needed);
    case PARTS: return pep508_requirement_parts(text, length, &chosen, 1, buffer, room, &needed);
    case SCRIPT: return pep508_serve(text, length, &chosen, 1, buffer, room, &needed);
    default:
        return pep508_requirement_normalize(text, length, &chosen, 1, buffer, room, &needed);
    }
}
static const char *const texts[WRITERS] = {
    "",
    "python_version > '3.8' and (extra == 'dev' or os_name == 'nt' or extra == 'b')",
    "python_version > '3.8' and (extra == 'a' or os_name == 'nt')",
    "Requests [Security,tests] <3, >=2.8.1 ; python_version < '3' and extra == 'Dev'",
    "requests[a,b]>=1;os_name=='a'",
    "name @ ../wheels/a b.whl ; os_name == 'a'",
    "parse os_name == 'a'\nnot 0\ntext 1\ndisjoint 0 1\nnothing",
};

static void rooms(int which) {
    const char *text = texts[which];
    size_t length = strlen(text);
    char whole[400], buffer[400], empty[400];
    memset(empty, 'x', sizeof empty);
    memset(whole, 'x', sizeof whole);
    expect(write_by(which, text, length, NULL, 0) == PEP508_BUFFER_TOO_SMALL, "no room", which);
    size_t size = needed;
    expect(write_by(which, text, length, whole, sizeof whole) == PEP508_DONE, "done", which);
    expect(needed == size && size < sizeof whole, "needed", which);
    expect(memcmp(whole + size, empty, sizeof whole - size) == 0, "the rest stays", which);
    for (size_t room = 0; room <= size + 1; room++) {
        memset(buffer, 'x', sizeof buffer);
        int32_t answer = write_by(which, text, length, buffer, room);
        expect(answer == (room < size ? PEP508_BUFFER_TOO_SMALL : PEP508_DONE), "room", which);
        expect(needed == size, "needed with any room", which);
        expect(memcmp(buffer, room < size ? empty : whole, sizeof buffer) == 0, "bytes", which);
    }
}

/* Each length of a buffer for a message: the place is written with any of them. */
static void rooms_of_a_message(void) {
    static const char text[] = "requests >";
    char whole[200], buffer[200], empty[200];
    memset(empty, 'x', sizeof empty);
    memset(whole, 'x', sizeof whole);
    expect(pep508_requirement_check(text, strlen(text), NULL, 0, &span, whole, sizeof whole,
                                    &needed) == PEP508_INVALID, "invalid", 0);
    size_t size = needed;
    expect(size > 0 && size < sizeof whole, "a message", (long)size);
    for (size_t room = 0; room <= size + 1; room++) {
        memset(buffer, 'x', sizeof buffer);
        span.start = span.length = 77;
        needed = 77;
        int32_t answer = pep508_requirement_check(text, strlen(text), NULL, 0, &span, buffer, room,
                                                  &needed);
        expect(answer == PEP508_INVALID, "invalid with any room", (long)room);
        expect(needed == size, "needed with any room", (long)room);
        expect(span.start == 9 && span.length == 1, "place with any room", (long)span.start);
        expect(memcmp(buffer, room < size ? empty : whole, sizeof buffer) == 0, "message",
               (long)room);
    }
}

#define CALL(answer, ...) expect((__VA_ARGS__) == (answer), #__VA_ARGS__, __LINE__)
#define LIT(text) text, sizeof(text) - 1
/* The bytes that a call has written. */
static void wrote(const char *buffer, const char *wanted) {
    expect(needed == strlen(wanted) && memcmp(buffer, wanted, needed) == 0, wanted, (long)needed);
}

static void requirements(void) {
    char buffer[300];
    const size_t room = sizeof buffer;
    const char *text = "Requests [Security,Tests] <3, >=2.8.1 ; os_name == 'a' and extra == 'Dev'";
    span.start = span.length = 77;
    CALL(PEP508_DONE, pep508_requirement_check(text, strlen(text), NULL, 0, &span, buffer, room,
                                               &needed));
    expect(needed == 0 && span.start == 77 && span.length == 77, "nothing of a valid one", 0);
    CALL(PEP508_DONE, pep508_requirement_normalize(text, strlen(text), NULL, 0, buffer, room,
                                                   &needed));
    wrote(buffer, "requests[security,tests]>=2.8.1,<3 ; os_name == 'a' and extra == 'dev'");
    CALL(PEP508_DONE, pep508_requirement_parts(text, strlen(text), NULL, 0, buffer, room, &needed));
    wrote(buffer, "{\"extras\":[\"security\",\"tests\"],"
                  "\"marker\":\"os_name == 'a' and extra == 'dev'\",\"name\":\"requests\","
                  "\"specifiers\":[\">=2.8.1\",\"<3\"],\"url\":null}");
    CALL(PEP508_DONE, pep508_requirement_parts(LIT("a @ https://Example.org/a b"), NULL, 0, buffer,
                                               room, &needed));
    wrote(buffer, "{\"extras\":[],\"marker\":null,\"name\":\"a\",\"specifiers\":[],"
                  "\"url\":\"https://example.org/a%20b\"}");

    CALL(PEP508_INVALID, pep508_requirement_check(LIT(" a >"), NULL, 0, &span, buffer, room,
                                                  &needed));
    expect(span.start == 3 && span.length == 1, "the place in the whole text", (long)span.start);
    CALL(PEP508_INVALID, pep508_requirement_normalize(LIT("a\0"), NULL, 0, buffer, room, &needed));
    CALL(PEP508_INVALID, pep508_requirement_parts(NULL, 0, NULL, 0, buffer, room, &needed));
    CALL(PEP508_NOT_UTF8, pep508_requirement_check(LIT(no_text), NULL, 0, &span, buffer, room,
                                                   &needed));
    expect(needed == 0 && span.start == 3, "nothing of bytes that are no text", 0);
    CALL(PEP508_NOT_UTF8, pep508_requirement_parts(LIT(no_text), NULL, 0, buffer, room, &needed));
    static const char large[] = "a ; python_version == '18446744073709551615.*'";
    CALL(PEP508_NUMBER_TOO_LARGE, pep508_requirement_check(LIT(large), NULL, 0, &span, buffer, room,
                                                           &needed));
    CALL(PEP508_NUMBER_TOO_LARGE, pep508_requirement_normalize(LIT(large), NULL, 0, buffer, room,
                                                               &needed));
    struct pep508_options other = PEP508_OPTIONS;
    other.size++;
    CALL(PEP508_INVALID_ARGUMENT, pep508_requirement_check(LIT("a"), &other, 1, &span, buffer, room,
                                                           &needed));
    other = chosen;
    other.pieces = 3;
    CALL(PEP508_TOO_COMPLEX, pep508_requirement_check(LIT("a ; os_name == 'a' and extra == 'b'"),
                                                      &other, 1, &span, buffer, room, &needed));

    /* A folder of the options. */
    CALL(PEP508_INVALID, pep508_requirement_normalize(LIT("a @ ./b"), NULL, 0, buffer, room,
                                                      &needed));
    CALL(PEP508_DONE, pep508_requirement_normalize(LIT("a @ ../b"), &chosen, 1, buffer, room,
                                                   &needed));
    wrote(buffer, "a @ file:///home/b");
    CALL(PEP508_DONE, pep508_requirement_normalize(LIT("a @ ${PROJECT_ROOT}/b"), &chosen, 1, buffer,
                                                   room, &needed));
    wrote(buffer, "a @ file:///home/me/b");
    CALL(PEP508_DONE, pep508_requirement_normalize(LIT("a @ ${HOME}/b"), &chosen, 1, buffer, room,
                                                   &needed));
    wrote(buffer, "a @ file:///home/me/$%7BHOME%7D/b");
    other = chosen;
    other.working_folder.bytes = no_text;
    other.working_folder.length = 1;
    CALL(PEP508_NOT_UTF8, pep508_requirement_check(LIT("a"), &other, 1, &span, buffer, room,
                                                   &needed));
}

static void scripts(void) {
    char buffer[300];
    CALL(PEP508_DONE, pep508_serve(LIT("parse os_name == 'a'\nnot 0\ntext 1\ndisjoint 0 1\nx"), NULL,
                                   0, buffer, sizeof buffer, &needed));
    wrote(buffer, "cell 0\ncell 1\ntext os_name != 'a'\ntrue\nerror command\n");
    CALL(PEP508_DONE, pep508_serve(NULL, 0, NULL, 0, NULL, 0, &needed));
    expect(needed == 0, "no reply to no line", (long)needed);
    struct pep508_options few = PEP508_OPTIONS;
    few.pieces = 3;
    CALL(PEP508_DONE, pep508_serve(LIT("parse os_name == 'a' and extra == 'b'\ntext 0\n"), &few, 1,
                                   buffer, sizeof buffer, &needed));
    wrote(buffer, "error memory\nerror cell\n");
    few.size = 0;
    CALL(PEP508_INVALID_ARGUMENT, pep508_serve(LIT("x"), &few, 1, buffer, sizeof buffer, &needed));
}

static void answers(void) {
    char buffer[300];
    const size_t room = sizeof buffer;
    struct pep508_options wrong_size = PEP508_OPTIONS;
    wrong_size.size--;
    CALL(PEP508_INVALID_ARGUMENT,
         pep508_marker_normalize(LIT("os_name == 'a'"), &wrong_size, 1, buffer, room, &needed));
    expect(needed == 0, "needed with no result", 0);
    CALL(PEP508_NUMBER_TOO_LARGE,
         pep508_marker_normalize(LIT("python_version == '18446744073709551615.*'"), NULL, 0,
                                 buffer, room, &needed));
    CALL(PEP508_INVALID, pep508_marker_normalize(LIT("os_name == '\0"), NULL, 0, buffer, room, &needed));
    CALL(PEP508_INVALID, pep508_marker_normalize(NULL, 0, NULL, 0, buffer, room, &needed));
    struct pep508_options few = PEP508_OPTIONS;
    few.pieces = 3;
    CALL(PEP508_TOO_COMPLEX,
         pep508_marker_normalize(LIT("os_name == 'a' and extra == 'b'"), &few, 1, buffer, room,
                                 &needed));
    CALL(PEP508_DONE, pep508_marker_normalize(LIT("python_version >= '0' or os_name != 'a' or os_name == 'a'"), NULL, 0, buffer, room, &needed));
    expect(needed == 0, "a marker that is true everywhere", (long)needed);
    CALL(PEP508_INVALID, pep508_marker_normalize(LIT("b"), NULL, 0, buffer, room, &needed));
    CALL(PEP508_NOT_UTF8, pep508_marker_normalize(LIT(no_text), NULL, 0, buffer, room, &needed));

    const char marker[] = "extra == 'test-2' and python_version >= '3.8'";
    CALL(PEP508_DONE, pep508_marker_evaluate(LIT(marker), &linux_312, extras, 2, NULL, 0, &value));
    expect(value, "both extras", 0);
    CALL(PEP508_DONE, pep508_marker_evaluate(LIT(marker), &linux_312, extras, 1, NULL, 0, &value));
    expect(!value, "one extra", 0);
    struct pep508_environment other = linux_312;
    other.python_version.bytes = "x";
    other.python_version.length = 1;
    CALL(PEP508_INVALID_ARGUMENT,
         pep508_marker_evaluate(LIT(marker), &other, NULL, 0, NULL, 0, &value));
    other = linux_312;
    other.os_name.bytes = no_text;
    other.os_name.length = 1;
    CALL(PEP508_NOT_UTF8, pep508_marker_evaluate(LIT(marker), &other, NULL, 0, NULL, 0, &value));
    const struct pep508_text no_name = PEP508_TEXT("-");
    CALL(PEP508_INVALID_ARGUMENT,
         pep508_marker_evaluate(LIT(marker), &linux_312, &no_name, 1, NULL, 0, &value));
    CALL(PEP508_INVALID, pep508_marker_evaluate(LIT("b"), &linux_312, NULL, 0, NULL, 0, &value));

    static const char *const pairs[][2] = {
        {"os_name == 'a'", "'a' == os_name"},
        {"os_name == 'a'", "os_name == 'b'"},
        {"os_name == 'a' and extra == 'b'", "os_name == 'a'"},
        {"os_name == 'a'", "os_name == 'a' and extra == 'b'"},
        {"os_name == 'a'", "extra == 'b'"},
    };
    for (int32_t i = 0; i < 5; i++) {
        CALL(PEP508_DONE, pep508_markers_compare(pairs[i][0], strlen(pairs[i][0]), pairs[i][1],
                                                 strlen(pairs[i][1]), NULL, 0, &relation));
        expect(relation == i, "relation", relation);
    }
    CALL(PEP508_INVALID, pep508_markers_compare(LIT("os_name == 'a'"), LIT("b"), NULL, 0, &relation));
    struct pep508_options short_sight = PEP508_OPTIONS;
    short_sight.looks = 1;
    CALL(PEP508_TOO_COMPLEX,
         pep508_markers_compare(LIT("os_name == 'a' or (sys_platform == 'b' and extra == 'c')"),
                                LIT("os_name == 'd' or (sys_platform == 'b' and extra == 'e')"),
                                &short_sight, 1, &relation));
    const struct pep508_bound wrong = {3, PEP508_TEXT("3.9")}, no_version = {2, PEP508_TEXT("x")};
    CALL(PEP508_INVALID_ARGUMENT, pep508_marker_simplify(LIT(marker), &wrong, &any, NULL, 0, NULL,
                                                         0, buffer, room, &needed));
    CALL(PEP508_INVALID_ARGUMENT, pep508_marker_simplify(LIT(marker), &any, &no_version, NULL, 0,
                                                         NULL, 0, buffer, room, &needed));
    CALL(PEP508_DONE, pep508_marker_simplify(LIT(marker), &from_39, &any, extras, 2, NULL, 0,
                                             buffer, room, &needed));
    expect(needed == 0, "all of it is granted", (long)needed);
}

/* One call of each kind; what it writes goes to the places above. */
enum { EVALUATE = WRITERS, COMPARE, CHECK, NO_REQUIREMENT, KINDS };
static int32_t one(int which, char *buffer, size_t room) {
    const char *marker = texts[MARKER];
    switch (which) {
    case EVALUATE:
        return pep508_marker_evaluate(marker, strlen(marker), &linux_312, extras, 2, NULL, 0,
                                      &value);
    case COMPARE:
        return pep508_markers_compare(marker, strlen(marker), LIT("os_name == 'nt'"), NULL, 0,
                                      &relation);
    case CHECK:
        return pep508_requirement_check(texts[REQUIREMENT], strlen(texts[REQUIREMENT]), NULL, 0,
                                        &span, buffer, room, &needed);
    case NO_REQUIREMENT:
        return pep508_requirement_check(LIT("a ; os_name is 'a'"), NULL, 0, &span, buffer, room,
                                        &needed);
    default: return write_by(which, texts[which], strlen(texts[which]), buffer, room);
    }
}

static void refused_growths(int which) {
    char empty[400], kept[400], buffer[400];
    memset(empty, 'x', sizeof empty);
    memcpy(kept, empty, sizeof kept);
    grown = 0;
    int32_t wanted = one(which, kept, sizeof kept);
    long growths = grown, refused = 0;
    for (long n = 0; n < growths; n++) {
        memcpy(buffer, empty, sizeof buffer);
        left = n;
        int32_t answer = one(which, buffer, sizeof buffer);
        left = -1;
        if (answer == PEP508_OUT_OF_MEMORY) {
            refused++;
            expect(memcmp(buffer, empty, sizeof buffer) == 0, "nothing is written", which);
        } else { /* a script is answered, with `error memory` for a line */
            expect(answer == wanted, "the answer of before", which);
        }
        memcpy(buffer, empty, sizeof buffer);
        expect(one(which, buffer, sizeof buffer) == wanted, "the same answer again", which);
        expect(memcmp(buffer, kept, sizeof buffer) == 0, "the same bytes again", which);
    }
    printf("call %d: answer %d, %ld growths, %ld refused\n", which, (int)wanted, growths, refused);
}

int main(void) {
    chosen.key[0] = 508;
    chosen.working_folder.bytes = "/home/me";
    chosen.working_folder.length = strlen(chosen.working_folder.bytes);
    answers();
    requirements();
    rooms_of_a_message();
    scripts();
    for (int which = 0; which < WRITERS; which++)
        rooms(which);
    for (int which = 0; which < KINDS; which++)
        refused_growths(which);
    printf("%ld checks, %ld failures\n", checks, failures);
    return failures != 0;
}
