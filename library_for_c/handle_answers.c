/* Asks for each answer of each call on an interner, with each length of a buffer, and refuses each
   growth of memory in turn. Linked with -Wl,--wrap=malloc,--wrap=realloc. */
#include "pep508.h"
#include <stdio.h>
#include <stdlib.h>
#include <string.h>

static long left = -1, grown;
void *__real_malloc(size_t size);
void *__real_realloc(void *at, size_t size);
void *__wrap_malloc(size_t size);
void *__wrap_realloc(void *at, size_t size);
static bool refuses(void) {
    grown++;
    return left >= 0 && left-- == 0;
}
void *__wrap_malloc(size_t size) { return refuses() ? NULL : __real_malloc(size); }
void *__wrap_realloc(void *at, size_t size) { return refuses() ? NULL : __real_realloc(at, size); }

static long checks, failures;
static void expect(bool holds, const char *what, long number) {
    checks++;
    if (!holds) {
        failures++;
        printf("failed: %s (%ld)\n", what, number);
    }
}
#define CALL(answer, ...) expect((__VA_ARGS__) == (answer), #__VA_ARGS__, __LINE__)
#define LIT(text) text, sizeof(text) - 1

static const struct pep508_environment linux_312 = {
    PEP508_TEXT("cpython"), PEP508_TEXT("3.12.1"), PEP508_TEXT("posix"),
    PEP508_TEXT("x86_64"),  PEP508_TEXT("CPython"), PEP508_TEXT("6.1"),
    PEP508_TEXT("Linux"),   PEP508_TEXT("#1"),      PEP508_TEXT("3.12.1"),
    PEP508_TEXT("3.12"),    PEP508_TEXT("linux"),
};
static const struct pep508_text extras[] = {PEP508_TEXT("Dev"), PEP508_TEXT("test_2")};
static const char no_text[] = "\xff";

/* An interner with these markers: 0, 1, 2, their disjunction 3, and the negation of that 4. */
enum { MARKERS = 5 };
static const char *const texts[MARKERS] = {
    "os_name == 'a'",
    "python_full_version >= '3.8'",
    "extra == 'dev'",
    "os_name == 'a' or python_full_version >= '3.8'",
    "python_full_version < '3.8' and os_name != 'a'",
};
static void open_with_markers(struct pep508_interner *handle) {
    size_t number = 77;
    CALL(PEP508_DONE, pep508_interner_new(handle, NULL, 0));
    CALL(PEP508_DONE, pep508_marker_parse(handle, LIT("os_name == 'a'"), &number));
    expect(number == 0, "the first number", (long)number);
    CALL(PEP508_DONE, pep508_marker_parse(handle, LIT("python_version >= '3.8'"), &number));
    expect(number == 1, "the second number", (long)number);
    CALL(PEP508_DONE, pep508_marker_parse(handle, LIT("extra == 'Dev'"), &number));
    expect(number == 2, "the third number", (long)number);
    CALL(PEP508_DONE, pep508_marker_or(handle, 0, 1, &number));
    expect(number == 3, "the number of a disjunction", (long)number);
    CALL(PEP508_DONE, pep508_marker_not(handle, 3, &number));
    expect(number == 4, "the number of a negation", (long)number);
}

/* The text of a marker. */
static bool has_text(struct pep508_interner *handle, size_t number, const char *wanted) {
    char buffer[300];
    size_t needed = 77;
    return pep508_marker_text(handle, number, buffer, sizeof buffer, &needed) == PEP508_DONE
           && needed == strlen(wanted) && memcmp(buffer, wanted, needed) == 0;
}

/* The interner has so many markers, the first of which are as before. */
static void has_markers(struct pep508_interner *handle, size_t wanted) {
    size_t count = 77;
    CALL(PEP508_DONE, pep508_interner_mark(handle, &count));
    expect(count == wanted, "how many markers", (long)count);
    for (size_t i = 0; i < wanted && i < MARKERS; i++)
        expect(has_text(handle, i, texts[i]), "the text of before", (long)i);
}

static void shut(struct pep508_interner *handle) {
    size_t number = 77, needed = 77;
    bool value = true;
    char buffer[20] = "xxx";
    expect(!handle->is_open, "it is shut", 0);
    CALL(PEP508_SHUT, pep508_interner_mark(handle, &number));
    CALL(PEP508_SHUT, pep508_interner_release(handle, 0));
    CALL(PEP508_SHUT, pep508_marker_parse(handle, LIT("os_name == 'a'"), &number));
    CALL(PEP508_SHUT, pep508_marker_and(handle, 0, 0, &number));
    CALL(PEP508_SHUT, pep508_marker_or(handle, 0, 0, &number));
    CALL(PEP508_SHUT, pep508_marker_not(handle, 0, &number));
    CALL(PEP508_SHUT, pep508_marker_equal(handle, 0, 0, &value));
    CALL(PEP508_SHUT, pep508_marker_disjoint(handle, 0, 0, &value));
    CALL(PEP508_SHUT, pep508_marker_evaluate_number(handle, 0, &linux_312, NULL, 0, &value));
    CALL(PEP508_SHUT, pep508_interner_set_environment(handle, &linux_312, NULL, 0));
    CALL(PEP508_SHUT, pep508_marker_is_true(handle, 0, &value));
    CALL(PEP508_SHUT, pep508_marker_text(handle, 0, buffer, sizeof buffer, &needed));
    expect(number == 77 && value && needed == 0 && strcmp(buffer, "xxx") == 0, "nothing is written",
           (long)number);
    pep508_interner_free(handle);
    expect(!handle->is_open, "it stays shut", 0);
}

static void markers(struct pep508_interner *handle) {
    size_t number = 77;
    has_markers(handle, MARKERS);
    CALL(PEP508_DONE, pep508_marker_and(handle, 3, 4, &number));
    expect(number == 5 && has_text(handle, 5, "python_version < '0'"), "never true", (long)number);
    CALL(PEP508_DONE, pep508_marker_or(handle, 3, 4, &number));
    expect(number == 6 && has_text(handle, 6, ""), "always true", (long)number);
    CALL(PEP508_DONE, pep508_marker_and(handle, 0, 2, &number));
    expect(number == 7 && has_text(handle, 7, "os_name == 'a' and extra == 'dev'"), "both",
           (long)number);

    number = 77;
    CALL(PEP508_INVALID, pep508_marker_parse(handle, LIT("os_name == '\0"), &number));
    CALL(PEP508_INVALID, pep508_marker_parse(handle, NULL, 0, &number));
    CALL(PEP508_NOT_UTF8, pep508_marker_parse(handle, LIT(no_text), &number));
    CALL(PEP508_NUMBER_TOO_LARGE,
         pep508_marker_parse(handle, LIT("python_version == '18446744073709551615.*'"), &number));
    CALL(PEP508_NO_SUCH_MARKER, pep508_marker_and(handle, 0, 8, &number));
    CALL(PEP508_NO_SUCH_MARKER, pep508_marker_and(handle, SIZE_MAX, 0, &number));
    CALL(PEP508_NO_SUCH_MARKER, pep508_marker_or(handle, 0, 8, &number));
    CALL(PEP508_NO_SUCH_MARKER, pep508_marker_or(handle, 8, 0, &number));
    CALL(PEP508_NO_SUCH_MARKER, pep508_marker_not(handle, 8, &number));
    expect(number == 77, "no number is written", (long)number);
    has_markers(handle, 8);
    CALL(PEP508_DONE, pep508_interner_release(handle, MARKERS));
    CALL(PEP508_DONE, pep508_interner_release(handle, MARKERS + 1));
    has_markers(handle, MARKERS);
}

static void questions(struct pep508_interner *handle) {
    bool value = false;
    size_t number;
    CALL(PEP508_DONE, pep508_marker_parse(handle, LIT("'a' == os_name"), &number));
    CALL(PEP508_DONE, pep508_marker_equal(handle, 0, number, &value));
    expect(value, "equal", 0);
    CALL(PEP508_DONE, pep508_marker_equal(handle, 0, 1, &value));
    expect(!value, "not equal", 0);
    CALL(PEP508_DONE, pep508_marker_disjoint(handle, 0, 4, &value));
    expect(value, "disjoint", 0);
    CALL(PEP508_DONE, pep508_marker_disjoint(handle, 0, 2, &value));
    expect(!value, "not disjoint", 0);
    CALL(PEP508_DONE, pep508_marker_evaluate_number(handle, 2, &linux_312, extras, 2, &value));
    expect(value, "with the extra", 0);
    CALL(PEP508_DONE, pep508_marker_evaluate_number(handle, 2, &linux_312, extras + 1, 1, &value));
    expect(!value, "with another extra", 0);
    CALL(PEP508_DONE, pep508_marker_evaluate_number(handle, 3, &linux_312, NULL, 0, &value));
    expect(value, "a new Python", 0);

    CALL(PEP508_NO_SUCH_MARKER, pep508_marker_equal(handle, 0, 9, &value));
    CALL(PEP508_NO_SUCH_MARKER, pep508_marker_equal(handle, 9, 0, &value));
    CALL(PEP508_NO_SUCH_MARKER, pep508_marker_disjoint(handle, 0, 9, &value));
    CALL(PEP508_NO_SUCH_MARKER, pep508_marker_disjoint(handle, 9, 0, &value));
    CALL(PEP508_NO_SUCH_MARKER,
         pep508_marker_evaluate_number(handle, 9, &linux_312, NULL, 0, &value));
    struct pep508_environment other = linux_312;
    other.python_version.bytes = "x";
    other.python_version.length = 1;
    CALL(PEP508_INVALID_ARGUMENT,
         pep508_marker_evaluate_number(handle, 0, &other, NULL, 0, &value));
    other = linux_312;
    other.os_name.bytes = no_text;
    other.os_name.length = 1;
    CALL(PEP508_NOT_UTF8, pep508_marker_evaluate_number(handle, 0, &other, NULL, 0, &value));
    const struct pep508_text no_name = PEP508_TEXT("-");
    CALL(PEP508_INVALID_ARGUMENT,
         pep508_marker_evaluate_number(handle, 0, &linux_312, &no_name, 1, &value));
    expect(value, "no value is written", 0);
    CALL(PEP508_DONE, pep508_interner_release(handle, MARKERS));
    has_markers(handle, MARKERS);
}

/* The environment that is set: none at first, and then the last one that was read. */
static void environments(struct pep508_interner *handle) {
    bool value = true;
    CALL(PEP508_NO_ENVIRONMENT, pep508_marker_is_true(handle, 0, &value));
    CALL(PEP508_NO_SUCH_MARKER, pep508_marker_is_true(handle, 9, &value));
    expect(value, "no value is written", 0);
    CALL(PEP508_DONE, pep508_interner_set_environment(handle, &linux_312, extras, 2));
    CALL(PEP508_DONE, pep508_marker_is_true(handle, 2, &value));
    expect(value, "with the extra", 0);
    CALL(PEP508_DONE, pep508_marker_is_true(handle, 0, &value));
    expect(!value, "another name of the system", 0);
    struct pep508_environment other = linux_312;
    other.os_name.bytes = "a";
    other.os_name.length = 1;
    CALL(PEP508_DONE, pep508_interner_set_environment(handle, &other, NULL, 0));
    CALL(PEP508_DONE, pep508_marker_is_true(handle, 0, &value));
    expect(value, "the name of the system", 0);
    CALL(PEP508_DONE, pep508_marker_is_true(handle, 2, &value));
    expect(!value, "without the extra", 0);

    struct pep508_environment wrong = linux_312;
    wrong.python_version.bytes = "x";
    wrong.python_version.length = 1;
    CALL(PEP508_INVALID_ARGUMENT, pep508_interner_set_environment(handle, &wrong, extras, 2));
    wrong = linux_312;
    wrong.os_name.bytes = no_text;
    wrong.os_name.length = 1;
    CALL(PEP508_NOT_UTF8, pep508_interner_set_environment(handle, &wrong, extras, 2));
    const struct pep508_text no_name = PEP508_TEXT("-");
    CALL(PEP508_INVALID_ARGUMENT, pep508_interner_set_environment(handle, &linux_312, &no_name, 1));
    CALL(PEP508_DONE, pep508_marker_is_true(handle, 0, &value));
    expect(value, "the environment of before", 0);
    CALL(PEP508_DONE, pep508_marker_evaluate_number(handle, 0, &linux_312, NULL, 0, &value));
    expect(!value, "another environment for one call", 0);
    CALL(PEP508_DONE, pep508_interner_release(handle, 1));
    CALL(PEP508_DONE, pep508_marker_is_true(handle, 0, &value));
    expect(value, "the environment stays when markers are removed", 0);
    CALL(PEP508_NO_SUCH_MARKER, pep508_marker_is_true(handle, 1, &value));
    open_with_markers(handle);
    CALL(PEP508_NO_ENVIRONMENT, pep508_marker_is_true(handle, 0, &value));
}

/* Each length of a buffer. */
static void rooms(struct pep508_interner *handle) {
    char whole[100], buffer[100], empty[100];
    size_t needed = 77, size = strlen(texts[3]);
    memset(empty, 'x', sizeof empty);
    memcpy(whole, empty, sizeof whole);
    memcpy(whole, texts[3], size);
    CALL(PEP508_BUFFER_TOO_SMALL, pep508_marker_text(handle, 3, NULL, 0, &needed));
    expect(needed == size, "needed without a buffer", (long)needed);
    for (size_t room = 0; room <= size + 1; room++) {
        memcpy(buffer, empty, sizeof buffer);
        needed = 77;
        int32_t answer = pep508_marker_text(handle, 3, buffer, room, &needed);
        expect(answer == (room < size ? PEP508_BUFFER_TOO_SMALL : PEP508_DONE), "room", (long)room);
        expect(needed == size, "needed with any room", (long)room);
        expect(memcmp(buffer, room < size ? empty : whole, sizeof buffer) == 0, "bytes",
               (long)room);
    }
    CALL(PEP508_NO_SUCH_MARKER, pep508_marker_text(handle, 9, buffer, sizeof buffer, &needed));
    expect(needed == 0, "needed of no marker", (long)needed);
    has_markers(handle, MARKERS);
}

static void limits(void) {
    struct pep508_interner handle = PEP508_INTERNER;
    struct pep508_options options = PEP508_OPTIONS;
    size_t number = 77;
    bool value = true;
    options.size++;
    CALL(PEP508_INVALID_ARGUMENT, pep508_interner_new(&handle, &options, 1));
    expect(!handle.is_open, "it stays shut", 0);
    options.size--;
    options.pieces = 8;
    CALL(PEP508_DONE, pep508_interner_new(&handle, &options, 1));
    CALL(PEP508_DONE, pep508_marker_parse(&handle, LIT("os_name == 'a'"), &number));
    CALL(PEP508_DONE, pep508_marker_parse(&handle, LIT("sys_platform == 'b'"), &number));
    for (int i = 0; i < 100; i++)
        CALL(PEP508_TOO_COMPLEX, pep508_marker_and(&handle, 0, 1, &number));
    expect(number == 1, "no number is written", (long)number);
    CALL(PEP508_DONE, pep508_interner_release(&handle, 1));
    CALL(PEP508_DONE, pep508_marker_parse(&handle, LIT("extra == 'c'"), &number));
    expect(number == 1 && has_text(&handle, 1, "extra == 'c'"), "room again", (long)number);
    expect(has_text(&handle, 0, "os_name == 'a'"), "the first marker", 0);

    options.pieces = 0;
    options.looks = 1;
    CALL(PEP508_DONE, pep508_interner_new(&handle, &options, 1));
    CALL(PEP508_DONE,
         pep508_marker_parse(&handle, LIT("os_name == 'a' and sys_platform == 'b'"), &number));
    expect(number == 0, "opened again it has no markers", (long)number);
    CALL(PEP508_DONE,
         pep508_marker_parse(&handle, LIT("os_name == 'a' and sys_platform == 'c'"), &number));
    CALL(PEP508_TOO_COMPLEX, pep508_marker_disjoint(&handle, 0, 1, &value));
    expect(value, "no value is written", 0);
    options.size = 0;
    CALL(PEP508_INVALID_ARGUMENT, pep508_interner_new(&handle, &options, 1));
    CALL(PEP508_DONE, pep508_marker_equal(&handle, 0, 1, &value));
    expect(!value, "the markers are as before", 0);
    pep508_interner_free(&handle);
    shut(&handle);
}

/* Calls on an interner with markers. */
enum { NEW, PARSE, WRONG, AND, OR, NOT, EVALUATE, SET, TEXT, CALLS };
static const char parsed[] =
    "python_version > '3.9' and (extra == 'b' or sys_platform == 'c' or platform_machine == 'd')";
static int32_t one(int which, struct pep508_interner *handle, size_t *number, bool *value,
                   char *buffer, size_t room, size_t *needed) {
    switch (which) {
    case NEW: return pep508_interner_new(handle, NULL, 0);
    case PARSE: return pep508_marker_parse(handle, LIT(parsed), number);
    case WRONG: return pep508_marker_parse(handle, LIT("os_name == 'a' and b"), number);
    case AND: return pep508_marker_and(handle, 3, 2, number);
    case OR: return pep508_marker_or(handle, 4, 2, number);
    case NOT: return pep508_marker_not(handle, 1, number);
    case EVALUATE:
        return pep508_marker_evaluate_number(handle, 2, &linux_312, extras, 2, value);
    case SET: return pep508_interner_set_environment(handle, &linux_312, extras, 2);
    default: return pep508_marker_text(handle, 3, buffer, room, needed);
    }
}

/* Refuses the n-th growth, for each n until there is none left to refuse. */
static void refused_growths(int which) {
    const int32_t wanted = which == WRONG ? PEP508_INVALID : PEP508_DONE;
    const size_t more = wanted == PEP508_DONE && which < EVALUATE ? 1 : 0;
    long n = 0, refused = 0;
    char empty[100];
    memset(empty, 'x', sizeof empty);
    for (bool is_last = false; !is_last; n++) {
        struct pep508_interner handle = PEP508_INTERNER;
        size_t number = 77, needed = 77;
        bool value = false;
        char buffer[100];
        open_with_markers(&handle);
        memcpy(buffer, empty, sizeof buffer);
        left = n;
        int32_t answer = one(which, &handle, &number, &value, buffer, sizeof buffer, &needed);
        is_last = left >= 0;
        left = -1;
        if (answer == PEP508_OUT_OF_MEMORY) {
            refused++;
            expect(number == 77 && !value, "nothing is written", which);
            expect(memcmp(buffer, empty, sizeof buffer) == 0, "no byte is written", which);
            expect(which != TEXT || needed == 0, "needed is 0", which);
            CALL(PEP508_NO_ENVIRONMENT, pep508_marker_is_true(&handle, 2, &value));
            has_markers(&handle, MARKERS);
            answer = one(which, &handle, &number, &value, buffer, sizeof buffer, &needed);
        }
        expect(answer == wanted, "the answer with memory", which);
        has_markers(&handle, which == NEW ? 0 : MARKERS + more);
        if (which == SET) {
            CALL(PEP508_DONE, pep508_marker_is_true(&handle, 2, &value));
            expect(value, "the environment that was set", which);
        }
        expect(number == (which != NEW && more ? MARKERS : 77), "the next number", (long)number);
        pep508_interner_free(&handle);
    }
    printf("call %d: answer %d, %ld growths, %ld refused\n", which, (int)wanted, n - 1, refused);
}

/* Many markers, so that the tables grow. */
static void many(void) {
    struct pep508_interner handle = PEP508_INTERNER;
    size_t number = 77, all = 0;
    char text[60];
    CALL(PEP508_DONE, pep508_interner_new(&handle, NULL, 0));
    CALL(PEP508_DONE, pep508_marker_parse(&handle, LIT("os_name == 'x'"), &all));
    for (int i = 0; i < 300; i++) {
        int length = sprintf(text, "os_name == '%d'", i);
        CALL(PEP508_DONE, pep508_marker_parse(&handle, text, (size_t)length, &number));
        CALL(PEP508_DONE, pep508_marker_or(&handle, all, number, &all));
        expect(all == number + 1, "two numbers each", (long)all);
    }
    bool value = true;
    CALL(PEP508_DONE, pep508_marker_evaluate_number(&handle, all, &linux_312, NULL, 0, &value));
    expect(!value, "the disjunction", 0);
    CALL(PEP508_DONE, pep508_interner_release(&handle, 1));
    CALL(PEP508_NO_SUCH_MARKER, pep508_marker_not(&handle, 1, &number));
    expect(has_text(&handle, 0, "os_name == 'x'"), "the first marker", 0);
    pep508_interner_free(&handle);
}

int main(void) {
    struct pep508_interner handle = PEP508_INTERNER;
    shut(&handle);
    open_with_markers(&handle);
    markers(&handle);
    questions(&handle);
    environments(&handle);
    rooms(&handle);
    pep508_interner_free(&handle);
    shut(&handle);
    limits();
    many();
    for (int which = 0; which < CALLS; which++)
        refused_growths(which);
    printf("%ld checks, %ld failures\n", checks, failures);
    return failures != 0;
}
