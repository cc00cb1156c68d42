/* Keeps two markers in an interner, and asks many questions about them. */
#include "pep508.h"
#include <stdio.h>
#include <string.h>

static const struct pep508_environment linux_312 = {
    PEP508_TEXT("cpython"), PEP508_TEXT("3.12.1"), PEP508_TEXT("posix"),
    PEP508_TEXT("x86_64"),  PEP508_TEXT("CPython"), PEP508_TEXT("6.1"),
    PEP508_TEXT("Linux"),   PEP508_TEXT("#1"),      PEP508_TEXT("3.12.1"),
    PEP508_TEXT("3.12"),    PEP508_TEXT("linux"),
};

static void show(struct pep508_interner *handle, const char *name, size_t number) {
    char buffer[200];
    size_t needed;
    if (pep508_marker_text(handle, number, buffer, sizeof buffer, &needed) == PEP508_DONE)
        printf("%s: %.*s\n", name, (int)needed, buffer);
}

int main(void) {
    struct pep508_interner handle = PEP508_INTERNER;
    if (pep508_interner_new(&handle, NULL, 0) != PEP508_DONE)
        return 1;

    const char *old = "python_version < '3.8'", *windows = "os_name == 'nt'";
    size_t first, second, both, neither;
    pep508_marker_parse(&handle, old, strlen(old), &first);
    pep508_marker_parse(&handle, windows, strlen(windows), &second);
    pep508_marker_or(&handle, first, second, &both);
    pep508_marker_not(&handle, both, &neither);
    show(&handle, "one of them", both);
    show(&handle, "none of them", neither);

    bool disjoint, here, there;
    pep508_marker_disjoint(&handle, first, neither, &disjoint);
    pep508_interner_set_environment(&handle, &linux_312, NULL, 0);
    pep508_marker_is_true(&handle, neither, &here);
    pep508_marker_is_true(&handle, first, &there);
    printf("disjoint: %d, true on Linux: %d and %d\n", disjoint, here, there);

    /* What is made after a mark can be removed together. */
    size_t mark, other;
    bool equal = false;
    pep508_interner_mark(&handle, &mark);
    const char *same = "os_name != 'nt' and python_version >= '3.8'";
    pep508_marker_parse(&handle, same, strlen(same), &other);
    pep508_marker_equal(&handle, neither, other, &equal);
    pep508_interner_release(&handle, mark);
    printf("equal: %d, removed: %d\n", equal,
           pep508_marker_not(&handle, other, &other) == PEP508_NO_SUCH_MARKER);

    pep508_interner_free(&handle);
    return 0;
}
