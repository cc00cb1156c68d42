/* Asks about requirements and markers. */
#include "pep508.h"
#include <stdio.h>
#include <string.h>

static const struct pep508_environment linux_312 = {
    PEP508_TEXT("cpython"), PEP508_TEXT("3.12.1"), PEP508_TEXT("posix"),
    PEP508_TEXT("x86_64"),  PEP508_TEXT("CPython"), PEP508_TEXT("6.1"),
    PEP508_TEXT("Linux"),   PEP508_TEXT("#1"),      PEP508_TEXT("3.12.1"),
    PEP508_TEXT("3.12"),    PEP508_TEXT("linux"),
};

int main(void) {
    char buffer[200];
    size_t needed = 0;
    const char *requirement = "Requests [Security] >= 2.8.1 ; python_version < '3'";
    const size_t length = strlen(requirement);
    if (pep508_requirement_normalize(requirement, length, NULL, 0, buffer, sizeof buffer,
                                     &needed) == PEP508_DONE)
        printf("%.*s\n", (int)needed, buffer);
    if (pep508_requirement_parts(requirement, length, NULL, 0, buffer, sizeof buffer, &needed) ==
        PEP508_DONE)
        printf("%.*s\n", (int)needed, buffer);
    struct pep508_span span = {0, 0};
    if (pep508_requirement_check("requests >> 1", 13, NULL, 0, &span, buffer, sizeof buffer,
                                 &needed) == PEP508_INVALID)
        printf("at %d: %.*s\n", (int)span.start, (int)needed, buffer);

    const char *marker = "sys_platform == 'linux' and extra == 'dev'";
    const char *other = "sys_platform == 'win32'";
    const struct pep508_text dev = PEP508_TEXT("Dev");
    bool with = false, without = true;
    pep508_marker_evaluate(marker, strlen(marker), &linux_312, &dev, 1, NULL, 0, &with);
    pep508_marker_evaluate(marker, strlen(marker), &linux_312, NULL, 0, NULL, 0, &without);
    printf("with dev: %d, without: %d\n", with, without);

    int32_t relation = PEP508_EQUAL;
    if (pep508_markers_compare(marker, strlen(marker), other, strlen(other), NULL, 0, &relation) ==
        PEP508_DONE)
        printf("disjoint: %d\n", relation == PEP508_DISJOINT);

    const char *text = "python_version >= '3.8' and os_name == 'posix'";
    if (pep508_marker_normalize(text, strlen(text), NULL, 0, buffer, sizeof buffer, &needed) ==
        PEP508_DONE)
        printf("%.*s\n", (int)needed, buffer);
    const struct pep508_bound from_39 = {1, PEP508_TEXT("3.9")}, none = PEP508_UNBOUNDED;
    if (pep508_marker_simplify(text, strlen(text), &from_39, &none, NULL, 0, NULL, 0, buffer,
                               sizeof buffer, &needed) == PEP508_DONE)
        printf("%.*s\n", (int)needed, buffer);
    const char *wrong = "python_version is '3.8'";
    int32_t answer = pep508_marker_normalize(wrong, strlen(wrong), NULL, 0, buffer, sizeof buffer,
                                             &needed);
    printf("invalid: %d\n", answer == PEP508_INVALID);
    return 0;
}
