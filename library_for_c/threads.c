/* Four threads give the same results, each with an interner. */
#include "pep508.h"
#include <pthread.h>
#include <stdio.h>

static void *work(void *out) {
    char buffer[300], line[100];
    size_t needed = 0, sum = 0, number = 0;
    struct pep508_interner handle = PEP508_INTERNER;
    if (pep508_interner_new(&handle, NULL, 0) != PEP508_DONE)
        return out;
    for (int i = 0; i < 300; i++) {
        int length = snprintf(line, sizeof line, "os_name == 'a%d' and extra == 'b'", i % 7);
        if (pep508_marker_normalize(line, (size_t)length, NULL, 0, buffer, sizeof buffer,
                                    &needed) == PEP508_DONE)
            sum += needed;
        if (pep508_marker_parse(&handle, line, (size_t)length, &number) == PEP508_DONE &&
            pep508_marker_text(&handle, number, buffer, sizeof buffer, &needed) == PEP508_DONE)
            sum += needed + number;
    }
    pep508_interner_free(&handle);
    *(size_t *)out = sum;
    return out;
}

int main(void) {
    pthread_t threads[4];
    size_t sums[4] = {0};
    for (int i = 0; i < 4; i++)
        if (pthread_create(&threads[i], NULL, work, &sums[i]) != 0)
            return 2;
    for (int i = 0; i < 4; i++)
        if (pthread_join(threads[i], NULL) != 0)
            return 2;
    int same = sums[0] && sums[0] == sums[1] && sums[1] == sums[2] && sums[2] == sums[3];
    printf("the same results: %d\n", same);
    return !same;
}
