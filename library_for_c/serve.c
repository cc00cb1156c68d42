/* Answers the lines of standard input, as the program markers does. */
#include "pep508.h"
#include <stdio.h>
#include <stdlib.h>

/* All of standard input, with its length. */
static char *read_all(size_t *length) {
    size_t room = 1 << 16;
    char *bytes = (char *)malloc(room);
    *length = 0;
    while (bytes != NULL) {
        *length += fread(bytes + *length, 1, room - *length, stdin);
        if (*length < room)
            break;
        room *= 2;
        char *more = (char *)realloc(bytes, room);
        if (more == NULL)
            free(bytes);
        bytes = more;
    }
    return bytes;
}

int main(void) {
    size_t length = 0, needed = 0;
    char *script = read_all(&length), *replies = NULL;
    int32_t answer = PEP508_OUT_OF_MEMORY;
    if (script != NULL)
        answer = pep508_serve(script, length, NULL, 0, NULL, 0, &needed);
    if (answer == PEP508_BUFFER_TOO_SMALL && (replies = (char *)malloc(needed)) != NULL)
        answer = pep508_serve(script, length, NULL, 0, replies, needed, &needed);
    if (answer == PEP508_DONE && needed > 0)
        fwrite(replies, 1, needed, stdout);
    free(script);
    free(replies);
    return answer;
}
