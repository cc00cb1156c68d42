/* Python dependency specifiers (PEP 508), for C and every language that calls
   C: requirements, as `requests[security] >= 2.8.1 ; python_version < '3'`, and
   their markers.

   Texts are bytes with a length and need no NUL at the end. Their bytes may be
   NULL only where the text is a parameter of its own and its length is 0: the
   bytes of a struct pep508_text are never NULL, so an empty one is
   PEP508_TEXT(""). A text that is invalid UTF-8 is answered by PEP508_NOT_UTF8.

   Every call except pep508_interner_free returns a number of enum pep508_answer.
   A call writes its results only if it answers PEP508_DONE, unless its comment
   says more.

   A call that writes bytes takes a buffer with its length, and writes to
   `needed` how many bytes there are. It writes all of them to the start of the
   buffer, without a NUL, or none if the buffer is too small, and then answers
   PEP508_BUFFER_TOO_SMALL: call again with a buffer of `needed` bytes. A buffer
   of length 0 may be NULL. With any other answer `needed` is 0. Only
   pep508_requirement_check differs, as its comment says.

   Options are NULL with the count 0 for the defaults, or a pointer to one
   struct pep508_options with the count 1.

   Pointers to other parameters are not NULL, and what a call writes does not
   overlap what it reads or other results. A call reads and writes nothing else,
   keeps no pointer to its parameters, and does not print or read the
   environment. A marker of many thousand variables can exhaust the stack (8 MB
   at some 13,700). A build by `build_library --now` stops at an overflow or a
   bad access.
   Memory comes from malloc, and each refusal is answered by
   PEP508_OUT_OF_MEMORY. Calls may run in any number of threads at a time, but
   only one at a time with the same struct pep508_interner. */
#ifndef PEP508_H
#define PEP508_H

#include <stdbool.h>
#include <stddef.h>
#include <stdint.h>

#ifdef __cplusplus
extern "C" {
#endif

enum pep508_answer {
    PEP508_DONE = 0,             /* the results are written */
    PEP508_INVALID = 1,          /* the text is an invalid requirement or marker */
    PEP508_OUT_OF_MEMORY = 2,    /* malloc returned NULL */
    PEP508_BUFFER_TOO_SMALL = 3, /* the buffer has fewer than `needed` bytes */
    PEP508_NOT_UTF8 = 4,         /* a text is invalid UTF-8 */
    PEP508_NUMBER_TOO_LARGE = 5, /* a version in the marker has the number
                                    18446744073709551615 where the next one
                                    is needed */
    PEP508_INVALID_ARGUMENT = 6, /* a value or a bound is invalid, an extra is
                                    no name, or the options are not one struct
                                    of this size */
    PEP508_TOO_COMPLEX = 7,      /* more nodes, terms or looks than the options
                                    allow */
    PEP508_NO_SUCH_MARKER = 8,   /* no marker of the interner has this number */
    PEP508_SHUT = 9,             /* the interner is shut */
    PEP508_NO_ENVIRONMENT = 10   /* no environment was set */
};

/* How two markers relate: the first of the list that is true. Keys, substring
   tests and extras are taken to be independent of one another, and no range
   between two different values is taken to be empty. */
enum pep508_relation {
    PEP508_EQUAL = 0,                /* true for the same values */
    PEP508_DISJOINT = 1,             /* never true together */
    PEP508_FIRST_IMPLIES_SECOND = 2, /* where the first is true, so is the second */
    PEP508_SECOND_IMPLIES_FIRST = 3, /* where the second is true, so is the first */
    PEP508_OVERLAPPING = 4           /* true together, and each alone */
};

struct pep508_text {
    const char *bytes; /* not NULL, even if the length is 0 */
    size_t length;
};
#define PEP508_TEXT(literal) {(literal), sizeof(literal) - 1}

/* What a caller may choose. Begin with PEP508_OPTIONS. */
struct pep508_options {
    size_t size;     /* sizeof(struct pep508_options) */
    uint64_t key[2]; /* the key of the hash tables: whoever takes texts from
                        strangers fills it from a source of random bytes, such
                        as getrandom; two zeros are a fixed key */
    size_t pieces;   /* room: how many edges the nodes of an interner may have,
                        and how many terms the clauses of a text, redundant ones
                        included; or 0 for 1,000,000 */
    size_t looks;    /* how many pairs of nodes a question of disjointness may
                        look at, or 0 for 10,000,000; lines of pep508_serve
                        have no such limit */
    struct pep508_text working_folder; /* the folder that relative paths in
                        requirements start from and that ${PROJECT_ROOT} stands
                        for, or an empty text for none */
};
#define PEP508_OPTIONS {sizeof(struct pep508_options), {0, 0}, 0, 0, PEP508_TEXT("")}

/* The values of the keys of markers. Those of implementation_version,
   python_full_version and python_version are versions. */
struct pep508_environment {
    struct pep508_text implementation_name, implementation_version, os_name,
        platform_machine, platform_python_implementation, platform_release,
        platform_system, platform_version, python_full_version, python_version,
        sys_platform;
};

/* A place in a text, in bytes. */
struct pep508_span {
    size_t start, length;
};

/* Where a range of Python versions begins or ends. */
struct pep508_bound {
    uint32_t kind; /* 0: no bound, 1: the version is in the range, 2: it is not */
    struct pep508_text version;
};
#define PEP508_UNBOUNDED {0, PEP508_TEXT("")}

/* Markers that are kept from call to call, each with a number. Begin with
   PEP508_INTERNER, and change no field. */
struct pep508_interner {
    bool is_open;
    void *at;
};
#define PEP508_INTERNER {false, NULL}

/* The version of the library, such as 0.9.2. */
int32_t pep508_version(char *buffer, size_t buffer_length, size_t *needed);

/* Answers PEP508_DONE if the text is a requirement, and writes nothing then.
   If it answers PEP508_INVALID, it writes where the text is wrong to `span`, and
   to `needed` the length of a message that says what is wrong. The message is
   written if the buffer is large enough for it. A span at the end of the text
   starts at its length and is 1 long.

   In requirements no variable is known: ${NAME} stays as it is written. A
   relative path is invalid if there is no working folder. */
int32_t pep508_requirement_check(const char *text, size_t length,
                                 const struct pep508_options *options,
                                 size_t options_count, struct pep508_span *span,
                                 char *message, size_t message_length,
                                 size_t *needed);

/* Writes the normal text of a requirement: its name, its extras in brackets, its
   specifiers separated by commas or ` @ ` and its URL, and ` ; ` and its marker
   unless that is true in every environment. */
int32_t pep508_requirement_normalize(const char *text, size_t length,
                                     const struct pep508_options *options,
                                     size_t options_count, char *buffer,
                                     size_t buffer_length, size_t *needed);

/* Writes the parts of a requirement as an object of JSON without spaces, in
   normal form, such as
   {"extras":["security"],"marker":"os_name == 'nt'","name":"requests",
   "specifiers":[">=2.8.1"],"url":null} on one line. `marker` is null if it is
   true in every environment, and `url` if there is none. */
int32_t pep508_requirement_parts(const char *text, size_t length,
                                 const struct pep508_options *options,
                                 size_t options_count, char *buffer,
                                 size_t buffer_length, size_t *needed);

/* Writes the normal text of a marker, which is empty if the marker is true in
   every environment. */
int32_t pep508_marker_normalize(const char *text, size_t length,
                                const struct pep508_options *options,
                                size_t options_count, char *buffer,
                                size_t buffer_length, size_t *needed);

/* Writes whether a marker is true in an environment with these extras. */
int32_t pep508_marker_evaluate(const char *text, size_t length,
                               const struct pep508_environment *environment,
                               const struct pep508_text *extras,
                               size_t extras_count,
                               const struct pep508_options *options,
                               size_t options_count, bool *value);

/* Writes how two markers relate, a number of enum pep508_relation. */
int32_t pep508_markers_compare(const char *first, size_t first_length,
                               const char *second, size_t second_length,
                               const struct pep508_options *options,
                               size_t options_count, int32_t *relation);

/* Writes the normal text of a marker that is true where the given one is, for
   Python versions in a range and with these extras. */
int32_t pep508_marker_simplify(const char *text, size_t length,
                               const struct pep508_bound *lower,
                               const struct pep508_bound *upper,
                               const struct pep508_text *extras,
                               size_t extras_count,
                               const struct pep508_options *options,
                               size_t options_count, char *buffer,
                               size_t buffer_length, size_t *needed);

/* Answers lines, each with a reply line, on a session that begins without markers
   and ends with the call, and writes the replies. The lines are those of the
   program `markers`, such as
       parse os_name == 'nt'
       text 0
   A line whose marker takes more memory or nodes than there are is answered by
   `error memory`. An invalid line is answered too: the call never answers
   PEP508_INVALID. */
int32_t pep508_serve(const char *script, size_t length,
                     const struct pep508_options *options, size_t options_count,
                     char *buffer, size_t buffer_length, size_t *needed);

/* The calls below keep markers in an interner: each is parsed once and then has
   a number, which costs less than to give its text to each call.

   The numbers start at 0, and each new marker has the next one. A number means the
   same marker until pep508_interner_release or pep508_interner_free, whatever
   other calls answer. Two numbers may have the same marker. A number that no
   marker has is answered by PEP508_NO_SUCH_MARKER, and an interner that is shut
   by PEP508_SHUT. With an answer other than PEP508_DONE the markers are as
   before.

   `pieces` of the options limits the nodes of all markers of an interner together.
   Once there was no room for a node, it answers PEP508_TOO_COMPLEX also when
   malloc returns NULL for one. */

/* Opens an interner without markers. One that is open is freed before, if the call
   answers PEP508_DONE. */
int32_t pep508_interner_new(struct pep508_interner *handle,
                            const struct pep508_options *options,
                            size_t options_count);

/* Frees all memory of an interner and shuts it. One that is shut stays so. */
void pep508_interner_free(struct pep508_interner *handle);

/* Writes how many markers have a number, for pep508_interner_release. */
int32_t pep508_interner_mark(struct pep508_interner *handle, size_t *count);

/* Removes all markers but the first `count`, with their nodes. Their numbers are
   given to new markers again. If there are no more than `count`, nothing
   changes. */
int32_t pep508_interner_release(struct pep508_interner *handle, size_t count);

/* Parses a marker and writes its number. */
int32_t pep508_marker_parse(struct pep508_interner *handle, const char *text,
                            size_t length, size_t *number);

/* Writes the number of a new marker that is true where both are. */
int32_t pep508_marker_and(struct pep508_interner *handle, size_t a, size_t b,
                          size_t *number);

/* Writes the number of a new marker that is true where at least one is. */
int32_t pep508_marker_or(struct pep508_interner *handle, size_t a, size_t b,
                         size_t *number);

/* Writes the number of a new marker that is true where the given one is not. */
int32_t pep508_marker_not(struct pep508_interner *handle, size_t a,
                          size_t *number);

/* Writes whether two markers are equal, as PEP508_EQUAL has it. */
int32_t pep508_marker_equal(struct pep508_interner *handle, size_t a, size_t b,
                            bool *value);

/* Writes whether two markers are disjoint, as PEP508_DISJOINT has it. */
int32_t pep508_marker_disjoint(struct pep508_interner *handle, size_t a, size_t b,
                               bool *value);

/* Writes whether a marker is true in an environment with these extras. If the
   last call had an environment of the same texts, it is not read again. */
int32_t pep508_marker_evaluate_number(struct pep508_interner *handle, size_t number,
                                      const struct pep508_environment *environment,
                                      const struct pep508_text *extras,
                                      size_t extras_count, bool *value);

/* Sets the environment, with extras, in which pep508_marker_is_true evaluates,
   instead of the one before. It is read once for many markers, which then take a
   sixth of the time of pep508_marker_evaluate_number. Markers stay, and
   pep508_interner_release keeps the environment. With an answer other than
   PEP508_DONE the one before stays. */
int32_t pep508_interner_set_environment(struct pep508_interner *handle,
                                        const struct pep508_environment *environment,
                                        const struct pep508_text *extras,
                                        size_t extras_count);

/* Writes whether a marker is true in the environment that was set, with its
   extras. If none was set, it answers PEP508_NO_ENVIRONMENT. */
int32_t pep508_marker_is_true(struct pep508_interner *handle, size_t number,
                              bool *value);

/* Writes the normal text of a marker, which is empty if the marker is true in
   every environment. */
int32_t pep508_marker_text(struct pep508_interner *handle, size_t number,
                           char *buffer, size_t buffer_length, size_t *needed);

#ifdef __cplusplus
}
#endif
#endif
