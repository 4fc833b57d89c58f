/* libhengvoat.a, the engine of a kitchen planner, for callers in C (C99 or later) and C++.
 *
 * A session holds one drawing, which is a graph of nodes and edges under a scheme of classes and edge names. A rule is a pattern with an
 * action: the engine finds every place where the pattern matches and changes the drawing there. It keeps undo copies, and reads and writes
 * drawing files. Every call is answered with a report or with one of fourteen numbered refusals, which change nothing. Each call is proved
 * to do exactly what the specification says, for every text and in every order of calls; what the caller owes in return stands below under
 * "Session" and "Pointers". docs/REFERENCE.md describes drawing files, rule texts and operations.
 *
 *     cc -Iinclude program.c target/staticlib/libhengvoat.a      (`tools/build hengvoat` proves the library and writes the archive)
 *
 * Session. It is the caller's own memory, and all that the engine knows: the library has no state, allocates nothing, opens no file, and
 * calls nothing but memcpy, memmove and memset. A session is made by hengvoat_new and changed by the calls alone. Never write to it: of a
 * session that was made or changed in any other way nothing is promised, not even that a call ends. It may stand anywhere that is aligned
 * to HENGVOAT_SESSION_ALIGN bytes, and may be copied by assignment or memcpy; the copy is a session of its own, a snapshot. There is
 * nothing to free. Don't compare sessions by memcmp: some of their bytes mean nothing. Compare what they save.
 *
 * Pointers. None may be NULL, also where the length beside it is 0; nor may what a call is given overlap: session, file or rule, list and
 * buffer are different memory, each as long as its length says and aligned as its type asks. Lengths count elements: bytes of a text,
 * numbers of a list. Texts need no byte 0 at their end. The engine keeps no pointer: when a call returns, all that was lent is the
 * caller's again. A call that takes a pointer to const writes nothing there.
 *
 * Refusals. `refusal` is 0 (HENGVOAT_DONE) where the call was done, and then `returned` is 0. Otherwise it is the number of the refusal,
 * `returned` is what stands beside that number below, every other number of the result is 0, and session and buffer are as they were.
 *
 * Threads. There is no shared state, so calls on different sessions never meet. Of one session, the calls that take it as const (first,
 * after, save) may run at the same time as each other; any other call must have it alone. The engine takes no lock.
 *
 * Stack. A call works on its stack alone; HENGVOAT_STACK says how much of it must be free.
 */
#ifndef HENGVOAT_H
#define HENGVOAT_H

#include <stddef.h>
#include <stdint.h>

#if !defined(__x86_64__) || defined(_WIN32)
#error "libhengvoat.a is for x86-64 with the System V calling convention"
#endif

#ifdef __cplusplus
extern "C" {
#endif

/* Limits of a drawing, and of a pattern. */
#define HENGVOAT_NODES_MOST 256
#define HENGVOAT_EDGES_MOST 512
#define HENGVOAT_PERMITTED_MOST 256
#define HENGVOAT_PATTERN_NODES_MOST 6
#define HENGVOAT_PATTERN_EDGES_MOST 8

/* Undo copies: so many times can undo follow apply. */
#define HENGVOAT_COPIES_MOST 8

/* No saved file has more bytes, so a buffer of this length is never too short for hengvoat_save. */
#define HENGVOAT_FILE_MOST 20032

/* The first so many bytes decide the answer to a drawing file, and to a rule text: a longer text is refused as this part of it is. A
 * program that reads texts from elsewhere needs no larger buffer. */
#define HENGVOAT_FILE_DECIDED 20106
#define HENGVOAT_RULE_DECIDED 465

/* Bytes of stack that must be free where a call is made. Measured: apply needs the most, 138,672 bytes; this is 3.8 times as
 * much. c/stack.c measures again, and fails if it is no longer enough. The usual 8 MiB of a program's first thread are plenty; a thread
 * that is given a stack of its own needs this much on top of what the caller's functions and signal handlers use. */
#define HENGVOAT_STACK 524288

/* The size of a session in bytes, and its alignment. */
#define HENGVOAT_SESSION_SIZE 57544
#define HENGVOAT_SESSION_ALIGN 8

/* What is in it is the engine's own. At 56 KiB it is better static or allocated than on a small stack. */
typedef struct hengvoat_session {
    uint64_t hidden[HENGVOAT_SESSION_SIZE / 8];
} hengvoat_session;

/* Why a call is refused, and what `returned` then is. Lines are counted from 1. Which refusal it is: first NOT_OPEN or ALREADY_OPEN; then
 * the first bad line of the text, with the first of MALFORMED to BAD_ACTION that applies to it; then LENGTH_DIFFERS, NO_COPY or
 * BUFFER_SHORT; then what the drawing has no room for. */
enum hengvoat_refusal {
    HENGVOAT_DONE = 0, /* not refused */
    /* A line out of form, range, turn or order; given 0 with a value; or a line is missing at the end of the text. Returned: the line; one
     * past the last where one is missing. */
    HENGVOAT_MALFORMED = 1,
    /* More may, node, edge, pnode, pedge, arm, put or cut lines than allowed. Returned: the first line too many. */
    HENGVOAT_TOO_MANY = 2,
    /* A class, edge name or node that is not declared above; in a rule, a class or name that the open scheme lacks. Returned: the line. */
    HENGVOAT_UNDECLARED = 3,
    /* A value, or given 1, on a node of an object class; a line that breaks conformity (an edge that no may line permits, a second edge of
     * a functional name from one node, a value that another node of the class has); a may line that starts at a value class. Returned: the
     * line. */
    HENGVOAT_NONCONFORMING = 4,
    /* An action line with the wrong kind of class or name, with a triple that is not permitted, or a cut of an edge that is not in the
     * pattern. Returned: the line. */
    HENGVOAT_BAD_ACTION = 5,
    /* Any call but open while nothing is open. Returned: 0. */
    HENGVOAT_NOT_OPEN = 6,
    /* Open while something is open. Returned: 0. */
    HENGVOAT_ALREADY_OPEN = 7,
    /* Undo with no copy. Returned: 0. */
    HENGVOAT_NO_COPY = 8,
    /* A new node would be the 257th. Returned: 0. */
    HENGVOAT_NODES_FULL = 9,
    /* A new node's number, one more than the largest standing, would pass 65535. Returned: 0. */
    HENGVOAT_NUMBERS_FULL = 10,
    /* An edge would be the 513th. Returned: 0. */
    HENGVOAT_EDGES_FULL = 11,
    /* Edge addition would give a node two edges of one functional name. Returned: the smallest such node's number. */
    HENGVOAT_FUNCTIONAL_CLASH = 12,
    /* The save buffer is too short. Returned: how many bytes are needed. */
    HENGVOAT_BUFFER_SHORT = 13,
    /* After: the list is not as long as the pattern. Returned: how many nodes the pattern has. */
    HENGVOAT_LENGTH_DIFFERS = 14
};

/* Of undo and close, which report nothing. */
typedef struct hengvoat_step_result {
    uint64_t refusal;
    uint64_t returned;
} hengvoat_step_result;

/* How many classes and how many edge names the file declares. */
typedef struct hengvoat_open_result {
    uint64_t refusal;
    uint64_t returned;
    uint64_t classes;
    uint64_t names;
} hengvoat_open_result;

/* How many matchings the old drawing has, how many nodes and edges only the new one has, and how many only the old one has. */
typedef struct hengvoat_apply_result {
    uint64_t refusal;
    uint64_t returned;
    uint64_t matchings;
    uint64_t nodes_added;
    uint64_t edges_added;
    uint64_t nodes_removed;
    uint64_t edges_removed;
} hengvoat_apply_result;

/* `found` is 1 where there is a matching and 0 where there is none. The matching is the first `length` of the numbers: the node to which
 * each pattern node is sent. The numbers past `length` mean nothing. The empty pattern has one matching, of length 0. */
typedef struct hengvoat_matching_result {
    uint64_t refusal;
    uint64_t returned;
    uint64_t found;
    uint64_t length;
    uint64_t numbers[HENGVOAT_PATTERN_NODES_MOST];
} hengvoat_matching_result;

/* The saved file's length in bytes. */
typedef struct hengvoat_save_result {
    uint64_t refusal;
    uint64_t returned;
    uint64_t length;
} hengvoat_save_result;

/* A new session, with nothing open. */
hengvoat_session hengvoat_new(void);

/* Opens a drawing file: its scheme and drawing are the session's, with no undo copies. The empty text is an empty drawing.
 * Refusals: 7; 1 to 4. */
hengvoat_open_result hengvoat_open(hengvoat_session *session, const uint8_t *file, size_t length);

/* Applies a rule to every matching of its pattern in the drawing as it stands. The old drawing becomes the newest undo copy, and a ninth
 * copy is dropped, also where the rule changes nothing.
 * The time grows with the matchings: two pattern nodes that no edge joins have up to 65,536 of them, six have up to 2 to the 48th.
 * Refusals: 6; 1 to 5; 9 to 12. */
hengvoat_apply_result hengvoat_apply(hengvoat_session *session, const uint8_t *rule, size_t length);

/* The newest copy is the drawing again, and is no copy any more.
 * Refusals: 6, 8. */
hengvoat_step_result hengvoat_undo(hengvoat_session *session);

/* Nothing is open any more; drawing and copies are gone.
 * Refusal: 6. */
hengvoat_step_result hengvoat_close(hengvoat_session *session);

/* The smallest matching of the rule's pattern in the drawing, or none. Matchings are ordered as lists, by their first difference. The
 * action is not carried out, but its lines too must be such as apply accepts.
 * Refusals: 6; 1 to 5. */
hengvoat_matching_result hengvoat_first(const hengvoat_session *session, const uint8_t *rule, size_t length);

/* The smallest matching greater than the list, or none. The list need not be a matching, and its numbers may be of any size, but it has
 * as many as the pattern has nodes. First, and then after on each matching that is given, names every matching once, in rising order.
 * Refusals: 6; 1 to 5; 14. */
hengvoat_matching_result hengvoat_after(const hengvoat_session *session, const uint8_t *rule, size_t length, const uint64_t *list,
                                        size_t list_length);

/* Writes the drawing file at the front of the buffer, and reports its length. The rest of the buffer is left as it was. A buffer of
 * exactly the file's length is enough. A file that was opened is saved as the same bytes, and a saved file opens as the same drawing.
 * Refusals: 6; 13. */
hengvoat_save_result hengvoat_save(const hengvoat_session *session, uint8_t *buffer, size_t length);

/* The sizes that the archive was built with. */
#if defined(__cplusplus) && __cplusplus >= 201103L
#define HENGVOAT_HOLDS(name, claim) static_assert(claim, #name)
#define HENGVOAT_ALIGN_OF(type) alignof(type)
#elif !defined(__cplusplus) && defined(__STDC_VERSION__) && __STDC_VERSION__ >= 201112L
#define HENGVOAT_HOLDS(name, claim) _Static_assert(claim, #name)
#define HENGVOAT_ALIGN_OF(type) _Alignof(type)
#else
/* An array of negative length is an error; a member after a char stands at its alignment. */
#define HENGVOAT_HOLDS(name, claim) typedef char hengvoat_##name[(claim) ? 1 : -1]
#define HENGVOAT_ALIGN_OF(type) offsetof(struct hengvoat_aligned, session)
struct hengvoat_aligned {
    char first;
    hengvoat_session session;
};
#endif
HENGVOAT_HOLDS(size_of_a_length, sizeof(size_t) == 8);
HENGVOAT_HOLDS(size_of_a_session, sizeof(hengvoat_session) == HENGVOAT_SESSION_SIZE);
HENGVOAT_HOLDS(alignment_of_a_session, HENGVOAT_ALIGN_OF(hengvoat_session) == HENGVOAT_SESSION_ALIGN);
HENGVOAT_HOLDS(size_of_a_step_result, sizeof(hengvoat_step_result) == 16);
HENGVOAT_HOLDS(size_of_an_open_result, sizeof(hengvoat_open_result) == 32);
HENGVOAT_HOLDS(size_of_an_apply_result, sizeof(hengvoat_apply_result) == 56);
HENGVOAT_HOLDS(size_of_a_matching_result, sizeof(hengvoat_matching_result) == 80);
HENGVOAT_HOLDS(size_of_a_save_result, sizeof(hengvoat_save_result) == 24);
#undef HENGVOAT_HOLDS
#undef HENGVOAT_ALIGN_OF

#ifdef __cplusplus
}
#endif

#endif
