/* Holds the archive to the header. Prints `layout: ok`, or what is wrong, and then ends with 1.
 *
 * What the header says of a session and the proofs say nothing of is how its fields lie in memory, and how C passes and returns it. So the
 * fields are declared here again, and read after each call; the bytes around session and buffer must stay as they were; and two threads
 * must get what one gets.
 *
 *     cc -pthread -Iinclude -o layout c/layout.c target/staticlib/libhengvoat.a && ./layout
 */
#define _POSIX_C_SOURCE 200809L
#include <pthread.h>
#include <stdbool.h>
#include <stddef.h>
#include <stdint.h>
#include <stdio.h>
#include <string.h>

#include "hengvoat.h"

/* The session's fields, as the engine declares them. */
struct declarations {
    uint64_t declared;
    uint64_t second;
};

struct scheme {
    struct declarations classes;
    struct declarations names;
    uint64_t permitted[HENGVOAT_PERMITTED_MOST];
    size_t permissions;
};

struct instance {
    uint64_t nodes[HENGVOAT_NODES_MOST];
    size_t order;
    uint64_t edges[HENGVOAT_EDGES_MOST];
    size_t size;
};

struct history {
    struct instance copies[HENGVOAT_COPIES_MOST];
    size_t depth;
};

struct session {
    bool opened;
    struct scheme scheme;
    struct instance instance;
    struct history history;
};

_Static_assert(sizeof(struct session) == HENGVOAT_SESSION_SIZE, "the header's size is not that of the fields");
_Static_assert(_Alignof(struct session) == HENGVOAT_SESSION_ALIGN, "the header's alignment is not that of the fields");

static int faults = 0;

static void expect(bool holds, const char *what)
{
    if (!holds) {
        printf("layout: wrong: %s\n", what);
        faults++;
    }
}

/* Document 01's drawing J, its rule R, and rules with which its other examples are made. */
static const char J[] = "class=0,0\nclass=1,1\nname=0,0\nname=1,1\nmay=0,0,1\nmay=0,1,0\nnode=3,0,0\nnode=5,0,0\nnode=6,1,600\n"
                        "edge=3,0,6\nedge=3,1,5\n";
static const char R[] = "op=2\npnode=0,0,0\npnode=0,0,0\npnode=1,0,0\npedge=0,0,2\npedge=0,1,1\nput=1,0,2\n";
static const char two_free[] = "op=0\npnode=0,0,0\npnode=0,0,0\n";
static const char *const rules[] = {
    R,
    two_free,
    "op=1\nmake=0\n",
    "op=1\npnode=1,0,0\nmake=0\narm=0,0\n",
    "op=2\npnode=0,0,0\npnode=1,0,0\nput=0,0,1\n",
    "op=2\npnode=0,0,0\npnode=0,0,0\nput=0,1,1\n",
    "op=3\npnode=1,0,0\ndrop=0\n",
    "op=4\npnode=0,0,0\npnode=0,0,0\npedge=0,1,1\ncut=0,1,1\n",
    "op=5\npnode=0,0,0\ngroup=0,0,1,1\n",
    "op=2\npnode=0,0,0\nput=0,1,1\n",
    "op=6\n",
};
#define RULES (sizeof rules / sizeof rules[0])

static const uint8_t *bytes(const char *text)
{
    return (const uint8_t *)text;
}

/* The fields are read from a copy, so that the compiler need not be told that two types name one place. */
static struct session fields(const hengvoat_session *session)
{
    struct session s;
    memcpy(&s, session, sizeof s);
    return s;
}

/* Memory with guards, painted before each call. */
#define GUARD 4096

static struct {
    uint8_t before[GUARD];
    hengvoat_session session;
    uint8_t after[GUARD];
} guarded;

static bool painted(const uint8_t *from, size_t length, uint8_t paint)
{
    for (size_t i = 0; i < length; i++)
        if (from[i] != paint)
            return false;
    return true;
}

static bool guards_stand(uint8_t paint)
{
    return painted(guarded.before, GUARD, paint) && painted(guarded.after, GUARD, paint);
}

/* hengvoat_new as the calling convention has it: the caller passes where the session shall stand, and is given that pointer back. A C
 * compiler is free to have the session written elsewhere and copied; through this name it is written in its place. */
extern void *new_at(void *place) __asm__("hengvoat_new");

static void new_writes_the_session_alone(void)
{
    static const uint8_t paints[2] = {0xa5, 0x5a};
    static uint8_t made[2][HENGVOAT_SESSION_SIZE];
    for (int i = 0; i < 2; i++) {
        memset(&guarded, paints[i], sizeof guarded);
        expect(new_at(&guarded.session) == &guarded.session, "new gives back where the session stands");
        expect(guards_stand(paints[i]), "new writes nothing outside the session");
        memcpy(made[i], &guarded.session, HENGVOAT_SESSION_SIZE);
    }
    /* What new leaves as it was differs between the two: nothing may, but for the room between `opened` and the scheme. */
    const size_t opened_end = offsetof(struct session, opened) + sizeof(bool);
    bool all = true;
    for (size_t i = 0; i < HENGVOAT_SESSION_SIZE; i++)
        if ((i < opened_end || i >= offsetof(struct session, scheme)) && made[0][i] != made[1][i])
            all = false;
    expect(all, "new writes every field");

    struct session s = fields(&guarded.session);
    expect(made[0][offsetof(struct session, opened)] == 0, "a new session is shut");
    expect(s.scheme.permissions == 0 && s.scheme.classes.declared == 0 && s.scheme.names.declared == 0, "a new session's scheme is empty");
    expect(s.instance.order == 0 && s.instance.size == 0, "a new session's drawing is empty");
    expect(s.history.depth == 0, "a new session has no copies");
}

static void calls_write_the_fields(void)
{
    const uint8_t paint = 0x77;
    memset(&guarded, paint, sizeof guarded);
    guarded.session = hengvoat_new();
    hengvoat_session *session = &guarded.session;

    hengvoat_open_result opened = hengvoat_open(session, bytes(J), strlen(J));
    expect(opened.refusal == 0 && opened.returned == 0 && opened.classes == 2 && opened.names == 2, "open: what it reports");
    struct session s = fields(session);
    expect(s.opened, "open: opened");
    expect(s.scheme.classes.declared == 3 && s.scheme.classes.second == 2, "open: classes");
    expect(s.scheme.names.declared == 3 && s.scheme.names.second == 2, "open: names");
    expect(s.scheme.permissions == 2, "open: permissions");
    expect(s.instance.order == 3 && s.instance.size == 2, "open: order and size");
    expect(s.history.depth == 0, "open: depth");

    hengvoat_apply_result applied = hengvoat_apply(session, bytes(R), strlen(R));
    expect(applied.refusal == 0 && applied.returned == 0 && applied.matchings == 1, "apply: done, with its matchings");
    expect(applied.nodes_added == 0 && applied.edges_added == 1, "apply: what is added");
    expect(applied.nodes_removed == 0 && applied.edges_removed == 0, "apply: what is removed");
    s = fields(session);
    expect(s.opened && s.instance.order == 3 && s.instance.size == 3, "apply: order and size");
    expect(s.history.depth == 1, "apply: depth");
    expect(s.history.copies[0].order == 3 && s.history.copies[0].size == 2, "apply: the copy");

    static const char drop[] = "op=3\npnode=1,0,0\ndrop=0\n";
    applied = hengvoat_apply(session, bytes(drop), strlen(drop));
    expect(applied.nodes_removed == 1 && applied.edges_removed == 2, "node deletion: what is removed");
    s = fields(session);
    expect(s.instance.order == 2 && s.instance.size == 1 && s.history.depth == 2, "node deletion: order, size and depth");
    expect(s.history.copies[0].size == 3 && s.history.copies[1].size == 2, "node deletion: newest copy first");

    hengvoat_step_result step = hengvoat_undo(session);
    s = fields(session);
    expect(step.refusal == 0 && step.returned == 0, "undo: what it answers");
    expect(s.instance.order == 3 && s.instance.size == 3 && s.history.depth == 1, "undo: order, size and depth");

    step = hengvoat_undo(session);
    step = hengvoat_undo(session);
    expect(step.refusal == HENGVOAT_NO_COPY && step.returned == 0, "undo: refused");
    expect(fields(session).instance.size == 2 && fields(session).history.depth == 0, "undo: size and depth after a refusal");

    static const uint64_t list[] = {3, 5, 99};
    hengvoat_matching_result matching = hengvoat_first(session, bytes(two_free), strlen(two_free));
    expect(matching.refusal == 0 && matching.found == 1 && matching.length == 2, "first: found");
    expect(matching.numbers[0] == 3 && matching.numbers[1] == 3, "first: numbers");
    matching = hengvoat_after(session, bytes(two_free), strlen(two_free), list, 2);
    expect(matching.found == 1 && matching.numbers[0] == 5 && matching.numbers[1] == 3, "after: numbers");
    matching = hengvoat_after(session, bytes(two_free), strlen(two_free), list, 3);
    expect(matching.refusal == HENGVOAT_LENGTH_DIFFERS && matching.returned == 2, "after: refused");
    expect(matching.found == 0 && matching.length == 0 && matching.numbers[5] == 0, "after: zeros with a refusal");

    step = hengvoat_close(session);
    expect(step.refusal == 0 && step.returned == 0 && !fields(session).opened, "close: shut");
    step = hengvoat_close(session);
    expect(step.refusal == HENGVOAT_NOT_OPEN && step.returned == 0, "close: refused");
    expect(guards_stand(paint), "no call writes outside the session");
}

static void save_writes_the_front(void)
{
    static uint8_t buffer[GUARD];
    const size_t length = strlen(J);
    const uint8_t paint = 0xc3;
    static hengvoat_session session;
    session = hengvoat_new();
    hengvoat_open(&session, bytes(J), length);

    memset(buffer, paint, sizeof buffer);
    hengvoat_save_result saved = hengvoat_save(&session, buffer + 1, length - 1);
    expect(saved.refusal == HENGVOAT_BUFFER_SHORT && saved.returned == length && saved.length == 0, "save: refused");
    expect(painted(buffer, sizeof buffer, paint), "save: a refusal leaves the buffer");

    saved = hengvoat_save(&session, buffer + 1, length);
    expect(saved.refusal == 0 && saved.returned == 0 && saved.length == length, "save: exactly the file's length");
    expect(memcmp(buffer + 1, J, length) == 0, "save: the file");
    expect(buffer[0] == paint && painted(buffer + 1 + length, sizeof buffer - 1 - length, paint), "save: nothing around the file");

    memset(buffer, paint, sizeof buffer);
    saved = hengvoat_save(&session, buffer, sizeof buffer);
    expect(saved.length == length && painted(buffer + length, sizeof buffer - length, paint), "save: the rest of the buffer");
}

/* A run is some thousand calls, chosen by its seed; its digest is taken of every number and every file that they give. */
struct run {
    uint64_t seed;
    uint64_t digest;
    hengvoat_session session;
    uint8_t file[HENGVOAT_FILE_MOST];
};

static void fold(struct run *run, uint64_t number)
{
    run->digest = (run->digest ^ number) * UINT64_C(0x100000001b3);
}

static uint64_t chosen(struct run *run, uint64_t below)
{
    run->seed = run->seed * UINT64_C(6364136223846793005) + UINT64_C(1442695040888963407);
    return (run->seed >> 33) % below;
}

static void fold_matching(struct run *run, hengvoat_matching_result matching)
{
    fold(run, matching.refusal);
    fold(run, matching.returned);
    fold(run, matching.found);
    for (size_t i = 0; i < matching.length; i++)
        fold(run, matching.numbers[i]);
}

static void fold_listing(struct run *run, const hengvoat_session *session, const char *rule)
{
    const size_t length = strlen(rule);
    hengvoat_matching_result matching = hengvoat_first(session, bytes(rule), length);
    fold_matching(run, matching);
    while (matching.found) {
        matching = hengvoat_after(session, bytes(rule), length, matching.numbers, matching.length);
        fold_matching(run, matching);
    }
}

static void fold_call(struct run *run)
{
    const char *rule = rules[chosen(run, RULES)];
    switch (chosen(run, 8)) {
    case 0: {
        hengvoat_open_result opened = hengvoat_open(&run->session, bytes(J), strlen(J));
        fold(run, opened.refusal + opened.classes);
        break;
    }
    case 1:
        if (chosen(run, 8) == 0)
            fold(run, hengvoat_close(&run->session).refusal);
        break;
    case 2:
        fold(run, hengvoat_undo(&run->session).refusal);
        break;
    case 3:
        fold_listing(run, &run->session, rule);
        break;
    case 4: {
        hengvoat_save_result saved = hengvoat_save(&run->session, run->file, sizeof run->file);
        fold(run, saved.refusal);
        for (size_t i = 0; i < saved.length; i++)
            fold(run, run->file[i]);
        break;
    }
    default: {
        hengvoat_apply_result applied = hengvoat_apply(&run->session, bytes(rule), strlen(rule));
        fold(run, applied.refusal);
        fold(run, applied.returned);
        fold(run, applied.matchings);
        fold(run, applied.nodes_added);
        fold(run, applied.edges_added);
        fold(run, applied.nodes_removed);
        fold(run, applied.edges_removed);
    }
    }
}

/* The calls that take a session as const may be made by both threads at once on this one. */
static hengvoat_session shared;

static void *make_run(void *argument)
{
    struct run *run = argument;
    run->digest = UINT64_C(0xcbf29ce484222325);
    run->session = hengvoat_new();
    for (int i = 0; i < 4000; i++) {
        fold_call(run);
        if (i % 16 == 0)
            fold_listing(run, &shared, two_free);
    }
    return NULL;
}

static void threads_do_not_meet(void)
{
    static struct run alone[2], together[2];
    pthread_t threads[2];
    shared = hengvoat_new();
    hengvoat_open(&shared, bytes(J), strlen(J));
    for (int i = 0; i < 2; i++) {
        alone[i].seed = together[i].seed = (uint64_t)i + 1;
        make_run(&alone[i]);
    }
    expect(alone[0].digest != alone[1].digest, "two seeds, two runs");
    for (int i = 0; i < 2; i++)
        if (pthread_create(&threads[i], NULL, make_run, &together[i]) != 0) {
            expect(false, "a thread can be started");
            return;
        }
    for (int i = 0; i < 2; i++) {
        pthread_join(threads[i], NULL);
        expect(together[i].digest == alone[i].digest, "two threads get what one gets");
    }
}

/* A copy goes its own way, whether assigned or copied as bytes. */
static void copies_are_snapshots(void)
{
    static hengvoat_session session, assigned, copied;
    static uint8_t file[HENGVOAT_FILE_MOST];
    session = hengvoat_new();
    hengvoat_open(&session, bytes(J), strlen(J));
    assigned = session;
    memcpy(&copied, &session, sizeof copied);
    hengvoat_apply(&session, bytes(R), strlen(R));
    expect(hengvoat_save(&session, file, sizeof file).length == strlen(J) + strlen("edge=5,0,6\n"), "the session moves on");
    expect(hengvoat_save(&assigned, file, sizeof file).length == strlen(J), "an assigned copy stays");
    expect(hengvoat_save(&copied, file, sizeof file).length == strlen(J), "a copy of the bytes stays");
    expect(hengvoat_undo(&assigned).refusal == HENGVOAT_NO_COPY, "a copy has the undo copies of its moment");
}

int main(void)
{
    new_writes_the_session_alone();
    calls_write_the_fields();
    save_writes_the_front();
    copies_are_snapshots();
    threads_do_not_meet();
    if (faults == 0)
        puts("layout: ok");
    return faults == 0 ? 0 : 1;
}
