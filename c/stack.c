/* Measures how much stack the calls need, for HENGVOAT_STACK. Prints a line for each call, and ends with 1 if one needs more than that.
 *
 * A thread is given a stack that is painted; when the call has returned, the deepest byte that is no longer painted tells how much was
 * used. What a thread uses that makes no call is taken off. The drawings are of full size, with eight copies, and the rules have the
 * largest pattern with each action, both done and refused. Then all calls are made on a stack of just HENGVOAT_STACK bytes more than
 * the system's least.
 *
 *     cc -pthread -Iinclude -o stack c/stack.c target/staticlib/libhengvoat.a && ./stack
 */
#define _XOPEN_SOURCE 700
#include <inttypes.h>
#include <limits.h>
#include <pthread.h>
#include <stdbool.h>
#include <stdint.h>
#include <stdio.h>
#include <stdlib.h>
#include <string.h>
#include <unistd.h>

#include "hengvoat.h"

#define ROOM ((size_t)16 << 20)
#define PAINT 0xa5

/* A ring of nodes of class 0 under the largest scheme: each has an edge of name 0 to the next and one of name 32 to the next but one. */
static size_t write_ring(char *text, unsigned nodes)
{
    char *end = text;
    for (unsigned i = 0; i < 64; i++)
        end += sprintf(end, "class=%u,%u\n", i, i < 32 ? 0u : 1u);
    for (unsigned i = 0; i < 64; i++)
        end += sprintf(end, "name=%u,%u\n", i, i < 32 ? 0u : 1u);
    for (unsigned i = 0; i < HENGVOAT_PERMITTED_MOST; i++)
        end += sprintf(end, "may=%u,%u,0\n", i / 64, i % 64);
    for (unsigned i = 0; i < nodes; i++)
        end += sprintf(end, "node=%u,0,0\n", 10000 + i);
    for (unsigned i = 0; i < nodes; i++) {
        end += sprintf(end, "edge=%u,0,%u\n", 10000 + i, 10000 + (i + 1) % nodes);
        end += sprintf(end, "edge=%u,32,%u\n", 10000 + i, 10000 + (i + 2) % nodes);
    }
    return (size_t)(end - text);
}

/* Six nodes and eight edges of the ring: as many matchings as it has nodes. */
#define PATTERN \
    "pnode=0,0,0\npnode=0,0,0\npnode=0,0,0\npnode=0,0,0\npnode=0,0,0\npnode=0,0,0\n" \
    "pedge=0,0,1\npedge=0,32,2\npedge=1,0,2\npedge=1,32,3\npedge=2,0,3\npedge=2,32,4\npedge=3,0,4\npedge=4,0,5\n"

static const struct {
    const char *name;
    const char *text;
} rules[] = {
    {"pattern only", "op=0\n" PATTERN},
    {"node addition", "op=1\n" PATTERN "make=0\narm=1,0\narm=2,1\narm=3,2\narm=4,3\n"},
    {"edge addition", "op=2\n" PATTERN "put=0,33,1\nput=0,34,1\nput=0,35,1\nput=0,36,1\n"},
    {"a clash", "op=2\n" PATTERN "put=0,0,2\n"},
    {"node deletion", "op=3\n" PATTERN "drop=0\n"},
    {"edge deletion", "op=4\n" PATTERN "cut=0,0,1\ncut=0,32,2\ncut=1,0,2\ncut=1,32,3\n"},
    {"abstraction", "op=5\n" PATTERN "group=0,0,32,33\n"},
    {"a bad rule", "op=5\n" PATTERN "group=0,0,32,0\n"},
};
#define RULES (sizeof rules / sizeof rules[0])

/* With 256 nodes some actions find no room; with 50 all of them do. */
static const unsigned rings[] = {HENGVOAT_NODES_MOST, 80, 50};
#define RINGS (sizeof rings / sizeof rings[0])

/* What a call is made with. It stands outside the stack that is measured. */
static struct {
    hengvoat_session session;
    const char *text;
    size_t length;
    uint8_t buffer[HENGVOAT_FILE_MOST];
    uint64_t list[HENGVOAT_PATTERN_NODES_MOST];
    uint64_t refusal;
} given;

static const uint8_t *text(void)
{
    return (const uint8_t *)given.text;
}

static void *call_nothing(void *unused)
{
    return unused;
}

/* Where the session shall stand is what C passes for a result of its size; called by its own type it might be built on the stack first. */
extern void *new_at(void *place) __asm__("hengvoat_new");

static void *call_new(void *unused)
{
    new_at(&given.session);
    return unused;
}

static void *call_open(void *unused)
{
    given.refusal = hengvoat_open(&given.session, text(), given.length).refusal;
    return unused;
}

static void *call_apply(void *unused)
{
    given.refusal = hengvoat_apply(&given.session, text(), given.length).refusal;
    return unused;
}

static void *call_undo(void *unused)
{
    given.refusal = hengvoat_undo(&given.session).refusal;
    return unused;
}

static void *call_close(void *unused)
{
    given.refusal = hengvoat_close(&given.session).refusal;
    return unused;
}

static void *call_first(void *unused)
{
    given.refusal = hengvoat_first(&given.session, text(), given.length).refusal;
    return unused;
}

static void *call_after(void *unused)
{
    given.refusal = hengvoat_after(&given.session, text(), given.length, given.list, HENGVOAT_PATTERN_NODES_MOST).refusal;
    return unused;
}

static void *call_save(void *unused)
{
    given.refusal = hengvoat_save(&given.session, given.buffer, sizeof given.buffer).refusal;
    return unused;
}

/* Either measures each call on a painted stack, or makes it on a stack of the size that HENGVOAT_STACK stands for. */
static bool measuring = true;
static size_t base = 0;
static size_t most = 0;

static void fail(const char *what)
{
    printf("stack: %s\n", what);
    exit(1);
}

static void run_on(const pthread_attr_t *attributes, void *(*call)(void *))
{
    pthread_t thread;
    if (pthread_create(&thread, attributes, call, NULL) != 0)
        fail("no thread can be started");
    pthread_join(thread, NULL);
}

static size_t used_by(void *(*call)(void *))
{
    static uint8_t *room = NULL;
    pthread_attr_t attributes;
    if (room == NULL && posix_memalign((void **)&room, (size_t)sysconf(_SC_PAGESIZE), ROOM) != 0)
        fail("no memory");
    memset(room, PAINT, ROOM);
    pthread_attr_init(&attributes);
    pthread_attr_setstack(&attributes, room, ROOM);
    run_on(&attributes, call);
    pthread_attr_destroy(&attributes);
    size_t deepest = 0;
    while (deepest < ROOM && room[deepest] == PAINT)
        deepest++;
    return ROOM - deepest;
}

static void make(const char *name, const char *of, void *(*call)(void *))
{
    if (measuring) {
        size_t used = used_by(call);
        used = used > base ? used - base : 0;
        if (used > most)
            most = used;
        printf("%-6s %-14s refusal %2" PRIu64 " %8zu bytes\n", name, of, given.refusal, used);
        return;
    }
    pthread_attr_t attributes;
    const size_t page = (size_t)sysconf(_SC_PAGESIZE);
    const size_t size = (size_t)PTHREAD_STACK_MIN + HENGVOAT_STACK;
    pthread_attr_init(&attributes);
    if (pthread_attr_setstacksize(&attributes, (size + page - 1) / page * page) != 0)
        fail("no stack of the least size");
    run_on(&attributes, call);
    pthread_attr_destroy(&attributes);
}

/* Every call, once with each drawing and rule. */
static void make_all(void)
{
    static char file[HENGVOAT_FILE_MOST + 1];
    static hengvoat_session opened;
    for (size_t r = 0; r < RINGS; r++) {
        make("new", "", call_new);
        make("undo", "nothing open", call_undo);
        given.text = file;
        given.length = write_ring(file, rings[r]);
        make("open", "", call_open);
        make("open", "while open", call_open);
        for (int i = 0; i < HENGVOAT_COPIES_MOST; i++) {
            given.text = rules[0].text;
            given.length = strlen(given.text);
            call_apply(NULL);
        }
        opened = given.session;
        for (size_t i = 0; i < RULES; i++) {
            given.session = opened;
            given.text = rules[i].text;
            given.length = strlen(given.text);
            make("first", rules[i].name, call_first);
            for (int n = 0; n < HENGVOAT_PATTERN_NODES_MOST; n++)
                given.list[n] = 10000 + rings[r] / 2;
            make("after", rules[i].name, call_after);
            make("apply", rules[i].name, call_apply);
            make("save", "", call_save);
            make("undo", "", call_undo);
        }
        make("close", "", call_close);
    }
}

int main(void)
{
    base = used_by(call_nothing);
    make_all();
    printf("stack: the most is %zu bytes, HENGVOAT_STACK is %d\n", most, HENGVOAT_STACK);
    if (most > HENGVOAT_STACK)
        fail("HENGVOAT_STACK is too small");
    measuring = false;
    make_all();
    puts("stack: ok");
    return 0;
}
