/* Opens a drawing, applies a rule, and prints what came of it, as the program `trial` does: `done=` with the five counts and the new
 * drawing's file, or `refused=` with the refusal's number and what is returned with it.
 *
 *     cc -Iinclude -o e1 c/e1.c target/staticlib/libhengvoat.a && ./e1
 */
#include <inttypes.h>
#include <stdint.h>
#include <stdio.h>
#include <stdlib.h>
#include <string.h>

#include "hengvoat.h"

/* Class 0 is a cabinet, class 1 a width. Name 0 is "is as wide as", of which a cabinet has one; name 1 is "stands beside". Cabinet 3 is
 * 60 mm wide (node 6; widths are tenths of a millimetre) and stands beside cabinet 5, whose width nobody has drawn. */
static const char drawing[] =
    "class=0,0\n"
    "class=1,1\n"
    "name=0,0\n"
    "name=1,1\n"
    "may=0,0,1\n"
    "may=0,1,0\n"
    "node=3,0,0\n"
    "node=5,0,0\n"
    "node=6,1,600\n"
    "edge=3,0,6\n"
    "edge=3,1,5\n";

/* Edge addition: where a cabinet (pattern node 0) has a width (2) and stands beside a cabinet (1), that one gets the same width. */
static const char rule[] =
    "op=2\n"
    "pnode=0,0,0\n"
    "pnode=0,0,0\n"
    "pnode=1,0,0\n"
    "pedge=0,0,2\n"
    "pedge=0,1,1\n"
    "put=1,0,2\n";

/* Texts are bytes with a length; the 0 at the end of a C string is no part of them. */
static const uint8_t *bytes(const char *text)
{
    return (const uint8_t *)text;
}

static void refused(uint64_t refusal, uint64_t returned)
{
    printf("refused=%" PRIu64 ",%" PRIu64 "\n", refusal, returned);
    exit(EXIT_FAILURE);
}

int main(void)
{
    /* Static, since they are large; there is nothing to free. */
    static hengvoat_session session;
    static uint8_t file[HENGVOAT_FILE_MOST];

    session = hengvoat_new();

    hengvoat_open_result opened = hengvoat_open(&session, bytes(drawing), strlen(drawing));
    if (opened.refusal != HENGVOAT_DONE)
        refused(opened.refusal, opened.returned);

    hengvoat_apply_result applied = hengvoat_apply(&session, bytes(rule), strlen(rule));
    if (applied.refusal != HENGVOAT_DONE)
        refused(applied.refusal, applied.returned);

    /* No file is longer than the buffer, so that this is not refused; and only the first `length` bytes are the file. */
    hengvoat_save_result saved = hengvoat_save(&session, file, sizeof file);
    if (saved.refusal != HENGVOAT_DONE)
        refused(saved.refusal, saved.returned);

    printf("done=%" PRIu64 ",%" PRIu64 ",%" PRIu64 ",%" PRIu64 ",%" PRIu64 "\n", applied.matchings, applied.nodes_added,
           applied.edges_added, applied.nodes_removed, applied.edges_removed);
    fwrite(file, 1, saved.length, stdout);
    return 0;
}
