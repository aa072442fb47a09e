/* Formats an image, writes three records, commits, mounts it again, reads the last record back and searches it. */
#include <stdio.h>
#include <string.h>

#include "../include/muitalvek.h"

#define PAGES 8

static uint8_t image[256 * PAGES];
static uint8_t map[PAGES];
static mv_table table;
static mv_state state;

/* stores what came back, and says what was done */
static int took(const char *what, mv_reply reply) {
    table = reply.table;
    state = reply.state;
    printf("%s: code %u\n", what, (unsigned)reply.code);
    return reply.code == MV_OK;
}

int main(void) {
    static const char text[] = "a zone cut at the antimeridian";
    const size_t n = sizeof text - 1;
    const uint8_t filler[224] = {0};
    const uint32_t last = (uint32_t)(n + sizeof filler); /* where the third record starts */
    char back[sizeof text] = {0};

    memset(image, 0xff, sizeof image);
    table = mv_empty_table();
    state = mv_new_state(1);

    if (!took("format", mv_format(image, sizeof image, map, sizeof map, table, state))) return 1;
    if (!took("open", mv_open(image, sizeof image, map, sizeof map, table, state, 3))) return 1;
    if (!took("write", mv_write(image, sizeof image, map, sizeof map, table, state, (const uint8_t *)text, n))) return 1;
    if (!took("record end", mv_record_end(image, sizeof image, map, sizeof map, table, state))) return 1;
    if (!took("write", mv_write(image, sizeof image, map, sizeof map, table, state, filler, sizeof filler))) return 1;
    if (!took("record end", mv_record_end(image, sizeof image, map, sizeof map, table, state))) return 1;
    if (!took("write", mv_write(image, sizeof image, map, sizeof map, table, state, (const uint8_t *)text, n))) return 1;
    if (!took("record end", mv_record_end(image, sizeof image, map, sizeof map, table, state))) return 1;
    if (!took("finish", mv_finish(image, sizeof image, map, sizeof map, table, state))) return 1;
    if (!took("commit", mv_commit(image, sizeof image, map, sizeof map, table, state))) return 1;

    /* as after a restart: only the image is kept */
    table = mv_empty_table();
    state = mv_new_state(1);
    if (!took("mount", mv_mount(image, sizeof image, map, sizeof map, table, state))) return 1;

    mv_locate_reply where = mv_locate(image, sizeof image, map, sizeof map, table, state, 3, 0);
    printf("locate: code %u, page %u, %u headers\n", (unsigned)where.code, (unsigned)where.page, (unsigned)where.headers);
    mv_seq_reply end = mv_read(image, sizeof image, map, sizeof map, table, state, 3, last, (uint8_t *)back, n);
    printf("read: code %u, up to %u: %s\n", (unsigned)end.code, (unsigned)end.seq, back);
    mv_seq_reply past = mv_read(image, sizeof image, map, sizeof map, table, state, 3, end.seq, (uint8_t *)back, 1);
    printf("read at the end: code %u\n", (unsigned)past.code);
    mv_seq_reply stays = mv_skip(image, sizeof image, map, sizeof map, table, state, 3, last, n + 1);
    printf("skip past the end: code %u, still at %u\n", (unsigned)stays.code, (unsigned)stays.seq);
    mv_search_reply found = mv_search(image, sizeof image, map, sizeof map, table, &state, 3);
    printf("search: code %u, %s %u\n", (unsigned)found.code, found.offer ? "offer" : "end", (unsigned)found.seq);
    found = mv_turn(image, sizeof image, map, sizeof map, &state, true);
    printf("right: code %u, %s %u\n", (unsigned)found.code, found.offer ? "offer" : "end", (unsigned)found.seq);
    found = mv_turn(image, sizeof image, map, sizeof map, &state, false);
    printf("left with no position on offer: code %u\n", (unsigned)found.code);
    printf("free pages: %zu of %d\n", mv_free_pages(map, sizeof map, state), PAGES);
    return 0;
}
