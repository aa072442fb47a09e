/* Muitalvek from C: a file layer over an image of 256-byte pages.
 *
 * An image has 4 to 1,024 pages, its length is exactly 256 times their count, and the map has one byte for each page.
 * Both are the caller's and are lent to each call. Table and state go in by value and come back in the reply: store
 * them after every call, also a refused one. A search (mv_search, mv_turn) changes the state in place instead.
 * A code of 0 is success, any other is a refusal's number (below).
 * Link crates/export/out/libexport.a, which `rt lib` in crates/export writes.
 */
#ifndef MUITALVEK_H
#define MUITALVEK_H

#include <stdbool.h>
#include <stddef.h>
#include <stdint.h>

#ifdef __cplusplus
extern "C" {
#endif

/* refusals, in the numbers of the rules */
enum mv_code {
    MV_OK = 0,
    MV_BAD_SIZE = 1,    /* image or map has no lawful length, or not the mounted one */
    MV_NOT_MOUNTED = 2, /* nothing is formatted or mounted now */
    MV_BUSY = 3,        /* a transaction or a writer is in the way */
    MV_BAD_FILE = 4,    /* a file's id is above 7 */
    MV_DAMAGED = 5,     /* a check on the image failed */
    MV_EOF = 6,         /* the position is at or past the file's end */
    MV_SHORT = 7,       /* some bytes remain, but fewer than wanted */
    MV_NO_ROOM = 8,     /* too few free pages */
    MV_SEQ_END = 9,     /* a sequence number would pass its limit */
    MV_NO_SEARCH = 10,  /* no position is on offer, or no writer is open */
    MV_GONE = 11,       /* the position was truncated away */
    MV_RANGE = 12       /* a sequence helper's argument is out of range */
};

#define MV_NONE 65535 /* the page id and the record boundary that mean none */

/* the header of a data page */
typedef struct {
    uint32_t seq;
    uint16_t skiplist[9];
    uint16_t record_boundary;
    uint16_t length;
} mv_data_header;

/* a file: it is empty exactly if last_page is MV_NONE, and holds the numbers first_seq to last_seq - 1 */
typedef struct {
    bool dirty;
    uint16_t last_page;
    mv_data_header header;
    uint32_t first_seq;
    uint32_t last_seq;
    uint8_t flags;
} mv_file;

typedef struct {
    mv_file files[8];
} mv_table;

/* the writer that is open, if active */
typedef struct {
    bool active;
    uint8_t file;
    uint32_t seq;
    uint16_t page;
    uint16_t previous;
    mv_data_header previous_header;
    uint16_t copied;
    uint16_t boundary;
    bool ended;
    uint32_t stored;
    uint16_t length;
    uint8_t staged[224];
} mv_writer;

/* the search whose position is on offer, if active */
typedef struct {
    bool active;
    uint8_t file;
    uint32_t left;
    uint32_t right;
    uint16_t right_links[9];
    uint32_t result;
    uint32_t low;
    uint16_t low_links[9];
    uint32_t mid;
    uint32_t high;
} mv_search_state;

typedef struct {
    bool mounted;
    uint16_t pages;
    uint16_t page_count;
    uint16_t meta_page;
    uint32_t meta_seq;
    uint16_t cursor;
    uint32_t seed;
    bool transaction;
    mv_writer writer;
    mv_search_state search;
} mv_state;

/* of a call that changes something: table and state as they are after it */
typedef struct {
    uint32_t code;
    mv_table table;
    mv_state state;
} mv_reply;

/* the page of a number and the headers read on the way; MV_NONE and 0 where refused */
typedef struct {
    uint32_t code;
    uint16_t page;
    uint32_t headers;
} mv_locate_reply;

/* the number where a reader then stands: where it stood, if refused */
typedef struct {
    uint32_t code;
    uint32_t seq;
} mv_seq_reply;

/* a position on offer, or (offer is false) the search's result */
typedef struct {
    uint32_t code;
    bool offer;
    uint32_t seq;
} mv_search_reply;

/* an unmounted state; any seed will do */
mv_state mv_new_state(uint32_t seed);
/* eight empty files */
mv_table mv_empty_table(void);

/* empties the image and mounts it */
mv_reply mv_format(uint8_t *image, size_t image_len, uint8_t *map, size_t map_len, mv_table table, mv_state state);
/* mounts an image as it is */
mv_reply mv_mount(const uint8_t *image, size_t image_len, uint8_t *map, size_t map_len, mv_table table, mv_state state);

/* the page that holds number seq of a file */
mv_locate_reply mv_locate(const uint8_t *image, size_t image_len, const uint8_t *map, size_t map_len, mv_table table,
                          mv_state state, uint8_t file, uint32_t seq);
/* fills out with the bytes from number seq on; the reply's seq is behind them */
mv_seq_reply mv_read(const uint8_t *image, size_t image_len, const uint8_t *map, size_t map_len, mv_table table,
                     mv_state state, uint8_t file, uint32_t seq, uint8_t *out, size_t out_len);
/* the number len bytes behind seq; seq itself where refused */
mv_seq_reply mv_skip(const uint8_t *image, size_t image_len, const uint8_t *map, size_t map_len, mv_table table,
                     mv_state state, uint8_t file, uint32_t seq, size_t len);
/* the number offs bytes behind the file's first one, which it is where refused (0 for a file above 7) */
mv_seq_reply mv_seek(const uint8_t *image, size_t image_len, const uint8_t *map, size_t map_len, mv_table table,
                     mv_state state, uint8_t file, size_t offs);

/* starts a search for a record of a file; the state is changed in place, here and in the next */
mv_search_reply mv_search(const uint8_t *image, size_t image_len, const uint8_t *map, size_t map_len, mv_table table,
                          mv_state *state, uint8_t file);
/* answers the position on offer: what is searched lies left of it (false), or there or right of it (true) */
mv_search_reply mv_turn(const uint8_t *image, size_t image_len, const uint8_t *map, size_t map_len, mv_state *state,
                        bool to_right);

/* opens a writer at a file's end */
mv_reply mv_open(const uint8_t *image, size_t image_len, uint8_t *map, size_t map_len, mv_table table, mv_state state,
                 uint8_t file);
/* writes all bytes, or none and refuses */
mv_reply mv_write(uint8_t *image, size_t image_len, uint8_t *map, size_t map_len, mv_table table, mv_state state,
                  const uint8_t *bytes, size_t bytes_len);
/* ends a record where the writer stands */
mv_reply mv_record_end(const uint8_t *image, size_t image_len, const uint8_t *map, size_t map_len, mv_table table,
                       mv_state state);
/* stores what is staged, closes the writer and opens a transaction */
mv_reply mv_finish(uint8_t *image, size_t image_len, uint8_t *map, size_t map_len, mv_table table, mv_state state);
/* closes the writer and gives its pages back */
mv_reply mv_discard(const uint8_t *image, size_t image_len, uint8_t *map, size_t map_len, mv_table table,
                    mv_state state);

/* takes bytes off a file's start */
mv_reply mv_truncate(const uint8_t *image, size_t image_len, uint8_t *map, size_t map_len, mv_table table,
                     mv_state state, uint8_t file, size_t bytes);
/* swaps two files */
mv_reply mv_rename(const uint8_t *image, size_t image_len, const uint8_t *map, size_t map_len, mv_table table,
                   mv_state state, uint8_t from, uint8_t to);
/* sets a file's flags; they stick only to a file that is not empty */
mv_reply mv_flags(const uint8_t *image, size_t image_len, const uint8_t *map, size_t map_len, mv_table table,
                  mv_state state, uint8_t file, uint8_t flags);
/* makes all changes since the last commit last, and ends the transaction */
mv_reply mv_commit(uint8_t *image, size_t image_len, uint8_t *map, size_t map_len, mv_table table, mv_state state);

/* how many pages are free, and how many are not */
size_t mv_free_pages(const uint8_t *map, size_t map_len, mv_state state);
size_t mv_used_pages(const uint8_t *map, size_t map_len, mv_state state);

#ifdef __cplusplus
}
#endif

#endif
