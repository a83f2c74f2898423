/* The C functions of the Reckonhedge cutting bench; docs/C-FUNCTIONS.md tells the whole.
 *
 * Numbers in byte runs are little-endian words of 4 bytes; an f32 is the word of its bit pattern. A run of bytes is a pointer and a length; where the
 * length is 0 the pointer may be NULL. Each function answers a refusal number, 0 if it accepts, and writes every byte of `out` (and `log`): its answer and 0
 * behind it, nothing but 0 on a refusal. It reads and writes nothing else, keeps nothing between calls and takes no heap: threads may call at once.
 * What is written must not overlap what is read, nor `out` overlap `log`. x86-64 only. Give the calling thread 1 MiB of stack. */
#ifndef BENCH_H
#define BENCH_H

#include <stddef.h>
#include <stdint.h>

#ifdef __cplusplus
extern "C" {
#endif

/* The most that a mesh can have. */
#define BENCH_MAX_PARTICLES 1024u
#define BENCH_MAX_TRIANGLES 1024u
#define BENCH_MAX_EDGES 2048u
#define BENCH_MAX_BOUNDARY 2048u
/* The most entries of a log, and the most torn edges that one call takes. */
#define BENCH_MAX_LOG 4096u
#define BENCH_MAX_TORN 2048u

/* The refusal numbers. */
enum bench_refusal {
    BENCH_ACCEPTED = 0,
    BENCH_BAD_COUNT = 1,         /* a count, or a sheet's outline, is above its limit, or the image's length is not the one that its counts ask for */
    BENCH_BAD_NUMBER = 2,        /* a number of mesh, blade or point is not finite or out of range, or a flag is not 0 or 1 */
    BENCH_BAD_INDEX = 3,         /* an index or root names no particle, or an element, edge or boundary entry names one twice */
    BENCH_BAD_ARGUMENT = 4,      /* a bad argument beside the mesh, or too few bytes for the answer */
    BENCH_NO_PARTICLE_ROOM = 5,  /* the particles need more places than were lent, or than the limit */
    BENCH_NO_EDGE_ROOM = 6,      /* so do the edges, at their longest in a step */
    BENCH_NO_BOUNDARY_ROOM = 7,  /* so do the boundary entries */
    BENCH_NO_LOG_ROOM = 8,       /* so do the log entries */
    BENCH_BAD_SHEET = 9,         /* a sheet is cut short, has bytes left over or a spare bit that is 1, or does not fit the lent bytes */
    BENCH_READER_CLOSED = 10,    /* a reader of sheets is closed */
    BENCH_NOT_WHOLE = 11,        /* a cut of edition 2: a coordinate of a position or of the blade is no whole number from -1,024 to 1,024 */
    BENCH_NOT_FOR_STRAPS = 12    /* a cut of edition 2: the mesh is of straps */
};

/* The editions of the cut. */
enum bench_edition {
    BENCH_EDITION_ROUNDED = 1, /* as the Rust rounds; it takes every mesh */
    BENCH_EDITION_EXACT = 2    /* crossings and sides decided exactly, so that a blade cuts alike from either end; triangles and whole coordinates alone */
};

/* The kinds of a log entry, its first word; behind it stand a, b, p, q and the bits of t; p and q of a crossing are the bits of its point's x and y. */
enum bench_log_kind {
    BENCH_LOG_SPLIT = 1,    /* particle a is a new copy of particle b */
    BENCH_LOG_REMOVED = 2,  /* the edge from a to b went, by the numbers of that moment */
    BENCH_LOG_INSERTED = 3, /* the strap from a to b was cut through at t: it is now the straps a to p and q to b */
    BENCH_LOG_OPENED = 4,   /* the torn edge that was a to b in the input opened */
    BENCH_LOG_CROSSED = 5   /* the blade met the side from a to b of a triangle, or that strap, of the input, at the point and at t; before all other entries */
};
#define BENCH_LOG_ENTRY_WORDS 6u
#define BENCH_LOG_ENTRY_BYTES 24u

/* The bytes of the image of a mesh with p particles, t triangles, e edges and b boundary entries. */
#define BENCH_IMAGE_BYTES(p, t, e, b) \
    ((size_t)4 * ((size_t)4 + (size_t)10 * (size_t)(p) + (size_t)5 * (size_t)(t) + (size_t)8 * (size_t)(e) + (size_t)2 * (size_t)(b)))
/* The result bytes that suffice for a call that gives a mesh, lent so many places: two words and an image. */
#define BENCH_RESULT_BYTES(p, t, e, b) ((size_t)8 + BENCH_IMAGE_BYTES(p, t, e, b))

/* The layout of images, logs, fields and results that this header speaks; bench_layout answers the archive's. 2: the fields of a sheet have no boundary;
 * 3: the log of a cut marks its crossings, and bench_blade_hit answers the hit point; 4: a particle has a velocity, so 10 words, and bench_cut takes an edition. */
#define BENCH_LAYOUT 4u
/* The result bytes of bench_sheet for a sheet of these counts, b those of the outline that it is read with: five words and an image. */
#define BENCH_SHEET_RESULT_BYTES(p, t, e, b) ((size_t)20 + BENCH_IMAGE_BYTES(p, t, e, b))
/* The bytes of the fields that bench_sheet_write takes, and of the sheet that it gives, in the second edition. */
#define BENCH_FIELD_BYTES(p, t, e) ((size_t)4 * ((size_t)7 + (size_t)3 * (size_t)(p) + (size_t)3 * (size_t)(t) + (size_t)3 * (size_t)(e)))
#define BENCH_SHEET_BYTES(p, t, e) (((size_t)96 + (size_t)23 * (size_t)(p) + (size_t)30 * (size_t)(t) + (size_t)21 * (size_t)(e)) / (size_t)8)
/* The bytes of a reader that is fed a sheet in parts. */
#define BENCH_READER_BYTES 17301u
/* So many bytes hold every mended sheet, and every text of bench_mend. */
#define BENCH_MENDED_BYTES 17292u
#define BENCH_MEND_TEXT_BYTES 131072u
/* So many bytes hold every listing, and every fan. */
#define BENCH_LISTING_BYTES 65536u
#define BENCH_FAN_BYTES 8196u

/* The minimum piece that the bench offers for a crack. */
#define BENCH_MINIMUM_PIECE 3u

/* The square root of the f32 with these bits, correctly rounded: one word. Below 0 or not finite: 4. */
uint32_t bench_root(uint32_t bits, uint8_t *out, size_t out_len);

/* Does the blade x0 y0 x1 y1 hit the edge px py qx qy (8 words)? Four words: 1, the bits of the fraction t along the edge, and
 * those of the hit point's x and y; or 0 0 0 0. */
uint32_t bench_blade_hit(const uint8_t *words, size_t words_len, uint8_t *out, size_t out_len);

/* The groups of the fan of particle v under these sides, a byte 0 or 1 for each fan element: the number of groups, then each element's group. */
uint32_t bench_groups(const uint8_t *image, size_t image_len, uint32_t v, const uint8_t *sides, size_t sides_len, uint8_t *out, size_t out_len);

/* The rest volume of all triangles, or the initial rest length of all straps: one word, the bits of an f32. */
uint32_t bench_rest_measure(const uint8_t *image, size_t image_len, uint8_t *out, size_t out_len);

/* The same over the elements whose particles all stand in a strictly rising list, a word each. */
uint32_t bench_rest_measure_of(const uint8_t *image, size_t image_len, const uint8_t *list, size_t list_len, uint8_t *out, size_t out_len);

/* Would each group at v reach at least `minimum` elements (0 counts as 1) without v? One word, 1 or 0. */
uint32_t bench_opens_without_confetti(const uint8_t *image, size_t image_len, uint32_t v, const uint8_t *sides, size_t sides_len, uint32_t minimum, uint8_t *out, size_t out_len);

/* The number of pieces: one word. */
uint32_t bench_pieces(const uint8_t *image, size_t image_len, uint8_t *out, size_t out_len);

/* Splits particle v by the sides of its fan. `rooms` is 4 words, the places lent for particles, triangles, edges, boundary; `out` gets two words
 * (1 if anything was split or inserted, else 0; the number of log entries) and the image of the new mesh, `log` 6 words an entry. */
uint32_t bench_split(const uint8_t *image, size_t image_len, uint32_t v, const uint8_t *sides, size_t sides_len, const uint8_t *rooms, size_t rooms_len, uint8_t *out, size_t out_len, uint8_t *log, size_t log_len);

/* Removes each edge, other than a strap, whose ends lie in two pieces. Answers as bench_split; the first word stays 0. */
uint32_t bench_straddlers(const uint8_t *image, size_t image_len, const uint8_t *rooms, size_t rooms_len, uint8_t *out, size_t out_len, uint8_t *log, size_t log_len);

/* Cuts along a blade of 4 words, x0 y0 x1 y1, by the rules of an edition (bench_edition; another number gets 4). `fraction`, the bits of an f32 from 0 to 0.5, keeps
 * insertions that far from a strap's ends. Answers as bench_split. The crossings of the blade with the mesh are marked in the log first, one entry for each element that
 * finds one. Behind 4, and before 5 to 8, edition 2 gives 11 and then 12. */
uint32_t bench_cut(const uint8_t *image, size_t image_len, const uint8_t *blade, size_t blade_len, uint32_t edition, uint32_t fraction, const uint8_t *rooms, size_t rooms_len, uint8_t *out, size_t out_len, uint8_t *log, size_t log_len);

/* Opens a crack across each torn edge, a word each, in the list's order; no group may fall below `minimum` elements. Answers as bench_split. */
uint32_t bench_crack(const uint8_t *image, size_t image_len, const uint8_t *torn, size_t torn_len, uint32_t minimum, const uint8_t *rooms, size_t rooms_len, uint8_t *out, size_t out_len, uint8_t *log, size_t log_len);

/* The number of the layout of images, logs, fields and results that the archive speaks; compare it with BENCH_LAYOUT. It never refuses. */
uint32_t bench_layout(void);

/* The fan of particle v: a word, how many elements it has, then their numbers, rising: triangles, or in a mesh without triangles straps by their edge numbers. */
uint32_t bench_fan(const uint8_t *image, size_t image_len, uint32_t v, uint8_t *out, size_t out_len);

/* A sheet of either edition read: a word, 1 if its typed boundary was not the outline of the mesh and was replaced by it, else 0; the blade's four words
 * (f32 bits of x0 y0 x1 y1); then the mesh image. An outline of more than 2,048 entries gets 1, behind 3. */
uint32_t bench_sheet(const uint8_t *sheet, size_t sheet_len, uint8_t *out, size_t out_len);

/* A sheet that comes in parts. `reader` is BENCH_READER_BYTES bytes that the host keeps between the calls; bytes of another length get 4, and stay.
 * Opens a reader, whatever stood in its bytes: it was fed nothing. */
uint32_t bench_sheet_open(uint8_t *reader, size_t reader_len);

/* Feeds a part, of any length: 0, whatever the bytes are; 10 if the reader is closed. `reader` is all that it writes. */
uint32_t bench_sheet_feed(uint8_t *reader, size_t reader_len, const uint8_t *part, size_t part_len);

/* Closes a reader, and answers as bench_sheet does for all that it was fed, in one piece. A closed one gets 10, however few the bytes of `out` are, and stays. */
uint32_t bench_sheet_close(uint8_t *reader, size_t reader_len, uint8_t *out, size_t out_len);

/* A sheet written, in the second edition. `fields`: the words P T E, then the columns x y pinned | a b c | a b structural | x0 y0 x1 y1; coordinates in two's
 * complement, -1024 to 1023. No boundary: reading finds the outline of the mesh; one of more than 2,048 entries gets 1, behind 3. */
uint32_t bench_sheet_write(const uint8_t *fields, size_t fields_len, uint8_t *out, size_t out_len);

/* A broken sheet of either edition mended: the mended sheet, the lines that say each drop, and in `counts` two words, how many bytes each of them has; 0 behind each.
 * Refusals: 9 short header, 1 counts, 9 length, 4 too few lent bytes; every lent byte is then 0. */
uint32_t bench_mend(const uint8_t *broken, size_t broken_len, uint8_t *mended, size_t mended_len, uint8_t *text, size_t text_len, uint8_t *counts, size_t counts_len);

/* The listing that the program cutlist prints for the bytes of a sheet, or its line "refused N"; 0 behind it. It refuses only too few bytes, with 4. */
uint32_t bench_list_cut(const uint8_t *sheet, size_t sheet_len, uint8_t *out, size_t out_len);

/* The differences of two sheets that the program sheetdiff prints for their bytes, or its line "refused N"; 0 behind it. It refuses only too few bytes, with 4. */
uint32_t bench_difference(const uint8_t *first, size_t first_len, const uint8_t *second, size_t second_len, uint8_t *out, size_t out_len);

#ifdef __cplusplus
}
#endif

#endif
