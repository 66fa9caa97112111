/* Desktern for C: reels of H.263 macroblock records, rebuilt into pictures, with the age of every
 * macroblock.
 *
 * Each function is an export of the proved static library libdesktern_c.a (crates/desktern_c).
 * docs/C.md says how to build and link it, what is proved of it, and what a C program owes;
 * docs/REEL.md, docs/RECORDS.md and docs/REFUSALS.md say what the calls mean.
 *
 * What holds of every function: no pointer may be null, except the reel of desktern_free, and
 * bytes, samples and ages where their length is 0; what two pointers of one call point to does not
 * overlap; a reel is given to one call at a time, and may go from thread to thread between calls;
 * and none may be called from a signal handler. No function keeps a pointer that it is given,
 * prints, or stops the program. Only desktern_new allocates and only desktern_free frees a reel. */
#ifndef DESKTERN_H
#define DESKTERN_H

#include <stddef.h>
#include <stdint.h>

#ifdef __cplusplus
extern "C" {
#endif

/* A reel with its memory: made by desktern_new, given back by desktern_free. Its memory belongs to
 * the library, and C only keeps the pointer: it must not read, write, move or free what lies
 * there. */
typedef struct desktern_reel desktern_reel;

/* Outcomes of a call. A call that is not accepted changes nothing. */
enum {
    DESKTERN_ACCEPTED = 0,
    DESKTERN_REFUSED = 1,        /* number, layer, word, macroblock and block tell why and where */
    DESKTERN_OUT_OF_TURN = 2,    /* the call needs an open picture where none is open, or a resting
                                  * reel where one is */
    DESKTERN_NO_MEMORY = 3,      /* desktern_new alone: malloc gave too little */
    DESKTERN_UNKNOWN_CHOICE = 4  /* desktern_new alone: no such store, or no such transform */
};

/* What a call is answered. Every call fills the whole of it, whatever it held. Fields that the
 * outcome does not name are 0. */
typedef struct {
    uint32_t outcome;
    uint32_t number;      /* refused: the number of the refusal, 1 to 18 */
    uint32_t layer;       /* refused: 0 picture, 1 words, 2 macroblock, 3 block, 4 segment */
    uint32_t block;       /* refused: the block due, or 6 */
    uint64_t word;        /* refused: the index of the word concerned */
    uint64_t macroblock;  /* refused: the macroblocks of the delivery read whole before it */
    uint64_t first;       /* accepted: open: segments; deliver: words; close: marks; sample: the
                           * sample; age: the age */
    uint64_t second;      /* accepted: deliver: INTRA macroblocks */
} desktern_answer;

/* Begins a reel. format: 1 sub-QCIF, 2 QCIF, 3 CIF; any other is refused with 1, whatever the two
 * choices. store: 0 bytes, 1 tiles; it changes no answer. transform: 0 two-pass, 1 direct. Any
 * other store or transform is answered UNKNOWN_CHOICE. On ACCEPTED *reel is the reel, which the
 * caller owns from then on; else nothing is made and *reel is left as it was. What *reel held
 * before is overwritten: a reel that was there has to be given back first, or kept elsewhere. */
void desktern_new(uint32_t format, uint32_t store, uint32_t transform, desktern_reel **reel,
                  desktern_answer *answer);

/* Gives a reel's memory back; the pointer must not be used again. A picture that is open is closed
 * first and dropped with the rest. A null pointer is no reel, and nothing is done. */
void desktern_free(desktern_reel *reel);

/* Opens a picture: kind 0 INTRA or 1 INTER, rounding 0 or 1, layout a bit for each macroblock row
 * that begins a segment. first: how many segments. */
void desktern_open(desktern_reel *reel, uint32_t kind, uint32_t rounding, uint32_t layout,
                   desktern_answer *answer);

/* Delivers the records of a segment of the open picture. The bytes are read during the call alone.
 * first: the words; second: the INTRA macroblocks. */
void desktern_deliver(desktern_reel *reel, uint32_t segment, const uint8_t *bytes, size_t length,
                      desktern_answer *answer);

/* Closes the open picture, which becomes the finished one. first: the marks, bit k for segment k
 * where that was accepted. */
void desktern_close(desktern_reel *reel, desktern_answer *answer);

/* Asks for a sample of the finished picture, and for the age of one of its macroblocks. While a
 * picture is open the finished one is that before it. */
void desktern_sample(desktern_reel *reel, uint32_t plane, uint32_t across, uint32_t down,
                     desktern_answer *answer);
void desktern_age(desktern_reel *reel, uint32_t column, uint32_t row, desktern_answer *answer);

/* Copies a plane of the finished picture (0 Y, 1 Cb, 2 Cr), row by row from the top, to the front
 * of samples, and leaves the rest of them as it is; gives how many samples the plane has. Where
 * length is less than that it writes nothing, so a call with a length of 0, for which samples may
 * be null, asks for the size; of any other plane it gives 0 and writes nothing. It refuses nothing:
 * before the first closing it copies what the memory holds, which is zeros in a new reel. */
size_t desktern_plane(desktern_reel *reel, uint32_t plane, uint8_t *samples, size_t length);

/* Copies the ages of the finished picture in raster order, a byte for each macroblock, in the same
 * way. */
size_t desktern_ages(desktern_reel *reel, uint8_t *ages, size_t length);

#ifdef __cplusplus
}
#endif

#endif
