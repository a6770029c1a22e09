/*
 * Claybobbin for C and C++: every entry of the library. docs/HOST.md has the packing, how to link, and an example.
 * The archive is for x86-64 Linux, and so is this header; it is plain C89.
 *
 * Each function takes every input: what is bad is refused by a number and a place, and a refusal leaves every lent buffer as it came. A slice is lent as a
 * pointer and a length, in entries. Nothing is read or written outside the slices; where a length is 0 the pointer may be null. A slice that is written (one
 * that is not const) must overlap no other slice of the call, and no one else may touch it meanwhile; a slice that is only read may be lent to several calls at
 * once. No function keeps anything, allocates, or calls back, so any number of threads may call them at once.
 */
#ifndef CLAYBOBBIN_H
#define CLAYBOBBIN_H

#include <stddef.h>

#ifdef __cplusplus
extern "C" {
#endif

/* A packed answer: 64 bits. */
typedef unsigned long claybobbin_answer;

/* Where `long` has not 64 bits, or `short` not 16, the archive does not link either; these lines say so sooner. */
typedef char claybobbin_needs_a_long_of_64_bits[sizeof(claybobbin_answer) == 8 ? 1 : -1];
typedef char claybobbin_needs_a_short_of_16_bits[sizeof(unsigned short) == 2 ? 1 : -1];

/* The numbers that come back, in the order of the checks: the first that applies is given. The place is 0 where none is named. */
enum {
    CLAYBOBBIN_DONE = 0,       /* done */
    CLAYBOBBIN_ALPHABET = 1,   /* the alphabet size is not 1 to 26 */
    CLAYBOBBIN_LONG = 2,       /* a row or array over 4,096; a counted n over 20 */
    CLAYBOBBIN_MISMATCH = 3,   /* a slice that must have n entries has not; a guess that is not as long as the hidden row */
    CLAYBOBBIN_CARD = 4,       /* a card outside the alphabet: its first place, of the hidden row before the guess */
    CLAYBOBBIN_IMPOSSIBLE = 5, /* the echo at the place is not possible behind those before it */
    CLAYBOBBIN_HIDDEN = 6,     /* the echo there is possible, but a longer one would be the echo */
    CLAYBOBBIN_FULL = 7,       /* the echo there is 0, and no letter of the alphabet would give it */
    CLAYBOBBIN_ROOM = 8,       /* the sheet is longer than the buffer */
    CLAYBOBBIN_LAST = 9,       /* the array stands, and no array of its length is next */
    CLAYBOBBIN_DIFFERS = 10    /* the guess's echoes differ from the hidden row's, first at the place */
};

enum {
    CLAYBOBBIN_LETTERS = 26,       /* the greatest alphabet size */
    CLAYBOBBIN_LIMIT = 4096,       /* the most cards of a row, the most echoes of an array */
    CLAYBOBBIN_COUNT_LIMIT = 20,   /* the greatest n that is counted */
    CLAYBOBBIN_SHEET_LIMIT = 61500 /* room for every sheet */
};

/* In all of these a is the size of the alphabet: letters are the bytes 'a' and on. All answers but that of claybobbin_count are read by claybobbin_number,
   claybobbin_place and claybobbin_value. */

/* Writes the echoes of the row into out, which has as many entries as the row. Numbers 1, 2, 3 and 4. */
claybobbin_answer claybobbin_echoes(size_t a, const unsigned char *row, size_t row_length, unsigned short *out, size_t out_length);

/* Writes the reach table of the row into out, which has as many entries as the row. Numbers 1, 2, 3 and 4. */
claybobbin_answer claybobbin_reach(size_t a, const unsigned char *row, size_t row_length, unsigned short *out, size_t out_length);

/* The value is the number of looks of the row. Numbers 1, 2 and 4. */
claybobbin_answer claybobbin_looks(size_t a, const unsigned char *row, size_t row_length);

/* Judges n echoes. bytes has two bytes an echo, low byte first, and length must be 2 * n. Numbers 1, 2, 3, 5, 6 and 7. */
claybobbin_answer claybobbin_judge(size_t a, size_t n, const unsigned char *bytes, size_t length);

/* Judges the array and writes the least row that has these echoes into row, which has as many entries. Numbers 1, 2, 3, 5, 6 and 7. */
claybobbin_answer claybobbin_rebuild(size_t a, const unsigned short *e, size_t e_length, unsigned char *row, size_t row_length);

/* Counts the arrays of n echoes that stand. The answer is read by claybobbin_count_number and claybobbin_count_value. Numbers 1 and 2. */
claybobbin_answer claybobbin_count(size_t a, size_t n);

/* Writes the least standing array of n echoes into out, which has n entries. Numbers 1, 2 and 3. */
claybobbin_answer claybobbin_first(size_t a, size_t n, unsigned short *out, size_t out_length);

/* Replaces the array by the least standing one of its length that is greater. Numbers 1, 2, 5, 6, 7 and 9. */
claybobbin_answer claybobbin_next(size_t a, unsigned short *e, size_t e_length);

/* Writes the sheet of the row at the start of the buffer; the bytes behind it stay. The value is its length. Numbers 1, 2, 4 and 8. */
claybobbin_answer claybobbin_sheet(size_t a, const unsigned char *row, size_t row_length, unsigned char *buffer, size_t buffer_length);

/* Answers a guess at the hidden row: 0 where its echoes are the hidden row's. Numbers 1, 2, 3, 4 and 10. */
claybobbin_answer claybobbin_guess(size_t a, const unsigned char *hidden, size_t hidden_length, const unsigned char *guess, size_t guess_length);

/* The value is k, the length of the closing strip: it is the last k bytes of the row. All bytes are cards here, and no number but 0 is given. */
claybobbin_answer claybobbin_closing(const unsigned char *row, size_t row_length);

/* The value is k, the length of the joining strip: it is the first k bytes of the right row, which the left row's end equals. The same. */
claybobbin_answer claybobbin_joining(const unsigned char *left, size_t left_length, const unsigned char *right, size_t right_length);

#ifdef __cplusplus
}
#endif

#if defined(__cplusplus) || (defined(__STDC_VERSION__) && __STDC_VERSION__ >= 199901L)
#define CLAYBOBBIN_INLINE static inline
#elif defined(__GNUC__)
#define CLAYBOBBIN_INLINE static __inline__
#else
#define CLAYBOBBIN_INLINE static
#endif

/* The number of an answer. */
CLAYBOBBIN_INLINE int claybobbin_number(claybobbin_answer answer)
{
    return (int)(answer % 256);
}

/* Its place, from 1 on; 0 where none is named. */
CLAYBOBBIN_INLINE size_t claybobbin_place(claybobbin_answer answer)
{
    return (size_t)(answer / 256 % 65536);
}

/* Its value: the looks, the sheet's length, the strip's length; 0 where there is none, and with every number but CLAYBOBBIN_DONE. */
CLAYBOBBIN_INLINE size_t claybobbin_value(claybobbin_answer answer)
{
    return (size_t)(answer / 16777216);
}

/* The number of a count. */
CLAYBOBBIN_INLINE int claybobbin_count_number(claybobbin_answer counted)
{
    return (int)(counted % 4);
}

/* The count itself; 0 with every number but CLAYBOBBIN_DONE. */
CLAYBOBBIN_INLINE claybobbin_answer claybobbin_count_value(claybobbin_answer counted)
{
    return counted / 4;
}

#endif
