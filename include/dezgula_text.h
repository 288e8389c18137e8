/* Dezgula: maps, equations and lists as texts and files.
 *
 * What dezgula.h says of answers, tables, trust, writing and threads holds here too. A text or a file comes as a pointer and the number of its bytes, and needs
 * no 0 at its end; none is written after one. Each call costs some operations for each byte read or written. */
#ifndef DEZGULA_TEXT_H
#define DEZGULA_TEXT_H

#include "dezgula.h"

#ifdef __cplusplus
extern "C" {
#endif

/* ---- answers: those of dezgula.h, and these */

enum {
    /* Refused. Nothing lent was changed, but for the place within a line (dezgula_read_system). */
    DEZGULA_TEXT_LINE = 9,    /* a line is not in the form, or not ended by a newline; the place is its number */
    DEZGULA_TEXT_LENGTH = 10, /* the text has more than 4,096 bytes */
    DEZGULA_GRAMMAR = 16,     /* an equation is outside the grammar, or has an unknown above q; the place is that of the first byte up to which the text
                                 begins no equation, or one past the end */
    DEZGULA_DEPTH = 17,       /* brackets deeper than eight */
    DEZGULA_MULTIPLIER = 18,  /* the product of the multipliers around a bracket is above 10,000 */
    DEZGULA_STEEP = 18,       /* the former name of DEZGULA_MULTIPLIER */
    DEZGULA_FILE_SIZE = 19,   /* writing: out_len is not the length of the file; reading: below one block, or not as many blocks as block 0 says */
    DEZGULA_FILE_SUM = 20,    /* the words of a block do not add to zero */
    DEZGULA_FILE_NUMBER = 21, /* a block has another number than its place */
    DEZGULA_FILE_RANGE = 22,  /* a word is out of range or filler is not zero; writing: a row count, component or ending is out of range, or a row is not
                                 whole */

    /* Not refused. */
    DEZGULA_LIST_WRITTEN = 106,     /* the file was written */
    DEZGULA_LIST_READ = 107,        /* the file was read */
    DEZGULA_MAP_READ = 108,         /* the map was read */
    DEZGULA_EQUATION_READ = 130,    /* the equation was read */
    DEZGULA_EQUATION_WRITTEN = 131, /* the equation was written; the place is the number of its bytes */
    DEZGULA_SYSTEM_READ = 132       /* the system was read; the place is the number of its equations */
};

/* A text that may be read has at most so many bytes. */
#define DEZGULA_MOST_TEXT 4096

/* Tables of so many entries hold the coefficients and the right sides of every system. */
#define DEZGULA_MAP_COEFFICIENTS (DEZGULA_MOST_EQUATIONS * DEZGULA_MOST_UNKNOWNS)
#define DEZGULA_MAP_RIGHTS DEZGULA_MOST_EQUATIONS

/* ---- the text form of a map: a line "p q", then p lines of q coefficients, single spaces between them, each line ended by a newline */

/* Answers DEZGULA_MAP_READ, or refuses with 1, 2, 7 (with the place), 9 (with the line) or 10, as the program `basis` does; with coefs NULL, last of all 29.
 * Read: the coefficients stand at the beginning of coefs, which has DEZGULA_MAP_COEFFICIENTS places, what stood past them stays, and *system is the map with
 * them. Else: writes nothing. */
uint64_t dezgula_read_map(const char *text, size_t text_len, int32_t coefs[DEZGULA_MAP_COEFFICIENTS], dezgula_system *system) DEZGULA_LOOK_AT_IT;

/* ---- equations as people write them, "2*(x1 + x3) - x2 = 3"
 *
 * An equation is two sums around "=". A sum is one or more terms joined by + or -, the first with an optional sign. A term is a number, an unknown x1 to xq, a
 * bracketed sum, or a number, "*" and an unknown or bracketed sum. A number has 1 to 5 digits, without leading zeros. Spaces may stand between these parts,
 * none before the first or after the last. Brackets stand at most eight deep. Like unknowns are collected, and constants go to the right. A text is accepted
 * exactly when it can be read so within the limits, and then in one way only; what was written is read again as the same row. */

/* One that is written has at most so many bytes. */
#define DEZGULA_MOST_EQUATION_WRITTEN 256

/* Reads the equation that text writes for q unknowns. Answers DEZGULA_EQUATION_READ, or refuses with 10, 2, 3, 16 (with the byte), 17, 18, 7 (with the unknown)
 * or 15, looked at in this order.
 * Read: writes the coefficients to all q entries of row, and the right side to *right. Else: writes nothing. */
uint64_t dezgula_read_equation(const char *text, size_t text_len, size_t q, int32_t *row, size_t row_len, int32_t *right) DEZGULA_LOOK_AT_IT;

/* Writes the equation with the coefficients row and the right side right, as "-2*x1 + x3 = -3". Answers DEZGULA_EQUATION_WRITTEN with the number of bytes, or
 * refuses with 2, 3, 7 (with the unknown), 15 or, last of all, 29.
 * Written: so many bytes of out, and what stood past them stays. Else: writes nothing. */
uint64_t dezgula_write_equation(size_t q, const int32_t *row, size_t row_len, int32_t right, char *out, size_t out_len) DEZGULA_LOOK_AT_IT;

/* Reads a system for q unknowns, one equation a line, each line ended by a newline. Answers DEZGULA_SYSTEM_READ with the number of equations p, or refuses with
 * 10, 1, 2, then by the first line that is refused, with its number for the place (9, or what dezgula_read_equation refuses it with) or, last of all, 29.
 * Read: writes p * q entries of coefs, row by row, and p entries of rights, and what stood past them stays; *system is the system with these coefficients.
 * Else: writes to *within, unless that is NULL, the place that the refusal of the line comes with, or 0, and nothing besides. */
uint64_t dezgula_read_system(const char *text, size_t text_len, size_t q, int32_t *coefs, size_t coefs_len, int32_t *rights, size_t rights_len,
                             dezgula_system *system, uint64_t *within) DEZGULA_LOOK_AT_IT;

/* ---- a list as a file, for sending it elsewhere
 *
 * A file has blocks of 512 bytes, each of 128 words of 32 bits, lowest byte first. The words of a block add to zero modulo 2^32. Word 0 is the number of the
 * block, from 0. Block 0 has p, q, the row count (at most 4,096) and the ending (0 complete, 1 paused) in words 1 to 4, and zeros after. The later blocks
 * carry 126 words each of one stream: the coefficients in two's complement, row by row, then the rows of the list; filler is zero. Every file that is read
 * is the one that writing makes of what was read, and every file that is written is read, where the tables are long enough, and gives what was written. */

#define DEZGULA_FILE_BLOCK 512
#define DEZGULA_FILE_MOST_ROWS 4096
#define DEZGULA_FILE_COMPLETE 0
#define DEZGULA_FILE_PAUSED 1

/* The length of the file of a list with `rows` rows. */
#define DEZGULA_FILE_LENGTH(p, q, rows) ((((p) * (q) + (rows) * (q) + 125) / 126 + 1) * DEZGULA_FILE_BLOCK)

/* Writes the file of a list into out, whose length is exactly DEZGULA_FILE_LENGTH(p, q, found). Answers DEZGULA_LIST_WRITTEN, or refuses with 1, 2, 3, 7 (with
 * the place), 22 (also where found is above the capacity) or 19, looked at in this order. Written: all of out. Else: writes nothing. */
uint64_t dezgula_write_list(const dezgula_system *system, const dezgula_list *list, uint32_t ending, uint8_t *out, size_t out_len) DEZGULA_LOOK_AT_IT;

/* Reads a file. Answers DEZGULA_LIST_READ, or refuses with 19, 20, 21, 22 or, last of all, 29.
 * Read: writes p * q entries of coefs and found * q entries of rows, and what stood past them stays; *system is the system with these coefficients, *list is
 * the list of these rows, and *ending how it ended. Else: writes nothing. */
uint64_t dezgula_read_list(const uint8_t *file, size_t file_len, int32_t *coefs, size_t coefs_len, uint32_t *rows, size_t rows_len, dezgula_system *system,
                           dezgula_list *list, uint32_t *ending) DEZGULA_LOOK_AT_IT;

#ifdef __cplusplus
}
#endif

#endif
