/* The proved functions, as crates/dezgula exports them: the calls of include/ stand on these. A pointer is never NULL, not even with length 0, and is aligned
 * for what it points to. A run record is its words, in the order of its fields; a record of another length than DEZGULA_RECORD_LENGTH is refused with 6, also
 * by a start, before 7 and after all other refusals below it. Not installed. */
#ifndef DEZGULA_RAW_H
#define DEZGULA_RAW_H

#include "dezgula.h"
#include "dezgula_engine.h"

#ifdef __cplusplus
extern "C" {
#endif

enum {
    DEZGULA_RECORD_LENGTH = 7,
    DEZGULA_SHARE_LENGTH = 8,
    DEZGULA_TURN_LENGTH = DEZGULA_RECORD_LENGTH + 2,
    DEZGULA_ROUND_LENGTH = 2 + DEZGULA_MOST_RUNS * DEZGULA_TURN_LENGTH
};

/* ---- runs */

uint64_t dezgula_raw_start(size_t p, size_t q, const int32_t *coefs, size_t coefs_len, uint32_t *stack, size_t stack_len, uint32_t *list, size_t list_len,
                           uint64_t *record, size_t record_len) DEZGULA_LOOK_AT_IT;

uint64_t dezgula_raw_resume(size_t p, size_t q, const int32_t *coefs, size_t coefs_len, uint32_t *stack, size_t stack_len, uint32_t *list, size_t list_len,
                            uint64_t *record, size_t record_len, uint64_t budget) DEZGULA_LOOK_AT_IT;

uint64_t dezgula_raw_start_single_file(size_t p, size_t q, const int32_t *coefs, size_t coefs_len, uint32_t *stack, size_t stack_len, uint32_t *list,
                                       size_t list_len, uint64_t *record, size_t record_len) DEZGULA_LOOK_AT_IT;

uint64_t dezgula_raw_resume_single_file(size_t p, size_t q, const int32_t *coefs, size_t coefs_len, uint32_t *stack, size_t stack_len, uint32_t *list,
                                        size_t list_len, uint64_t *record, size_t record_len, uint64_t budget) DEZGULA_LOOK_AT_IT;

uint64_t dezgula_raw_start_rights(size_t p, size_t q, const int32_t *coefs, size_t coefs_len, const int32_t *rights, size_t rights_len, uint32_t *stack,
                                  size_t stack_len, uint32_t *list, size_t list_len, uint32_t *second, size_t second_len, uint64_t *record,
                                  size_t record_len) DEZGULA_LOOK_AT_IT;

uint64_t dezgula_raw_resume_rights(size_t p, size_t q, const int32_t *coefs, size_t coefs_len, const int32_t *rights, size_t rights_len, uint32_t *stack,
                                   size_t stack_len, uint32_t *list, size_t list_len, uint32_t *second, size_t second_len, uint64_t *record,
                                   size_t record_len, uint64_t budget) DEZGULA_LOOK_AT_IT;

uint64_t dezgula_raw_start_from(size_t p, size_t q, const int32_t *coefs, size_t coefs_len, const uint32_t *lower, size_t lower_len, uint32_t *stack,
                                size_t stack_len, uint32_t *list, size_t list_len, uint32_t *second, size_t second_len, uint64_t *record,
                                size_t record_len) DEZGULA_LOOK_AT_IT;

uint64_t dezgula_raw_resume_from(size_t p, size_t q, const int32_t *coefs, size_t coefs_len, const uint32_t *lower, size_t lower_len, uint32_t *stack,
                                 size_t stack_len, uint32_t *list, size_t list_len, uint32_t *second, size_t second_len, uint64_t *record, size_t record_len,
                                 uint64_t budget) DEZGULA_LOOK_AT_IT;

uint64_t dezgula_raw_start_training(size_t p, size_t q, const int32_t *coefs, size_t coefs_len, uint32_t *stack, size_t stack_len, uint32_t *list,
                                    size_t list_len, uint64_t *record, size_t record_len) DEZGULA_LOOK_AT_IT;

uint64_t dezgula_raw_resume_training(size_t p, size_t q, const int32_t *coefs, size_t coefs_len, uint32_t *stack, size_t stack_len, uint32_t *list,
                                     size_t list_len, uint64_t *record, size_t record_len, uint64_t budget) DEZGULA_LOOK_AT_IT;

uint64_t dezgula_raw_start_training_from(size_t p, size_t q, const int32_t *coefs, size_t coefs_len, const uint32_t *lower, size_t lower_len, uint32_t *stack,
                                         size_t stack_len, uint32_t *list, size_t list_len, uint32_t *second, size_t second_len, uint64_t *record,
                                         size_t record_len) DEZGULA_LOOK_AT_IT;

uint64_t dezgula_raw_resume_training_from(size_t p, size_t q, const int32_t *coefs, size_t coefs_len, const uint32_t *lower, size_t lower_len, uint32_t *stack,
                                          size_t stack_len, uint32_t *list, size_t list_len, uint32_t *second, size_t second_len, uint64_t *record,
                                          size_t record_len, uint64_t budget) DEZGULA_LOOK_AT_IT;

uint64_t dezgula_raw_start_desk(size_t p, size_t q, const int32_t *coefs, size_t coefs_len, const uint32_t *generators, size_t generators_len, uint32_t *stack,
                                size_t stack_len, uint32_t *list, size_t list_len, uint64_t *record, size_t record_len) DEZGULA_LOOK_AT_IT;

uint64_t dezgula_raw_resume_desk(size_t p, size_t q, const int32_t *coefs, size_t coefs_len, const uint32_t *generators, size_t generators_len,
                                 uint32_t *stack, size_t stack_len, uint32_t *list, size_t list_len, uint64_t *record, size_t record_len,
                                 uint64_t budget) DEZGULA_LOOK_AT_IT;

/* The words of a share are p, q, and start and size of the parts, in the order of its fields; words past the end are 0. Those of the dispatcher's record are
 * the number of the run served last, the steps, and for each of eight runs the words of its record, the number of its answer and the place of it. Another
 * number of words than DEZGULA_ROUND_LENGTH is refused with 27. */
uint64_t dezgula_raw_dispatch(size_t count, uint64_t quantum, uint64_t turns, const uint64_t *shares, size_t shares_len, const int32_t *coefs,
                              size_t coefs_len, uint32_t *stack, size_t stack_len, uint32_t *list, size_t list_len, uint64_t *round,
                              size_t round_len) DEZGULA_LOOK_AT_IT;

/* ---- lists */

uint64_t dezgula_raw_row(const uint32_t *list, size_t list_len, size_t q, size_t found, size_t n, uint32_t *out, size_t out_len) DEZGULA_LOOK_AT_IT;

/* `found` counts the rows of the list that is asked: 0 is the list, 1 the second one; another number than these is that of no list, and there is no row. */
uint64_t dezgula_raw_row_of_either(const uint32_t *list, size_t list_len, const uint32_t *second, size_t second_len, size_t at, size_t q, size_t found,
                                   size_t n, uint32_t *out, size_t out_len) DEZGULA_LOOK_AT_IT;

uint64_t dezgula_raw_locate(const uint32_t *list, size_t list_len, size_t q, size_t found, const uint32_t *tuple, size_t tuple_len) DEZGULA_LOOK_AT_IT;

uint64_t dezgula_raw_reason(size_t p, size_t q, const int32_t *coefs, size_t coefs_len, const uint32_t *list, size_t list_len, size_t found,
                            const uint32_t *tuple, size_t tuple_len, int64_t amount[1]) DEZGULA_LOOK_AT_IT;

uint64_t dezgula_raw_decompose(size_t p, size_t q, const int32_t *coefs, size_t coefs_len, const uint32_t *list, size_t list_len, size_t found,
                               const uint32_t *tuple, size_t tuple_len, uint32_t *times, size_t times_len, int64_t amount[1]) DEZGULA_LOOK_AT_IT;

uint64_t dezgula_raw_listing(size_t p, size_t q, const int32_t *coefs, size_t coefs_len, const uint32_t *list, size_t list_len, size_t found, uint8_t *out,
                             size_t out_len) DEZGULA_LOOK_AT_IT;

/* ---- texts and files */

/* words: p and q of the map that was read. */
uint64_t dezgula_raw_read_map(const uint8_t *text, size_t text_len, int32_t coefs[128], uint64_t words[2]) DEZGULA_LOOK_AT_IT;

uint64_t dezgula_raw_read_equation(const uint8_t *text, size_t text_len, size_t q, int32_t *row, size_t row_len, int32_t right[1]) DEZGULA_LOOK_AT_IT;

uint64_t dezgula_raw_write_equation(size_t q, const int32_t *row, size_t row_len, int32_t right, uint8_t *out, size_t out_len) DEZGULA_LOOK_AT_IT;

/* within: the place that the refusal of a line comes with. */
uint64_t dezgula_raw_read_system(const uint8_t *text, size_t text_len, size_t q, int32_t *coefs, size_t coefs_len, int32_t *rights, size_t rights_len,
                                 uint64_t within[1]) DEZGULA_LOOK_AT_IT;

uint64_t dezgula_raw_write_list(size_t p, size_t q, const int32_t *coefs, size_t coefs_len, const uint32_t *rows, size_t rows_len, uint32_t ending,
                                uint8_t *out, size_t out_len) DEZGULA_LOOK_AT_IT;

/* words: p, q, the row count and the ending of the file that was read. */
uint64_t dezgula_raw_read_list(const uint8_t *file, size_t file_len, int32_t *coefs, size_t coefs_len, uint32_t *list, size_t list_len,
                               uint64_t words[4]) DEZGULA_LOOK_AT_IT;

/* ---- the engine. The record is DEZGULA_ENGINE_RECORD_LENGTH words; another number of words, or a first word of 2^32 or more, is refused with 6,
 * by a start after 4 and before 7. */

uint64_t dezgula_raw_engine_start(size_t p, size_t q, const int32_t *coefs, size_t coefs_len, int32_t *equations, size_t equations_len, uint32_t *basis,
                                  size_t basis_len, uint32_t *sizes, size_t sizes_len, uint64_t *record, size_t record_len) DEZGULA_LOOK_AT_IT;

uint64_t dezgula_raw_engine_start_sides(size_t p, size_t q, const int32_t *coefs, size_t coefs_len, const int32_t *rights, size_t rights_len,
                                        const uint32_t *lower, size_t lower_len, int32_t *equations, size_t equations_len, uint32_t *basis, size_t basis_len,
                                        uint32_t *sizes, size_t sizes_len, uint64_t *record, size_t record_len) DEZGULA_LOOK_AT_IT;

uint64_t dezgula_raw_engine_start_from(size_t p, size_t q, const int32_t *coefs, size_t coefs_len, size_t n, const uint32_t *rows, size_t rows_len,
                                       int32_t *equations, size_t equations_len, uint32_t *basis, size_t basis_len, uint32_t *sizes, size_t sizes_len,
                                       uint64_t *record, size_t record_len) DEZGULA_LOOK_AT_IT;

uint64_t dezgula_raw_engine_combine(size_t p, size_t q, int32_t *equations, size_t equations_len, uint32_t *basis, size_t basis_len, uint32_t *sizes,
                                    size_t sizes_len, uint32_t *table, size_t table_len, int64_t *values, size_t values_len, uint64_t *words, size_t words_len,
                                    uint32_t *degrees, size_t degrees_len, uint64_t *marks, size_t marks_len, uint32_t *mothers, size_t mothers_len,
                                    uint64_t *record, size_t record_len, size_t r, int32_t u, size_t s, int32_t t) DEZGULA_LOOK_AT_IT;

uint64_t dezgula_raw_engine_take(size_t p, size_t q, int32_t *equations, size_t equations_len, uint32_t *basis, size_t basis_len, uint32_t *sizes,
                                 size_t sizes_len, uint32_t *table, size_t table_len, int64_t *values, size_t values_len, uint64_t *words, size_t words_len,
                                 uint32_t *degrees, size_t degrees_len, uint64_t *marks, size_t marks_len, uint32_t *mothers, size_t mothers_len,
                                 uint64_t *record, size_t record_len, size_t e, size_t f) DEZGULA_LOOK_AT_IT;

uint64_t dezgula_raw_engine_resume(size_t p, size_t q, int32_t *equations, size_t equations_len, uint32_t *basis, size_t basis_len, uint32_t *sizes,
                                   size_t sizes_len, uint32_t *table, size_t table_len, int64_t *values, size_t values_len, uint64_t *words, size_t words_len,
                                   uint32_t *degrees, size_t degrees_len, uint64_t *marks, size_t marks_len, uint32_t *mothers, size_t mothers_len,
                                   uint64_t *record, size_t record_len, uint64_t budget) DEZGULA_LOOK_AT_IT;

uint64_t dezgula_raw_engine_locate(const uint32_t *list, size_t list_len, size_t q, size_t found, const uint32_t *tuple, size_t tuple_len) DEZGULA_LOOK_AT_IT;

uint64_t dezgula_raw_engine_reason(size_t p, size_t q, const int32_t *coefs, size_t coefs_len, const uint32_t *list, size_t list_len, size_t found,
                                   const uint32_t *tuple, size_t tuple_len, int64_t amount[1]) DEZGULA_LOOK_AT_IT;

uint64_t dezgula_raw_engine_decompose(size_t p, size_t q, const int32_t *coefs, size_t coefs_len, const uint32_t *list, size_t list_len, size_t found,
                                      const uint32_t *tuple, size_t tuple_len, uint32_t *times, size_t times_len, int64_t amount[1]) DEZGULA_LOOK_AT_IT;

uint64_t dezgula_raw_engine_reformulates(size_t p, size_t q, size_t k, size_t m, const int32_t *coefs, size_t coefs_len, const int32_t *extended,
                                         size_t extended_len, const int32_t *other, size_t other_len, const int64_t *onto, size_t onto_len,
                                         const int64_t *back, size_t back_len, const int64_t *above, size_t above_len) DEZGULA_LOOK_AT_IT;

uint64_t dezgula_raw_engine_project(size_t q, size_t k, size_t found, const uint32_t *rows, size_t rows_len, uint32_t *out,
                                    size_t out_len) DEZGULA_LOOK_AT_IT;

#ifdef __cplusplus
}
#endif

#endif
