/* The calls of the engine in C, written for speed by the same definition as the library's: the same answers, the same turns in the same order, the same rows.
 * They have the parameters of the functions dezgula_raw_engine_... of dezgula_engine.h, so that one program can hold both. */
#ifndef DEZGULA_BENCH_ENGINE_H
#define DEZGULA_BENCH_ENGINE_H

#include <stddef.h>
#include <stdint.h>

uint64_t twin_engine_start(size_t p, size_t q, const int32_t *coefs, size_t coefs_len, int32_t *equations, size_t equations_len, uint32_t *basis,
                           size_t basis_len, uint32_t *sizes, size_t sizes_len, uint64_t *record, size_t record_len);

uint64_t twin_engine_start_sides(size_t p, size_t q, const int32_t *coefs, size_t coefs_len, const int32_t *rights, size_t rights_len, const uint32_t *lower,
                                 size_t lower_len, int32_t *equations, size_t equations_len, uint32_t *basis, size_t basis_len, uint32_t *sizes,
                                 size_t sizes_len, uint64_t *record, size_t record_len);

uint64_t twin_engine_start_from(size_t p, size_t q, const int32_t *coefs, size_t coefs_len, size_t n, const uint32_t *rows, size_t rows_len,
                                int32_t *equations, size_t equations_len, uint32_t *basis, size_t basis_len, uint32_t *sizes, size_t sizes_len,
                                uint64_t *record, size_t record_len);

uint64_t twin_engine_combine(size_t p, size_t q, int32_t *equations, size_t equations_len, uint32_t *basis, size_t basis_len, uint32_t *sizes,
                             size_t sizes_len, uint32_t *table, size_t table_len, int64_t *values, size_t values_len, uint64_t *words, size_t words_len,
                             uint32_t *degrees, size_t degrees_len, uint64_t *marks, size_t marks_len, uint32_t *mothers, size_t mothers_len,
                             uint64_t *record, size_t record_len, size_t r, int32_t u, size_t s, int32_t t);

uint64_t twin_engine_take(size_t p, size_t q, int32_t *equations, size_t equations_len, uint32_t *basis, size_t basis_len, uint32_t *sizes,
                          size_t sizes_len, uint32_t *table, size_t table_len, int64_t *values, size_t values_len, uint64_t *words, size_t words_len,
                          uint32_t *degrees, size_t degrees_len, uint64_t *marks, size_t marks_len, uint32_t *mothers, size_t mothers_len,
                          uint64_t *record, size_t record_len, size_t e, size_t f);

uint64_t twin_engine_resume(size_t p, size_t q, int32_t *equations, size_t equations_len, uint32_t *basis, size_t basis_len, uint32_t *sizes,
                            size_t sizes_len, uint32_t *table, size_t table_len, int64_t *values, size_t values_len, uint64_t *words, size_t words_len,
                            uint32_t *degrees, size_t degrees_len, uint64_t *marks, size_t marks_len, uint32_t *mothers, size_t mothers_len,
                            uint64_t *record, size_t record_len, uint64_t budget);

#endif
