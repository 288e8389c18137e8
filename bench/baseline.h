/* The baseline in C under the three names that the bench links it by: compiled with -O3, with -O3 -march=native, and with -O3 and the oldest listed rows first. */
#ifndef BASELINE_H
#define BASELINE_H

#include <stddef.h>
#include <stdint.h>

typedef uint64_t start_call(size_t p, size_t q, const int32_t *coefs, size_t coefs_len, uint32_t *stack, size_t stack_len, uint32_t *list,
                            size_t list_len, uint64_t *record, size_t record_len);
typedef uint64_t resume_call(size_t p, size_t q, const int32_t *coefs, size_t coefs_len, uint32_t *stack, size_t stack_len, uint32_t *list,
                             size_t list_len, uint64_t *record, size_t record_len, uint64_t budget);

start_call baseline_start, native_start, oldest_start;
resume_call baseline_resume, native_resume, oldest_resume;

#endif
