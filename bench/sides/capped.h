/* The walk with right sides in C under the two names that the bench links it by: compiled with -O3 and with -O3 -march=native. */
#ifndef CAPPED_H
#define CAPPED_H

#include <stddef.h>
#include <stdint.h>

typedef uint64_t capped_start_call(size_t p, size_t q, const int32_t *coefs, size_t coefs_len, const int32_t *rights, size_t rights_len, uint32_t *stack,
                                   size_t stack_len, uint32_t *list, size_t list_len, uint32_t *second, size_t second_len, uint64_t *record,
                                   size_t record_len);
typedef uint64_t capped_resume_call(size_t p, size_t q, const int32_t *coefs, size_t coefs_len, const int32_t *rights, size_t rights_len, uint32_t *stack,
                                    size_t stack_len, uint32_t *list, size_t list_len, uint32_t *second, size_t second_len, uint64_t *record,
                                    size_t record_len, uint64_t budget);

capped_start_call capped_start, capped_native_start;
capped_resume_call capped_resume, capped_native_resume;

#endif
