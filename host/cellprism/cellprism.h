/* The check of one row of the RV64I circuit: the C boundary of libcellprism.a. */
#ifndef CELLPRISM_H
#define CELLPRISM_H

#include <stddef.h>
#include <stdint.h>

#ifdef __cplusplus
extern "C" {
#endif

/*
 * Checks a row against the constraints of the circuit.
 *
 * `bytes` points to `len` bytes that can be read. A row has 65,536 of them: 4,096 elements of 16
 * bytes, the lowest byte first. They are only read, and nothing is kept or allocated: the function
 * may be called from several threads at once. It needs less than 256 KB of stack.
 *
 * The top two bits of the answer are its kind:
 *
 *   0  accepted; the other bits are the number of rows tested, those of bin and those of fld together
 *   1  failed; bit 29 is the relation, 0 bin and 1 fld, and bits 8 to 0 the row: the first that does
 *      not hold, all of bin before fld
 *   2  refused; the other bits are the number of the question answered with no, which is 2 for a
 *      `len` other than 65,536
 *
 * 65,536 zero bytes give 0x00000202: 514 rows, 483 of bin and 31 of fld. 65,535 bytes give
 * 0x80000002.
 */
uint32_t cellprism_check_row(const uint8_t *bytes, size_t len);

#ifdef __cplusplus
}
#endif

#endif
