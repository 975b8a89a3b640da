/*
 * Flash addresses of a shared drive, for the drive's C host.
 *
 * Link target/staticlib/libgeometry.a, which `tools/staticlib geometry geometry_c`
 * builds from proved code. Both functions take any numbers and answer 0 for
 * success, or the number of the first question that is answered no:
 *
 *   1  the configuration is within its limits
 *   4  the domain ID is 1 to 16
 *   6  the block number, the offset and the elements are in range
 *   7  out has room for all that success fills
 *
 * Success fills the first bytes of out and leaves the rest; a refusal leaves all
 * of it. out points to out_len bytes that nothing else uses meanwhile; it is not
 * NULL, even where out_len is 0. Neither function keeps anything between calls.
 */
#ifndef SBM_H
#define SBM_H

#include <stddef.h>
#include <stdint.h>

#ifdef __cplusplus
extern "C" {
#endif

/* What the two functions fill on success. */
enum { SBM_ADDRESS_BYTES = 8, SBM_PARTS_BYTES = 56 };

/*
 * The configuration comes first in both: pages per block (128 to 8,192), dies
 * (1 to 64), planes per die (1 to 64), ADUs per plane (1 to 256), super blocks
 * (1 to 256), rated erase count and open period (1 to 65,535 each); a block has
 * at most 1,048,576 ADUs.
 */

/* Makes the flash address of an ADU: a word of 8 bytes, little-endian. */
uint64_t sbm_create_flash_address(uint64_t pages, uint64_t dies, uint64_t planes,
                                  uint64_t adus, uint64_t blocks, uint64_t rated,
                                  uint64_t period, uint64_t domain, uint64_t block,
                                  uint64_t page, uint64_t die, uint64_t plane,
                                  uint64_t adu, uint8_t *out, size_t out_len);

/*
 * Takes a flash address apart: seven numbers of 8 bytes, little-endian, in this
 * order: domain, block, ADU offset, page, die, plane, ADU number.
 */
uint64_t sbm_parse_flash_address(uint64_t pages, uint64_t dies, uint64_t planes,
                                 uint64_t adus, uint64_t blocks, uint64_t rated,
                                 uint64_t period, uint64_t word, uint8_t *out,
                                 size_t out_len);

#ifdef __cplusplus
}
#endif

#endif
