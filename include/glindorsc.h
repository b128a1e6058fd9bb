/*
 * Glindorsc's calls: cutting an Itanium bundle, reading an immediate, finding a target.
 *
 * Each call hands back an answer: 0, or the number of the refusal that applies first.
 *
 *      1  the bundle's sixteen bytes do not lie in the code
 *      2  reserved tag
 *      3  no such form, or no row for this call
 *      5  slot above 2, or the form doesn't fit it
 *      6  the address is no multiple of 16
 *     10  the code is longer than 65,536 bytes
 *
 * (The library's other calls, which have no C function yet, answer with 4, 7 to 9 and 11 to 15, too: docs/CONTRACTS.md.)
 *
 * Bundle n of a code is bytes 16n to 16n + 16. A form is the family letter's byte and its number: 'M', 48. Every number may
 * be any number of 64 bits. No pointer may be null, not even one to nothing. Nothing is kept between calls, so they may run at
 * the same time.
 *
 * Link crates/glindorsc/out/libglindorsc.a, which `rt lib` in crates/glindorsc writes; it needs no other library.
 */
#ifndef GLINDORSC_H
#define GLINDORSC_H

#include <stddef.h>
#include <stdint.h>

#ifdef __cplusplus
extern "C" {
#endif

/* How many numbers a cut bundle has. */
#define GLINDORSC_CUT 10

/*
 * Cuts a bundle (10, 1, 2): out[0] is the tag, out[1..3] are the units' letters, out[4..6] the slots; out[7..9] are 1 where a stop
 * follows slot 0, 1, 2, and else 0. Where refused by 10 or 1 the ten numbers are 0, and by 2 all but the tag.
 */
uint8_t glindorsc_cut(const uint8_t *code, size_t length, uint64_t bundle, uint64_t out[GLINDORSC_CUT]);

/*
 * Reads the immediate of a form in a slot (10, 1, 2, 3, 5) as its 64-bit pattern, two's complement where the form's numbers have
 * a sign. *value is 0 where refused.
 */
uint8_t glindorsc_immediate(const uint8_t *code, size_t length, uint64_t bundle, uint64_t slot, uint64_t family,
                            uint64_t number, uint64_t *value);

/*
 * The target of a form in a slot of the bundle that stands at an address (10, 1, 2, 3, 5, 6): the address plus the displacement,
 * which wraps at 2^64. *target is 0 where refused.
 */
uint8_t glindorsc_target(const uint8_t *code, size_t length, uint64_t bundle, uint64_t slot, uint64_t family,
                         uint64_t number, uint64_t address, uint64_t *target);

#ifdef __cplusplus
}
#endif

#endif
