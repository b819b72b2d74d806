/* Delzhomo: an assembler for script mods, proved. The functions of the static library, for C and Rust.
 *
 * Every function takes any arguments: a slice is a pointer and a length, and an empty one may have any pointer that is not null. Each
 * answers true with what was made in *first, *second and *third, or false with number, place and extra number of the refusal. A refusal
 * leaves every buffer as it was. A number that is not named below is 0. Document 01 lists the refusals.
 */
#ifndef DELZHOMO_H
#define DELZHOMO_H

#include <stdbool.h>
#include <stddef.h>
#include <stdint.h>

#ifdef __cplusplus
extern "C" {
#endif

/* What a unit takes: how many records and labels, and its total size. A listing of n records has 5 + 22 n bytes. */
bool delzhomo_measure(const uint8_t *unit, size_t unit_length, size_t *first, size_t *second, size_t *third);

/* The labelled listing of a unit into out and its label table into marks: how many records and labels, and its total size. The last
 * four bytes of a record are the unit offset of the node that emitted it. */
bool delzhomo_lower(const uint8_t *unit, size_t unit_length, uint8_t *out, size_t out_length, uint32_t *marks, size_t marks_length,
                    size_t *first, size_t *second, size_t *third);

/* The listing with distances in place of its labels, into out: how many records. */
bool delzhomo_resolve(const uint8_t *listing, size_t listing_length, const uint32_t *marks, size_t marks_length, uint8_t *out,
                      size_t out_length, size_t *first, size_t *second, size_t *third);

/* Whether a slice is a listing: how many records. */
bool delzhomo_check(const uint8_t *listing, size_t listing_length, size_t *first, size_t *second, size_t *third);

/* Where a record of a listing begins, and its length. */
bool delzhomo_view(const uint8_t *listing, size_t listing_length, size_t number, size_t *first, size_t *second, size_t *third);

/* The unit without its pool indices, lines and constants, into out: how many bytes, which are as many as the unit has. Lowered and
 * resolved, the stripped unit is refused as the unit is, or has as many records with the same starts, sizes, labels, distances and nodes.
 * A unit that cannot be read is not refused here: from where reading stops all bytes stay. */
bool delzhomo_strip(const uint8_t *unit, size_t unit_length, uint8_t *out, size_t out_length, size_t *first, size_t *second,
                    size_t *third);

/* What the game's loader stores of a listing with distances, into out: how many records. Jump, JumpIfFalse, Skip, Context, InvokeStatic
 * and InvokeVirtual have first less 3, Conditional and SwitchLabel first less 3 and second less 5, Switch first less 11; all else is
 * copied. A field that leaves 16 bits by this is refused with 33: the record's number, and 0 for first or 1 for second. What
 * delzhomo_resolve makes of a lowered unit is never refused with 33. */
bool delzhomo_store(const uint8_t *listing, size_t listing_length, uint8_t *out, size_t out_length, size_t *first, size_t *second,
                    size_t *third);

/* The way back: the listing with distances of a stored one, into out: how many records. It is refused as storing is; each undoes the
 * other on all that it takes. */
bool delzhomo_restore(const uint8_t *listing, size_t listing_length, uint8_t *out, size_t out_length, size_t *first, size_t *second,
                      size_t *third);

#ifdef __cplusplus
}
#endif

#endif
