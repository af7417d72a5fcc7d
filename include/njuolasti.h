/*
 * Njuolasti's C interface, for x86-64 Linux (System V ABI). `./staticlib` writes the archive: target/staticlib/libnjuolasti.a.
 *
 * A schema file is lent as an image (words and a pool of bytes) and linked onto a shelf. The shelf is the caller's own memory: words, bytes,
 * and three numbers that say how many words, bytes and files of it are used. An empty shelf has the numbers 0, 0 and 0, and its words and
 * bytes may hold anything. docs/RULES.md has the layout of images and shelves, and the rules behind each answer.
 *
 * A slice is a pointer and a length, counted in elements. Its pointer is aligned for them and is not null, even where the length is 0. A
 * pointer to one number is not null either. What is written, slice or number, must not overlap any other argument; what is only read may
 * overlap.
 *
 * Whatever words, bytes and numbers are lent, each function ends and answers as its text says. Nothing is kept between calls: no pointer,
 * no memory, no state of a thread. So lookups on one shelf, and links on different ones, may run at the same time. A call takes about
 * 300 KB of stack: call on an ordinary thread.
 *
 * File numbers and flat numbers count from 0. Texts are bytes with a length, and have no 0 at their end.
 */
#ifndef NJUOLASTI_H
#define NJUOLASTI_H

#include <stddef.h>
#include <stdint.h>

#ifdef __cplusplus
extern "C" {
#endif

/* The longest slices that are taken, in elements. */
#define NJUOLASTI_IMAGE_WORDS 65536
#define NJUOLASTI_POOL_BYTES 32768
#define NJUOLASTI_SHELF_WORDS 262144
#define NJUOLASTI_SHELF_BYTES 131072

/* The longest full name, without its leading dot, in bytes. */
#define NJUOLASTI_FULL_NAME_BYTES 512

/* A lookup's answer where there is nothing to find. */
#define NJUOLASTI_NOTHING UINT32_C(4294967295)

/*
 * Links the file of the image onto the shelf.
 *
 * Answers 0 if the file is accepted. Then its record stands behind the used words and its pool behind the used bytes, the three numbers are
 * the new ones, and *place is 0. The new file's number is *files - 1.
 *
 * Otherwise it answers the number of the first refusal that is drawn, and *place is the place that this list names, or 0 where it names none.
 * Words, bytes and the three numbers are then as they were.
 *
 *    1  a slice is longer than its limit
 *    2  the shelf is not well formed
 *    3  the image breaks a rule of the layout
 *    4  a count, depth or text passes its limit, or 32 files are shelved
 *    5  a text breaks its byte rule
 *    6  the file name is on the shelf
 *    7  an import is not on the shelf; place: the first such row
 *    8  two messages or enums of the file share a full name
 *    9  a map entry's name does not end in `Entry`; place: flat message
 *   10  a map entry has extensions, extension ranges, nested messages or enums; place: flat message
 *   11  a map entry's fields are not key = 1 and value = 2, in that order and optional; place: flat message
 *   12  a default is unreadable, or is one of a message or group; place: flat field
 *   13  a default of a double, float or bytes field; place: flat field
 *   14  an extension at file level has no extendee; place: flat field
 *   15  a message or an extendee is not found; place: flat field
 *   16  an enum is not found; place: flat field
 *   17  a field's number, name or JSON name clashes with an earlier field's; place: the later flat field
 *   18  the record does not fit in the shelf's unused words and bytes
 *
 * 9 to 17 are tried message by message and field by field: docs/RULES.md has their exact order.
 */
uint32_t njuolasti_link(const uint32_t *image, size_t image_len,
                        const uint8_t *pool, size_t pool_len,
                        uint32_t *words, size_t words_len,
                        uint8_t *bytes, size_t bytes_len,
                        uint32_t *used_words, uint32_t *used_bytes,
                        uint32_t *files, uint32_t *place);

/* Answers 0 if the shelf is well formed, 1 if one of its slices is longer than its limit, and 2 otherwise. */
uint32_t njuolasti_well_formed(const uint32_t *words, size_t words_len,
                               const uint8_t *bytes, size_t bytes_len,
                               uint32_t used_words, uint32_t used_bytes, uint32_t files);

/*
 * The lookups look into the shelved file of the number `file`. Each answers
 *
 *   0                   found: *found is what the function says
 *   1                   refused: a slice of the shelf is longer than its limit
 *   2                   refused: the shelf is not well formed
 *   NJUOLASTI_NOTHING   there is no such thing, or no file, message or enum of that number
 *
 * and *found is 0 where the answer is not 0. The shelf is not changed.
 */

/* The flat number of the message whose full name is given behind a dot, as in ".ferry.bookings.Booking". */
uint32_t njuolasti_message(const uint32_t *words, size_t words_len,
                           const uint8_t *bytes, size_t bytes_len,
                           uint32_t used_words, uint32_t used_bytes, uint32_t files,
                           uint32_t file, const uint8_t *name, size_t name_len,
                           uint32_t *found);

/* The flat number of the enum whose full name is given behind a dot. */
uint32_t njuolasti_enum(const uint32_t *words, size_t words_len,
                        const uint8_t *bytes, size_t bytes_len,
                        uint32_t used_words, uint32_t used_bytes, uint32_t files,
                        uint32_t file, const uint8_t *name, size_t name_len,
                        uint32_t *found);

/*
 * The place, in the enum of the flat number `index`, of the value with that number; of several the last one's.
 * A negative number is lent as its 32-bit two's complement.
 */
uint32_t njuolasti_value_by_number(const uint32_t *words, size_t words_len,
                                   const uint8_t *bytes, size_t bytes_len,
                                   uint32_t used_words, uint32_t used_bytes, uint32_t files,
                                   uint32_t file, uint32_t index, uint32_t number,
                                   uint32_t *found);

/* The place, in the enum of the flat number `index`, of the value with that name; of several the last one's. */
uint32_t njuolasti_value_by_name(const uint32_t *words, size_t words_len,
                                 const uint8_t *bytes, size_t bytes_len,
                                 uint32_t used_words, uint32_t used_bytes, uint32_t files,
                                 uint32_t file, uint32_t index,
                                 const uint8_t *name, size_t name_len,
                                 uint32_t *found);

/* The flat number of the field with that number, among the regular fields of the message of the flat number `message`. */
uint32_t njuolasti_field_by_number(const uint32_t *words, size_t words_len,
                                   const uint8_t *bytes, size_t bytes_len,
                                   uint32_t used_words, uint32_t used_bytes, uint32_t files,
                                   uint32_t file, uint32_t message, uint32_t number,
                                   uint32_t *found);

/*
 * The flat number of the field with that name, among the regular fields of the message of the flat number `message`. With mode 0, the
 * usual one, and with mode 1 the name is the field's own; with mode 2 it is its own or its JSON name; another mode finds nothing.
 */
uint32_t njuolasti_field_by_name(const uint32_t *words, size_t words_len,
                                 const uint8_t *bytes, size_t bytes_len,
                                 uint32_t used_words, uint32_t used_bytes, uint32_t files,
                                 uint32_t file, uint32_t message, uint32_t mode,
                                 const uint8_t *name, size_t name_len,
                                 uint32_t *found);

/*
 * Writes the full name of the message of the flat number `message`, without a leading dot, to the front of `out`; *found is its length.
 * The bytes behind it stay. Where `out` is too short the answer is NJUOLASTI_NOTHING. Where the answer is not 0 all bytes of `out` stay.
 */
uint32_t njuolasti_message_name(const uint32_t *words, size_t words_len,
                                const uint8_t *bytes, size_t bytes_len,
                                uint32_t used_words, uint32_t used_bytes, uint32_t files,
                                uint32_t file, uint32_t message,
                                uint8_t *out, size_t out_len,
                                uint32_t *found);

/* The same for the enum of the flat number `index`. */
uint32_t njuolasti_enum_name(const uint32_t *words, size_t words_len,
                             const uint8_t *bytes, size_t bytes_len,
                             uint32_t used_words, uint32_t used_bytes, uint32_t files,
                             uint32_t file, uint32_t index,
                             uint8_t *out, size_t out_len,
                             uint32_t *found);

#ifdef __cplusplus
}
#endif

#endif
