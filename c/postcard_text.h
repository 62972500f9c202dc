/* Postcard messages of a type that is known only at run time, as texts and back, for host tools.
 *
 * A type is an expression such as "{id: u32, label: str, samples: [i16]}", and a value a text such as "{id: 42, label:
 * \"x\", samples: [1]}"; docs/PCARD.md has both grammars. These functions allocate by malloc, realloc and free, and are not
 * called from a signal handler.
 *
 * *place says where: after success and POSTCARD_BUFFER_FULL it is the number of bytes of the message (0 from
 * postcard_from_text); after POSTCARD_BAD_TYPE and POSTCARD_BAD_TEXT the number of the character, counted from 1, or 0 if
 * it is not UTF-8; after another error of reading the offset in bytes of the part that can't be read. */
#ifndef POSTCARD_TEXT_H
#define POSTCARD_TEXT_H
#include "postcard.h"
#ifdef __cplusplus
extern "C" {
#endif

/* Prints the value of the type that the bytes begin with into `text` (no NUL is added), and sets *count to the size of the
 * text. If the text has no room, the status is POSTCARD_BUFFER_FULL and *count the size that it needs. */
postcard_status postcard_to_text(const char *type, size_t type_size, const void *bytes, size_t size, char *text, size_t text_size,
                                 size_t *place, size_t *count);

/* Encodes the value of the type that the text spells into `bytes`, and sets *count to the size of the message. If the
 * message has no room, the status is POSTCARD_BUFFER_FULL and *count the size that it needs. */
postcard_status postcard_from_text(const char *type, size_t type_size, const char *text, size_t text_size, void *bytes, size_t size,
                                   size_t *place, size_t *count);

/* Returns 0 if the bytes begin with a message of the type. */
postcard_status postcard_check(const char *type, size_t type_size, const void *bytes, size_t size, size_t *place);

#ifdef __cplusplus
}
#endif
#endif
