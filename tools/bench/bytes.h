/* How plain C writes into a buffer and reads from a message: a place and an end, which is checked before each byte. */
#include <stdbool.h>
#include <stdint.h>

typedef struct { uint8_t *at, *end; } Room;

static inline bool put(Room *room, uint8_t byte) {
    if (room->at == room->end) return false;
    *room->at++ = byte;
    return true;
}

typedef struct { const uint8_t *at, *end; } Bytes;

static inline bool take(Bytes *bytes, uint8_t *byte) {
    if (bytes->at == bytes->end) return false;
    *byte = *bytes->at++;
    return true;
}
