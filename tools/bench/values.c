/* The plain loops of values.h: lists of texts, options, records, structs, enums and numbers, and a map.
 *
 * A text is lent: a place in the message and a length, and its bytes are checked to be UTF-8. A list is an array that grows, and that
 * is first asked for when an element was read. A map is such an array in the order of its keys. */
#include "values.h"
#include "bytes.h"
#include <stdlib.h>
#include <string.h>

/* What is done for each element is put into the loop over the list. */
#define EACH static inline __attribute__((always_inline))

typedef struct { const uint8_t *at; size_t size; } Text;
typedef struct { uint32_t key, value; } Pair;
typedef struct { bool some; uint32_t number; } Option;
typedef struct { uint32_t a; uint16_t b; bool some; uint8_t c; Text d; } Record;
typedef struct { uint8_t a; struct { uint16_t b; struct { uint32_t c; bool d; } last; } rest; } Nested;
typedef struct { bool is_text; union { uint8_t byte; Text text; } content; } Choice;

/* Reads a number of at most `bits` bits: the lowest seven bits first, in as many bytes as the width allows, of which each but the
 * last has its high bit set. */
EACH bool take_number(Bytes *bytes, int bits, uint64_t *number) {
    uint8_t byte;
    *number = 0;
    for (int shift = 0; shift < bits; shift += 7) {
        if (!take(bytes, &byte)) return false;
        *number |= (uint64_t)(byte & 127) << shift;
        if (byte < 128) return shift + 7 <= bits || byte >> (bits - shift) == 0;
    }
    return false;
}

EACH bool take_u32(Bytes *bytes, uint32_t *number) {
    uint64_t wide;
    if (!take_number(bytes, 32, &wide)) return false;
    *number = (uint32_t)wide;
    return true;
}

EACH bool take_u16(Bytes *bytes, uint16_t *number) {
    uint64_t wide;
    if (!take_number(bytes, 16, &wide)) return false;
    *number = (uint16_t)wide;
    return true;
}

/* A byte that is 0 or 1. */
EACH bool take_bool(Bytes *bytes, bool *truth) {
    uint8_t byte;
    if (!take(bytes, &byte) || byte > 1) return false;
    *truth = byte == 1;
    return true;
}

/* The length of the character at the front of `left` bytes, which isn't ASCII; 0 if these aren't UTF-8: a character that is longer
 * than it has to be, half of a surrogate pair, and a character above 10FFFF are none. */
static size_t character(const uint8_t *at, size_t left) {
    uint8_t first = at[0], low = 0x80, high = 0xbf;
    size_t more = first >= 0xf0 ? 3 : first >= 0xe0 ? 2 : 1;
    if (first < 0xc2 || first > 0xf4 || left <= more) return 0;
    if (first == 0xe0) low = 0xa0;
    if (first == 0xed) high = 0x9f;
    if (first == 0xf0) low = 0x90;
    if (first == 0xf4) high = 0x8f;
    if (at[1] < low || at[1] > high) return 0;
    for (size_t i = 2; i <= more; i++)
        if (at[i] >> 6 != 2) return 0;
    return more + 1;
}

/* Whether the bytes are UTF-8. Where eight of them are ASCII, they are passed at once. */
static bool is_utf8(const uint8_t *at, size_t size) {
    size_t i = 0;
    while (i < size) {
        uint64_t eight;
        for (; size - i >= 8; i += 8) {
            memcpy(&eight, at + i, 8);
            if (eight & 0x8080808080808080u) break;
        }
        for (; i < size && at[i] < 128; i++) {}
        if (i == size) return true;
        size_t length = character(at + i, size - i);
        if (!length) return false;
        i += length;
    }
    return true;
}

EACH bool take_text(Bytes *bytes, Text *text) {
    uint64_t size;
    if (!take_number(bytes, 64, &size) || size > (size_t)(bytes->end - bytes->at) || !is_utf8(bytes->at, size)) return false;
    *text = (Text){bytes->at, size};
    bytes->at += size;
    return true;
}

EACH bool take_pair(Bytes *bytes, Pair *pair) { return take_u32(bytes, &pair->key) && take_u32(bytes, &pair->value); }

EACH bool take_option(Bytes *bytes, Option *option) {
    option->number = 0;
    return take_bool(bytes, &option->some) && (!option->some || take_u32(bytes, &option->number));
}

EACH bool take_record(Bytes *bytes, Record *record) {
    record->c = 0;
    if (!take_u32(bytes, &record->a) || !take_u16(bytes, &record->b) || !take_bool(bytes, &record->some)) return false;
    return (!record->some || take(bytes, &record->c)) && take_text(bytes, &record->d);
}

EACH bool take_nested(Bytes *bytes, Nested *nested) {
    if (!take(bytes, &nested->a) || !take_u16(bytes, &nested->rest.b)) return false;
    return take_u32(bytes, &nested->rest.last.c) && take_bool(bytes, &nested->rest.last.d);
}

EACH bool take_choice(Bytes *bytes, Choice *choice) {
    uint32_t index;
    if (!take_u32(bytes, &index) || index > 1) return false;
    choice->is_text = index == 1;
    return choice->is_text ? take_text(bytes, &choice->content.text) : take(bytes, &choice->content.byte);
}

typedef struct { void *items; size_t count, room; } List;

/* Makes room for more elements of `width` bytes: first for as many as bytes are left, but for 16 to 128, then for twice as many as
 * were read, and never for more than are announced. */
static bool grow(List *list, size_t width, uint64_t announced, size_t left) {
    size_t room = list->room ? 2 * list->room : left < 16 ? 16 : left > 128 ? 128 : left;
    if (room > announced) room = announced;
    void *items = realloc(list->items, room * width);
    if (!items) return false;
    list->items = items;
    list->room = room;
    return true;
}

/* Defines the function that reads a list: the number of its elements, and then each. */
#define READ_LIST(name, Type, take_one)                                                                                  \
    static bool name(Bytes bytes, List *list) {                                                                          \
        uint64_t announced;                                                                                              \
        Type one;                                                                                                        \
        if (!take_number(&bytes, 64, &announced)) return false;                                                          \
        for (size_t i = 0; i < announced; i++) {                                                                         \
            if (!take_one(&bytes, &one)) return false;                                                                   \
            if (i == list->room && !grow(list, sizeof one, announced, (size_t)(bytes.end - bytes.at))) return false;     \
            ((Type *)list->items)[i] = one;                                                                              \
            list->count = i + 1;                                                                                         \
        }                                                                                                                \
        return true;                                                                                                     \
    }

READ_LIST(read_texts, Text, take_text)
READ_LIST(read_options, Option, take_option)
READ_LIST(read_records, Record, take_record)
READ_LIST(read_nesteds, Nested, take_nested)
READ_LIST(read_choices, Choice, take_choice)

/* The first place in the map whose key is at least `key`. */
static size_t place_of(const List *map, uint32_t key) {
    const Pair *pairs = map->items;
    size_t low = 0, high = map->count;
    while (low < high) {
        size_t middle = low + (high - low) / 2;
        if (pairs[middle].key < key) low = middle + 1;
        else high = middle;
    }
    return low;
}

/* Puts a pair at its place, which is the end if its key is the greatest; of equal keys the later value stays. */
EACH bool insert(List *map, Pair one, uint64_t announced, size_t left) {
    Pair *pairs = map->items;
    size_t at = map->count;
    if (at > 0 && pairs[at - 1].key >= one.key) {
        at = place_of(map, one.key);
        if (pairs[at].key == one.key) return pairs[at] = one, true;
    }
    if (map->count == map->room && !grow(map, sizeof one, announced, left)) return false;
    pairs = map->items;
    if (at < map->count) memmove(pairs + at + 1, pairs + at, (map->count - at) * sizeof one);
    pairs[at] = one;
    map->count++;
    return true;
}

static bool read_map(Bytes bytes, List *map) {
    uint64_t announced;
    Pair one;
    if (!take_number(&bytes, 64, &announced)) return false;
    for (uint64_t i = 0; i < announced; i++)
        if (!take_pair(&bytes, &one) || !insert(map, one, announced, (size_t)(bytes.end - bytes.at))) return false;
    return true;
}

/* Numbers of four bytes, the lowest first as in the processor's memory: all are copied at once, into a block of their size. */
static bool read_fixed(Bytes bytes, List *list) {
    uint64_t announced;
    if (!take_number(&bytes, 64, &announced) || announced > (size_t)(bytes.end - bytes.at) / 4) return false;
    if (announced == 0) return true;
    list->items = malloc(announced * 4);
    if (!list->items) return false;
    memcpy(list->items, bytes.at, announced * 4);
    list->count = list->room = announced;
    return true;
}

EACH bool put_number(Room *room, uint64_t number) {
    for (; number > 127; number >>= 7)
        if (!put(room, (uint8_t)(number | 128))) return false;
    return put(room, (uint8_t)number);
}

EACH bool put_bytes(Room *room, const void *bytes, size_t size) {
    if ((size_t)(room->end - room->at) < size) return false;
    memcpy(room->at, bytes, size);
    room->at += size;
    return true;
}

EACH bool put_text(Room *room, const Text *text) { return put_number(room, text->size) && put_bytes(room, text->at, text->size); }

EACH bool put_pair(Room *room, const Pair *pair) { return put_number(room, pair->key) && put_number(room, pair->value); }

EACH bool put_option(Room *room, const Option *option) {
    return put(room, option->some) && (!option->some || put_number(room, option->number));
}

EACH bool put_record(Room *room, const Record *record) {
    if (!put_number(room, record->a) || !put_number(room, record->b) || !put(room, record->some)) return false;
    return (!record->some || put(room, record->c)) && put_text(room, &record->d);
}

EACH bool put_nested(Room *room, const Nested *nested) {
    if (!put(room, nested->a) || !put_number(room, nested->rest.b)) return false;
    return put_number(room, nested->rest.last.c) && put(room, nested->rest.last.d);
}

EACH bool put_choice(Room *room, const Choice *choice) {
    if (!put_number(room, choice->is_text)) return false;
    return choice->is_text ? put_text(room, &choice->content.text) : put(room, choice->content.byte);
}

/* Defines the function that writes a list or a map. It returns the number of bytes, and UINT64_MAX if there is too little room. */
#define WRITE_LIST(name, Type, put_one)                                              \
    static uint64_t name(const List *list, uint8_t *out, size_t size) {              \
        Room room = {out, out + size};                                               \
        const Type *items = list->items;                                             \
        size_t count = list->count;                                                  \
        if (!put_number(&room, count)) return UINT64_MAX;                            \
        for (size_t i = 0; i < count; i++)                                           \
            if (!put_one(&room, &items[i])) return UINT64_MAX;                       \
        return (uint64_t)(room.at - out);                                            \
    }

WRITE_LIST(write_texts, Text, put_text)
WRITE_LIST(write_map, Pair, put_pair)
WRITE_LIST(write_options, Option, put_option)
WRITE_LIST(write_records, Record, put_record)
WRITE_LIST(write_nesteds, Nested, put_nested)
WRITE_LIST(write_choices, Choice, put_choice)

static uint64_t write_fixed(const List *list, uint8_t *out, size_t size) {
    Room room = {out, out + size};
    if (!put_number(&room, list->count) || (list->count && !put_bytes(&room, list->items, list->count * 4))) return UINT64_MAX;
    return (uint64_t)(room.at - out);
}

EACH uint64_t size_of_number(uint64_t number) {
    uint64_t size = 1;
    for (; number > 127; number >>= 7) size++;
    return size;
}

EACH uint64_t size_of_text(const Text *text) { return size_of_number(text->size) + text->size; }

EACH uint64_t size_of_pair(const Pair *pair) { return size_of_number(pair->key) + size_of_number(pair->value); }

EACH uint64_t size_of_record(const Record *record) {
    return size_of_number(record->a) + size_of_number(record->b) + 1 + record->some + size_of_text(&record->d);
}

/* Defines the function that counts the bytes of a list or a map. */
#define SIZE_LIST(name, Type, size_of_one)                                                    \
    static uint64_t name(const List *list) {                                                  \
        const Type *items = list->items;                                                      \
        uint64_t size = size_of_number(list->count);                                          \
        for (size_t i = 0; i < list->count; i++) size += size_of_one(&items[i]);              \
        return size;                                                                          \
    }

SIZE_LIST(size_texts, Text, size_of_text)
SIZE_LIST(size_map, Pair, size_of_pair)
SIZE_LIST(size_records, Record, size_of_record)

/* The functions of each type, by its number. They are called through this table, so that no round is left out. */
static const struct {
    bool (*read)(Bytes bytes, List *list);
    uint64_t (*write)(const List *list, uint8_t *out, size_t size);
    uint64_t (*size)(const List *list);
} kinds[] = {
    {read_texts, write_texts, size_texts},
    {read_map, write_map, size_map},
    {read_options, write_options, NULL},
    {read_records, write_records, size_records},
    {read_nesteds, write_nesteds, NULL},
    {read_choices, write_choices, NULL},
    {read_fixed, write_fixed, NULL},
};

uint64_t plain_read(uint32_t kind, const uint8_t *bytes, size_t size, uint32_t rounds) {
    uint64_t successes = 0;
    for (uint32_t i = 0; i < rounds; i++) {
        List list = {0};
        successes += kinds[kind].read((Bytes){bytes, bytes + size}, &list);
        free(list.items);
    }
    return successes;
}

uint64_t plain_write(uint32_t kind, const uint8_t *bytes, size_t size, uint32_t rounds, uint8_t *out, size_t room) {
    List list = {0};
    uint64_t sum = kinds[kind].read((Bytes){bytes, bytes + size}, &list) ? 0 : UINT64_MAX;
    for (uint32_t i = 0; i < rounds && sum != UINT64_MAX; i++) {
        uint64_t used = kinds[kind].write(&list, out, room);
        sum = used == UINT64_MAX ? used : sum + used;
    }
    free(list.items);
    return sum;
}

uint64_t plain_size(uint32_t kind, const uint8_t *bytes, size_t size, uint32_t rounds) {
    List list = {0};
    uint64_t sum = kinds[kind].read((Bytes){bytes, bytes + size}, &list) ? 0 : UINT64_MAX;
    for (uint32_t i = 0; i < rounds && sum != UINT64_MAX; i++) sum += kinds[kind].size(&list);
    free(list.items);
    return sum;
}

uint64_t plain_bytes_lend(const uint8_t *bytes, size_t size) {
    Bytes rest = {bytes, bytes + size};
    uint64_t count;
    if (!take_number(&rest, 64, &count) || count > (size_t)(rest.end - rest.at)) return UINT64_MAX;
    return count ? count + rest.at[count - 1] : 0;
}
