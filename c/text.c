/* Messages as texts and back, by the calls of postcard_text.h, and what they say where they fail. It prints one line, and
 * ends with 1 at the first check that fails. */
#include <stdio.h>
#include <stdlib.h>
#include <string.h>
#include "postcard_text.h"
#define CHECK(fact) ((fact) ? (void)0 : failed(__LINE__))
static void failed(int line) { printf("line %d fails\n", line), exit(1); }

static const char type[] = "{id: u32, label: str, samples: [i16]}", value[] = "{id: 42, label: \"x\", samples: [1, 2]}";
static const uint8_t message[] = {0x2A, 0x01, 0x78, 0x02, 0x02, 0x04, 0x99};
static char text[64];
static uint8_t bytes[16];
static size_t place, count;

static postcard_status print(const char *kind, size_t size, size_t room) {
    memset(text, '~', sizeof text), place = count = 77;
    return postcard_to_text(kind, strlen(kind), message, size, text, room, &place, &count);
}
static postcard_status encode(const char *kind, const char *told, size_t room) {
    memset(bytes, 0xEE, sizeof bytes), place = count = 77;
    return postcard_from_text(kind, strlen(kind), told, strlen(told), bytes, room, &place, &count);
}

static void to_text(void) {
    CHECK(print(type, sizeof message, sizeof text) == POSTCARD_OK && place == 6 && count == sizeof value - 1);
    CHECK(memcmp(text, value, count) == 0 && text[count] == '~');
    CHECK(print(type, sizeof message, 5) == POSTCARD_BUFFER_FULL && count == sizeof value - 1 && text[0] == '~');
    CHECK(print(type, 5, sizeof text) == POSTCARD_UNEXPECTED_END && place == 5 && text[0] == '~'); /* in the second sample */
    CHECK(print("(u8, bool)", 3, sizeof text) == POSTCARD_OK && place == 2);
    CHECK(print("(u8, u8, bool)", 3, sizeof text) == POSTCARD_BAD_BOOL && place == 2);
    CHECK(print("A | B", 3, sizeof text) == POSTCARD_NO_VALUE && place == 0);
    CHECK(print("{id: u33}", 3, sizeof text) == POSTCARD_BAD_TYPE && place == 6);
    CHECK(print("\xFF", 3, sizeof text) == POSTCARD_BAD_TYPE && place == 0);
    CHECK(postcard_to_text("()", 2, NULL, 0, text, sizeof text, &place, &count) == POSTCARD_OK && place == 0 && count == 2);
}

static void from_text(void) {
    CHECK(encode(type, value, sizeof bytes) == POSTCARD_OK && count == 6 && memcmp(bytes, message, 6) == 0 && bytes[6] == 0xEE);
    CHECK(encode("(LE<u16>, BE<i32>)", "(300, -2)", sizeof bytes) == POSTCARD_OK && count == 6 && memcmp(bytes, "\x2C\x01\xFF\xFF\xFF\xFE", 6) == 0);
    CHECK(encode(type, value, 5) == POSTCARD_BUFFER_FULL && count == 6 && bytes[0] == 0xEE);
    CHECK(encode("u8", "256", sizeof bytes) == POSTCARD_BAD_TEXT && bytes[0] == 0xEE);
    CHECK(encode("(u8, bool)", "(1, maybe)", sizeof bytes) == POSTCARD_BAD_TEXT && place == 5);
    CHECK(encode("u8", "\xFF", sizeof bytes) == POSTCARD_BAD_TEXT && place == 0);
    CHECK(encode("[u8", "[]", sizeof bytes) == POSTCARD_BAD_TYPE && place == 4);
}

static void checks(void) {
    CHECK(postcard_check(type, sizeof type - 1, message, sizeof message, &place) == POSTCARD_OK && place == 6);
    CHECK(postcard_check(type, sizeof type - 1, message, 3, &place) == POSTCARD_UNEXPECTED_END && place == 3);
    CHECK(postcard_check("str", 3, "\x02\xFF\xFF", 3, &place) == POSTCARD_BAD_UTF8 && place == 0);
}

int main(void) {
    to_text(), from_text(), checks();
    puts("texts and messages pass");
    return 0;
}
