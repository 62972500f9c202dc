/* Messages of messages.rs, as structs of C99 and C++. Written by `pcard c`: don't edit it, but write it again.
 *
 * Each call returns 0 or a status of postcard.h. Of a type T,
 *   - T_put and T_get write and read a value among others, and T_encode and T_decode a whole message, after which nothing may follow;
 *   - T_encode sets *count to the size that the message needs, also where it has no room and fails with POSTCARD_BUFFER_FULL;
 *   - T_frame writes the message as a frame, its zero included, and takes T_MAX_SIZE bytes of stack;
 *   - T_MAX_SIZE and T_FRAME_SIZE are the bytes of the longest message and frame;
 *   - of a list without a capacity, T_reader and T_next give the elements that were read one by one. They are lent as `encoded`, and
 *     `items` is NULL. To write a list, set `items`, or leave both as they were read.
 *
 * Writing fails with POSTCARD_BAD_VALUE if a tag, a count or a size is none of the type. A `postcard_slice` that was read lies in the
 * message. After a failure a struct is read in part; its counts, flags and tags have a value. */
#ifndef MESSAGES_H
#define MESSAGES_H
#include "postcard.h"
#ifdef __cplusplus
extern "C" {
#endif

typedef enum FixKind { /* the numbers of the variants in a message */
    FixKind_NoFix = 0,
    FixKind_Fix2d = 1,
    FixKind_Fix3d = 2
} FixKind;
postcard_status FixKind_put(postcard_writer *writer, const FixKind *value);
postcard_status FixKind_get(postcard_reader *reader, FixKind *value);
#define FixKind_MAX_SIZE 1u
static inline postcard_status FixKind_encode(const FixKind *value, void *message, size_t size, size_t *count) {
    postcard_writer writer = postcard_writer_over(message, size);
    FixKind_put(&writer, value);
    *count = writer.needed;
    return writer.status;
}
static inline postcard_status FixKind_decode(FixKind *value, const void *message, size_t size) {
    postcard_reader reader = postcard_reader_over(message, size);
    if (FixKind_get(&reader, value) == POSTCARD_OK && reader.at != reader.size) reader.status = POSTCARD_NO_VALUE;
    return reader.status;
}
#define FixKind_FRAME_SIZE POSTCARD_FRAME_SIZE(FixKind_MAX_SIZE)
static inline postcard_status FixKind_frame(const FixKind *value, uint8_t *frame, size_t size, size_t *count) {
    uint8_t message[1];
    size_t used = 0;
    postcard_status status = FixKind_encode(value, message, sizeof message, &used);
    return status == POSTCARD_OK ? postcard_cobs_encode(message, used, frame, size, count) : status;
}

/* Where a receiver is: degrees in units of 10^-7, and millimetres. */
typedef struct GnssFix {
    uint64_t time;
    int32_t lat;
    int32_t lon;
    int32_t alt;
    uint8_t sats;
    FixKind fix;
} GnssFix;
postcard_status GnssFix_put(postcard_writer *writer, const GnssFix *value);
postcard_status GnssFix_get(postcard_reader *reader, GnssFix *value);
#define GnssFix_MAX_SIZE 27u
static inline postcard_status GnssFix_encode(const GnssFix *value, void *message, size_t size, size_t *count) {
    postcard_writer writer = postcard_writer_over(message, size);
    GnssFix_put(&writer, value);
    *count = writer.needed;
    return writer.status;
}
static inline postcard_status GnssFix_decode(GnssFix *value, const void *message, size_t size) {
    postcard_reader reader = postcard_reader_over(message, size);
    if (GnssFix_get(&reader, value) == POSTCARD_OK && reader.at != reader.size) reader.status = POSTCARD_NO_VALUE;
    return reader.status;
}
#define GnssFix_FRAME_SIZE POSTCARD_FRAME_SIZE(GnssFix_MAX_SIZE)
static inline postcard_status GnssFix_frame(const GnssFix *value, uint8_t *frame, size_t size, size_t *count) {
    uint8_t message[27];
    size_t used = 0;
    postcard_status status = GnssFix_encode(value, message, sizeof message, &used);
    return status == POSTCARD_OK ? postcard_cobs_encode(message, used, frame, size, count) : status;
}

typedef struct messages_option_u16 { bool some; uint16_t value; } messages_option_u16;
postcard_status messages_option_u16_put(postcard_writer *writer, const messages_option_u16 *value);
postcard_status messages_option_u16_get(postcard_reader *reader, messages_option_u16 *value);

/* The status of a motor. */
typedef struct Motor {
    uint8_t id;
    int16_t rpm;
    float current;
    int8_t temps[3];
    messages_option_u16 fault;
} Motor;
postcard_status Motor_put(postcard_writer *writer, const Motor *value);
postcard_status Motor_get(postcard_reader *reader, Motor *value);
#define Motor_MAX_SIZE 15u
static inline postcard_status Motor_encode(const Motor *value, void *message, size_t size, size_t *count) {
    postcard_writer writer = postcard_writer_over(message, size);
    Motor_put(&writer, value);
    *count = writer.needed;
    return writer.status;
}
static inline postcard_status Motor_decode(Motor *value, const void *message, size_t size) {
    postcard_reader reader = postcard_reader_over(message, size);
    if (Motor_get(&reader, value) == POSTCARD_OK && reader.at != reader.size) reader.status = POSTCARD_NO_VALUE;
    return reader.status;
}
#define Motor_FRAME_SIZE POSTCARD_FRAME_SIZE(Motor_MAX_SIZE)
static inline postcard_status Motor_frame(const Motor *value, uint8_t *frame, size_t size, size_t *count) {
    uint8_t message[15];
    size_t used = 0;
    postcard_status status = Motor_encode(value, message, sizeof message, &used);
    return status == POSTCARD_OK ? postcard_cobs_encode(message, used, frame, size, count) : status;
}

typedef enum Level { /* the numbers of the variants in a message */
    Level_Trace = 0,
    Level_Debug = 1,
    Level_Info = 2,
    Level_Warn = 3,
    Level_Error = 4
} Level;
postcard_status Level_put(postcard_writer *writer, const Level *value);
postcard_status Level_get(postcard_reader *reader, Level *value);
#define Level_MAX_SIZE 1u
static inline postcard_status Level_encode(const Level *value, void *message, size_t size, size_t *count) {
    postcard_writer writer = postcard_writer_over(message, size);
    Level_put(&writer, value);
    *count = writer.needed;
    return writer.status;
}
static inline postcard_status Level_decode(Level *value, const void *message, size_t size) {
    postcard_reader reader = postcard_reader_over(message, size);
    if (Level_get(&reader, value) == POSTCARD_OK && reader.at != reader.size) reader.status = POSTCARD_NO_VALUE;
    return reader.status;
}
#define Level_FRAME_SIZE POSTCARD_FRAME_SIZE(Level_MAX_SIZE)
static inline postcard_status Level_frame(const Level *value, uint8_t *frame, size_t size, size_t *count) {
    uint8_t message[1];
    size_t used = 0;
    postcard_status status = Level_encode(value, message, sizeof message, &used);
    return status == POSTCARD_OK ? postcard_cobs_encode(message, used, frame, size, count) : status;
}

typedef struct LogLine {
    uint64_t at;
    Level level;
    postcard_slice target;
    postcard_slice text;
} LogLine;
postcard_status LogLine_put(postcard_writer *writer, const LogLine *value);
postcard_status LogLine_get(postcard_reader *reader, LogLine *value);
/* LogLine has no greatest size, since a text, a list or a map has no capacity. */
static inline postcard_status LogLine_encode(const LogLine *value, void *message, size_t size, size_t *count) {
    postcard_writer writer = postcard_writer_over(message, size);
    LogLine_put(&writer, value);
    *count = writer.needed;
    return writer.status;
}
static inline postcard_status LogLine_decode(LogLine *value, const void *message, size_t size) {
    postcard_reader reader = postcard_reader_over(message, size);
    if (LogLine_get(&reader, value) == POSTCARD_OK && reader.at != reader.size) reader.status = POSTCARD_NO_VALUE;
    return reader.status;
}

typedef enum Parity { /* the numbers of the variants in a message */
    Parity_None = 0,
    Parity_Even = 1,
    Parity_Odd = 2
} Parity;
postcard_status Parity_put(postcard_writer *writer, const Parity *value);
postcard_status Parity_get(postcard_reader *reader, Parity *value);
#define Parity_MAX_SIZE 1u
static inline postcard_status Parity_encode(const Parity *value, void *message, size_t size, size_t *count) {
    postcard_writer writer = postcard_writer_over(message, size);
    Parity_put(&writer, value);
    *count = writer.needed;
    return writer.status;
}
static inline postcard_status Parity_decode(Parity *value, const void *message, size_t size) {
    postcard_reader reader = postcard_reader_over(message, size);
    if (Parity_get(&reader, value) == POSTCARD_OK && reader.at != reader.size) reader.status = POSTCARD_NO_VALUE;
    return reader.status;
}
#define Parity_FRAME_SIZE POSTCARD_FRAME_SIZE(Parity_MAX_SIZE)
static inline postcard_status Parity_frame(const Parity *value, uint8_t *frame, size_t size, size_t *count) {
    uint8_t message[1];
    size_t used = 0;
    postcard_status status = Parity_encode(value, message, sizeof message, &used);
    return status == POSTCARD_OK ? postcard_cobs_encode(message, used, frame, size, count) : status;
}

typedef struct messages_tuple4_u8_u8_u8_u8 { uint8_t _0; uint8_t _1; uint8_t _2; uint8_t _3; } messages_tuple4_u8_u8_u8_u8;
postcard_status messages_tuple4_u8_u8_u8_u8_put(postcard_writer *writer, const messages_tuple4_u8_u8_u8_u8 *value);
postcard_status messages_tuple4_u8_u8_u8_u8_get(postcard_reader *reader, messages_tuple4_u8_u8_u8_u8 *value);

typedef struct messages_option_tuple4_u8_u8_u8_u8 { bool some; messages_tuple4_u8_u8_u8_u8 value; } messages_option_tuple4_u8_u8_u8_u8;
postcard_status messages_option_tuple4_u8_u8_u8_u8_put(postcard_writer *writer, const messages_option_tuple4_u8_u8_u8_u8 *value);
postcard_status messages_option_tuple4_u8_u8_u8_u8_get(postcard_reader *reader, messages_option_tuple4_u8_u8_u8_u8 *value);

typedef struct Settings {
    postcard_slice name;
    uint32_t baud;
    Parity parity;
    uint8_t retries;
    messages_option_tuple4_u8_u8_u8_u8 address;
    bool debug;
} Settings;
postcard_status Settings_put(postcard_writer *writer, const Settings *value);
postcard_status Settings_get(postcard_reader *reader, Settings *value);
/* Settings has no greatest size, since a text, a list or a map has no capacity. */
static inline postcard_status Settings_encode(const Settings *value, void *message, size_t size, size_t *count) {
    postcard_writer writer = postcard_writer_over(message, size);
    Settings_put(&writer, value);
    *count = writer.needed;
    return writer.status;
}
static inline postcard_status Settings_decode(Settings *value, const void *message, size_t size) {
    postcard_reader reader = postcard_reader_over(message, size);
    if (Settings_get(&reader, value) == POSTCARD_OK && reader.at != reader.size) reader.status = POSTCARD_NO_VALUE;
    return reader.status;
}

typedef struct Chunk {
    uint32_t image;
    uint32_t offset;
    postcard_slice data;
    bool last;
} Chunk;
postcard_status Chunk_put(postcard_writer *writer, const Chunk *value);
postcard_status Chunk_get(postcard_reader *reader, Chunk *value);
/* Chunk has no greatest size, since a text, a list or a map has no capacity. */
static inline postcard_status Chunk_encode(const Chunk *value, void *message, size_t size, size_t *count) {
    postcard_writer writer = postcard_writer_over(message, size);
    Chunk_put(&writer, value);
    *count = writer.needed;
    return writer.status;
}
static inline postcard_status Chunk_decode(Chunk *value, const void *message, size_t size) {
    postcard_reader reader = postcard_reader_over(message, size);
    if (Chunk_get(&reader, value) == POSTCARD_OK && reader.at != reader.size) reader.status = POSTCARD_NO_VALUE;
    return reader.status;
}

typedef struct Page {
    uint32_t offset;
    postcard_slice data;
} Page;
postcard_status Page_put(postcard_writer *writer, const Page *value);
postcard_status Page_get(postcard_reader *reader, Page *value);
/* Page has no greatest size, since a text, a list or a map has no capacity. */
static inline postcard_status Page_encode(const Page *value, void *message, size_t size, size_t *count) {
    postcard_writer writer = postcard_writer_over(message, size);
    Page_put(&writer, value);
    *count = writer.needed;
    return writer.status;
}
static inline postcard_status Page_decode(Page *value, const void *message, size_t size) {
    postcard_reader reader = postcard_reader_over(message, size);
    if (Page_get(&reader, value) == POSTCARD_OK && reader.at != reader.size) reader.status = POSTCARD_NO_VALUE;
    return reader.status;
}

typedef enum Gpio_tag { /* the numbers of the variants in a message */
    Gpio_Read = 0,
    Gpio_Write = 1
} Gpio_tag;
typedef struct Gpio {
    Gpio_tag tag;
    union {
        struct {
            uint8_t pin;
        } read;
        struct {
            uint8_t pin;
            bool high;
        } write;
    } as;
} Gpio;
postcard_status Gpio_put(postcard_writer *writer, const Gpio *value);
postcard_status Gpio_get(postcard_reader *reader, Gpio *value);
#define Gpio_MAX_SIZE 3u
static inline postcard_status Gpio_encode(const Gpio *value, void *message, size_t size, size_t *count) {
    postcard_writer writer = postcard_writer_over(message, size);
    Gpio_put(&writer, value);
    *count = writer.needed;
    return writer.status;
}
static inline postcard_status Gpio_decode(Gpio *value, const void *message, size_t size) {
    postcard_reader reader = postcard_reader_over(message, size);
    if (Gpio_get(&reader, value) == POSTCARD_OK && reader.at != reader.size) reader.status = POSTCARD_NO_VALUE;
    return reader.status;
}
#define Gpio_FRAME_SIZE POSTCARD_FRAME_SIZE(Gpio_MAX_SIZE)
static inline postcard_status Gpio_frame(const Gpio *value, uint8_t *frame, size_t size, size_t *count) {
    uint8_t message[3];
    size_t used = 0;
    postcard_status status = Gpio_encode(value, message, sizeof message, &used);
    return status == POSTCARD_OK ? postcard_cobs_encode(message, used, frame, size, count) : status;
}

typedef enum Flash_tag { /* the numbers of the variants in a message */
    Flash_Erase = 0,
    Flash_Program = 1
} Flash_tag;
typedef struct Flash {
    Flash_tag tag;
    union {
        struct {
            uint32_t _0;
            postcard_slice _1;
        } program;
    } as;
} Flash;
postcard_status Flash_put(postcard_writer *writer, const Flash *value);
postcard_status Flash_get(postcard_reader *reader, Flash *value);
/* Flash has no greatest size, since a text, a list or a map has no capacity. */
static inline postcard_status Flash_encode(const Flash *value, void *message, size_t size, size_t *count) {
    postcard_writer writer = postcard_writer_over(message, size);
    Flash_put(&writer, value);
    *count = writer.needed;
    return writer.status;
}
static inline postcard_status Flash_decode(Flash *value, const void *message, size_t size) {
    postcard_reader reader = postcard_reader_over(message, size);
    if (Flash_get(&reader, value) == POSTCARD_OK && reader.at != reader.size) reader.status = POSTCARD_NO_VALUE;
    return reader.status;
}

typedef enum Call_tag { /* the numbers of the variants in a message */
    Call_Ping = 0,
    Call_Gpio = 1,
    Call_Flash = 2
} Call_tag;
typedef struct Call {
    Call_tag tag;
    union {
        Gpio gpio;
        Flash flash;
    } as;
} Call;
postcard_status Call_put(postcard_writer *writer, const Call *value);
postcard_status Call_get(postcard_reader *reader, Call *value);
/* Call has no greatest size, since a text, a list or a map has no capacity. */
static inline postcard_status Call_encode(const Call *value, void *message, size_t size, size_t *count) {
    postcard_writer writer = postcard_writer_over(message, size);
    Call_put(&writer, value);
    *count = writer.needed;
    return writer.status;
}
static inline postcard_status Call_decode(Call *value, const void *message, size_t size) {
    postcard_reader reader = postcard_reader_over(message, size);
    if (Call_get(&reader, value) == POSTCARD_OK && reader.at != reader.size) reader.status = POSTCARD_NO_VALUE;
    return reader.status;
}

/* A request; requests and answers have the same numbers. */
typedef struct Request {
    uint16_t id;
    Call call;
} Request;
postcard_status Request_put(postcard_writer *writer, const Request *value);
postcard_status Request_get(postcard_reader *reader, Request *value);
/* Request has no greatest size, since a text, a list or a map has no capacity. */
static inline postcard_status Request_encode(const Request *value, void *message, size_t size, size_t *count) {
    postcard_writer writer = postcard_writer_over(message, size);
    Request_put(&writer, value);
    *count = writer.needed;
    return writer.status;
}
static inline postcard_status Request_decode(Request *value, const void *message, size_t size) {
    postcard_reader reader = postcard_reader_over(message, size);
    if (Request_get(&reader, value) == POSTCARD_OK && reader.at != reader.size) reader.status = POSTCARD_NO_VALUE;
    return reader.status;
}

typedef enum Reason_tag { /* the numbers of the variants in a message */
    Reason_Timeout = 0,
    Reason_Busy = 1,
    Reason_Refused = 2
} Reason_tag;
typedef struct Reason {
    Reason_tag tag;
    union {
        postcard_slice refused;
    } as;
} Reason;
postcard_status Reason_put(postcard_writer *writer, const Reason *value);
postcard_status Reason_get(postcard_reader *reader, Reason *value);
/* Reason has no greatest size, since a text, a list or a map has no capacity. */
static inline postcard_status Reason_encode(const Reason *value, void *message, size_t size, size_t *count) {
    postcard_writer writer = postcard_writer_over(message, size);
    Reason_put(&writer, value);
    *count = writer.needed;
    return writer.status;
}
static inline postcard_status Reason_decode(Reason *value, const void *message, size_t size) {
    postcard_reader reader = postcard_reader_over(message, size);
    if (Reason_get(&reader, value) == POSTCARD_OK && reader.at != reader.size) reader.status = POSTCARD_NO_VALUE;
    return reader.status;
}

typedef struct messages_result_u32_Reason { bool is_ok; union { uint32_t ok; Reason err; } as; } messages_result_u32_Reason;
postcard_status messages_result_u32_Reason_put(postcard_writer *writer, const messages_result_u32_Reason *value);
postcard_status messages_result_u32_Reason_get(postcard_reader *reader, messages_result_u32_Reason *value);

typedef struct Answer {
    uint16_t id;
    messages_result_u32_Reason result;
} Answer;
postcard_status Answer_put(postcard_writer *writer, const Answer *value);
postcard_status Answer_get(postcard_reader *reader, Answer *value);
/* Answer has no greatest size, since a text, a list or a map has no capacity. */
static inline postcard_status Answer_encode(const Answer *value, void *message, size_t size, size_t *count) {
    postcard_writer writer = postcard_writer_over(message, size);
    Answer_put(&writer, value);
    *count = writer.needed;
    return writer.status;
}
static inline postcard_status Answer_decode(Answer *value, const void *message, size_t size) {
    postcard_reader reader = postcard_reader_over(message, size);
    if (Answer_get(&reader, value) == POSTCARD_OK && reader.at != reader.size) reader.status = POSTCARD_NO_VALUE;
    return reader.status;
}

typedef struct messages_option_i8 { bool some; int8_t value; } messages_option_i8;
postcard_status messages_option_i8_put(postcard_writer *writer, const messages_option_i8 *value);
postcard_status messages_option_i8_get(postcard_reader *reader, messages_option_i8 *value);

typedef struct Battery {
    uint16_t cells[4];
    int32_t current;
    bool charging;
    messages_option_i8 temp;
} Battery;
postcard_status Battery_put(postcard_writer *writer, const Battery *value);
postcard_status Battery_get(postcard_reader *reader, Battery *value);
#define Battery_MAX_SIZE 20u
static inline postcard_status Battery_encode(const Battery *value, void *message, size_t size, size_t *count) {
    postcard_writer writer = postcard_writer_over(message, size);
    Battery_put(&writer, value);
    *count = writer.needed;
    return writer.status;
}
static inline postcard_status Battery_decode(Battery *value, const void *message, size_t size) {
    postcard_reader reader = postcard_reader_over(message, size);
    if (Battery_get(&reader, value) == POSTCARD_OK && reader.at != reader.size) reader.status = POSTCARD_NO_VALUE;
    return reader.status;
}
#define Battery_FRAME_SIZE POSTCARD_FRAME_SIZE(Battery_MAX_SIZE)
static inline postcard_status Battery_frame(const Battery *value, uint8_t *frame, size_t size, size_t *count) {
    uint8_t message[20];
    size_t used = 0;
    postcard_status status = Battery_encode(value, message, sizeof message, &used);
    return status == POSTCARD_OK ? postcard_cobs_encode(message, used, frame, size, count) : status;
}

typedef struct Axes {
    int16_t _0;
    int16_t _1;
    int16_t _2;
} Axes;
postcard_status Axes_put(postcard_writer *writer, const Axes *value);
postcard_status Axes_get(postcard_reader *reader, Axes *value);
#define Axes_MAX_SIZE 9u
static inline postcard_status Axes_encode(const Axes *value, void *message, size_t size, size_t *count) {
    postcard_writer writer = postcard_writer_over(message, size);
    Axes_put(&writer, value);
    *count = writer.needed;
    return writer.status;
}
static inline postcard_status Axes_decode(Axes *value, const void *message, size_t size) {
    postcard_reader reader = postcard_reader_over(message, size);
    if (Axes_get(&reader, value) == POSTCARD_OK && reader.at != reader.size) reader.status = POSTCARD_NO_VALUE;
    return reader.status;
}
#define Axes_FRAME_SIZE POSTCARD_FRAME_SIZE(Axes_MAX_SIZE)
static inline postcard_status Axes_frame(const Axes *value, uint8_t *frame, size_t size, size_t *count) {
    uint8_t message[9];
    size_t used = 0;
    postcard_status status = Axes_encode(value, message, sizeof message, &used);
    return status == POSTCARD_OK ? postcard_cobs_encode(message, used, frame, size, count) : status;
}

typedef struct messages_tuple3_f32_f32_f32 { float _0; float _1; float _2; } messages_tuple3_f32_f32_f32;
postcard_status messages_tuple3_f32_f32_f32_put(postcard_writer *writer, const messages_tuple3_f32_f32_f32 *value);
postcard_status messages_tuple3_f32_f32_f32_get(postcard_reader *reader, messages_tuple3_f32_f32_f32 *value);

typedef struct Inertial {
    uint32_t t;
    Axes accel;
    messages_tuple3_f32_f32_f32 gyro;
} Inertial;
postcard_status Inertial_put(postcard_writer *writer, const Inertial *value);
postcard_status Inertial_get(postcard_reader *reader, Inertial *value);
#define Inertial_MAX_SIZE 26u
static inline postcard_status Inertial_encode(const Inertial *value, void *message, size_t size, size_t *count) {
    postcard_writer writer = postcard_writer_over(message, size);
    Inertial_put(&writer, value);
    *count = writer.needed;
    return writer.status;
}
static inline postcard_status Inertial_decode(Inertial *value, const void *message, size_t size) {
    postcard_reader reader = postcard_reader_over(message, size);
    if (Inertial_get(&reader, value) == POSTCARD_OK && reader.at != reader.size) reader.status = POSTCARD_NO_VALUE;
    return reader.status;
}
#define Inertial_FRAME_SIZE POSTCARD_FRAME_SIZE(Inertial_MAX_SIZE)
static inline postcard_status Inertial_frame(const Inertial *value, uint8_t *frame, size_t size, size_t *count) {
    uint8_t message[26];
    size_t used = 0;
    postcard_status status = Inertial_encode(value, message, sizeof message, &used);
    return status == POSTCARD_OK ? postcard_cobs_encode(message, used, frame, size, count) : status;
}

typedef struct CanFrame {
    uint32_t id;
    bool extended;
    postcard_slice data;
} CanFrame;
postcard_status CanFrame_put(postcard_writer *writer, const CanFrame *value);
postcard_status CanFrame_get(postcard_reader *reader, CanFrame *value);
/* CanFrame has no greatest size, since a text, a list or a map has no capacity. */
static inline postcard_status CanFrame_encode(const CanFrame *value, void *message, size_t size, size_t *count) {
    postcard_writer writer = postcard_writer_over(message, size);
    CanFrame_put(&writer, value);
    *count = writer.needed;
    return writer.status;
}
static inline postcard_status CanFrame_decode(CanFrame *value, const void *message, size_t size) {
    postcard_reader reader = postcard_reader_over(message, size);
    if (CanFrame_get(&reader, value) == POSTCARD_OK && reader.at != reader.size) reader.status = POSTCARD_NO_VALUE;
    return reader.status;
}

typedef struct messages_tuple2_str_f32 { postcard_slice _0; float _1; } messages_tuple2_str_f32;
postcard_status messages_tuple2_str_f32_put(postcard_writer *writer, const messages_tuple2_str_f32 *value);
postcard_status messages_tuple2_str_f32_get(postcard_reader *reader, messages_tuple2_str_f32 *value);

typedef struct messages_map_str_f32 { size_t count; const messages_tuple2_str_f32 *items; postcard_slice encoded; } messages_map_str_f32;
postcard_status messages_map_str_f32_put(postcard_writer *writer, const messages_map_str_f32 *value);
postcard_status messages_map_str_f32_get(postcard_reader *reader, messages_map_str_f32 *value);
bool messages_map_str_f32_next(postcard_reader *reader, messages_tuple2_str_f32 *item);
static inline postcard_reader messages_map_str_f32_reader(const messages_map_str_f32 *value) {
    return postcard_reader_over(value->encoded.bytes, value->encoded.size);
}

typedef struct Weather {
    postcard_slice station;
    messages_map_str_f32 readings;
} Weather;
postcard_status Weather_put(postcard_writer *writer, const Weather *value);
postcard_status Weather_get(postcard_reader *reader, Weather *value);
/* Weather has no greatest size, since a text, a list or a map has no capacity. */
static inline postcard_status Weather_encode(const Weather *value, void *message, size_t size, size_t *count) {
    postcard_writer writer = postcard_writer_over(message, size);
    Weather_put(&writer, value);
    *count = writer.needed;
    return writer.status;
}
static inline postcard_status Weather_decode(Weather *value, const void *message, size_t size) {
    postcard_reader reader = postcard_reader_over(message, size);
    if (Weather_get(&reader, value) == POSTCARD_OK && reader.at != reader.size) reader.status = POSTCARD_NO_VALUE;
    return reader.status;
}

typedef struct messages_tuple3_u8_u8_u8 { uint8_t _0; uint8_t _1; uint8_t _2; } messages_tuple3_u8_u8_u8;
postcard_status messages_tuple3_u8_u8_u8_put(postcard_writer *writer, const messages_tuple3_u8_u8_u8 *value);
postcard_status messages_tuple3_u8_u8_u8_get(postcard_reader *reader, messages_tuple3_u8_u8_u8 *value);

typedef struct Announcement {
    postcard_u128 serial;
    messages_tuple3_u8_u8_u8 version;
    uint32_t unit;
    uint16_t uptime;
} Announcement;
postcard_status Announcement_put(postcard_writer *writer, const Announcement *value);
postcard_status Announcement_get(postcard_reader *reader, Announcement *value);
#define Announcement_MAX_SIZE 30u
static inline postcard_status Announcement_encode(const Announcement *value, void *message, size_t size, size_t *count) {
    postcard_writer writer = postcard_writer_over(message, size);
    Announcement_put(&writer, value);
    *count = writer.needed;
    return writer.status;
}
static inline postcard_status Announcement_decode(Announcement *value, const void *message, size_t size) {
    postcard_reader reader = postcard_reader_over(message, size);
    if (Announcement_get(&reader, value) == POSTCARD_OK && reader.at != reader.size) reader.status = POSTCARD_NO_VALUE;
    return reader.status;
}
#define Announcement_FRAME_SIZE POSTCARD_FRAME_SIZE(Announcement_MAX_SIZE)
static inline postcard_status Announcement_frame(const Announcement *value, uint8_t *frame, size_t size, size_t *count) {
    uint8_t message[30];
    size_t used = 0;
    postcard_status status = Announcement_encode(value, message, sizeof message, &used);
    return status == POSTCARD_OK ? postcard_cobs_encode(message, used, frame, size, count) : status;
}

typedef enum Pointer_tag { /* the numbers of the variants in a message */
    Pointer_Down = 0,
    Pointer_Up = 1,
    Pointer_Move = 2
} Pointer_tag;
typedef struct Pointer {
    Pointer_tag tag;
    union {
        uint32_t down;
        uint32_t up;
        struct {
            int8_t dx;
            int8_t dy;
        } move;
    } as;
} Pointer;
postcard_status Pointer_put(postcard_writer *writer, const Pointer *value);
postcard_status Pointer_get(postcard_reader *reader, Pointer *value);
#define Pointer_MAX_SIZE 6u
static inline postcard_status Pointer_encode(const Pointer *value, void *message, size_t size, size_t *count) {
    postcard_writer writer = postcard_writer_over(message, size);
    Pointer_put(&writer, value);
    *count = writer.needed;
    return writer.status;
}
static inline postcard_status Pointer_decode(Pointer *value, const void *message, size_t size) {
    postcard_reader reader = postcard_reader_over(message, size);
    if (Pointer_get(&reader, value) == POSTCARD_OK && reader.at != reader.size) reader.status = POSTCARD_NO_VALUE;
    return reader.status;
}
#define Pointer_FRAME_SIZE POSTCARD_FRAME_SIZE(Pointer_MAX_SIZE)
static inline postcard_status Pointer_frame(const Pointer *value, uint8_t *frame, size_t size, size_t *count) {
    uint8_t message[6];
    size_t used = 0;
    postcard_status status = Pointer_encode(value, message, sizeof message, &used);
    return status == POSTCARD_OK ? postcard_cobs_encode(message, used, frame, size, count) : status;
}

typedef struct messages_option_u8 { bool some; uint8_t value; } messages_option_u8;
postcard_status messages_option_u8_put(postcard_writer *writer, const messages_option_u8 *value);
postcard_status messages_option_u8_get(postcard_reader *reader, messages_option_u8 *value);

typedef struct messages_option_option_u8 { bool some; messages_option_u8 value; } messages_option_option_u8;
postcard_status messages_option_option_u8_put(postcard_writer *writer, const messages_option_option_u8 *value);
postcard_status messages_option_option_u8_get(postcard_reader *reader, messages_option_option_u8 *value);

typedef struct messages_option_str { bool some; postcard_slice value; } messages_option_str;
postcard_status messages_option_str_put(postcard_writer *writer, const messages_option_str *value);
postcard_status messages_option_str_get(postcard_reader *reader, messages_option_str *value);

typedef struct messages_option_bool { bool some; bool value; } messages_option_bool;
postcard_status messages_option_bool_put(postcard_writer *writer, const messages_option_bool *value);
postcard_status messages_option_bool_get(postcard_reader *reader, messages_option_bool *value);

typedef struct Patch {
    messages_option_option_u8 volume;
    messages_option_str title;
    messages_option_bool night;
} Patch;
postcard_status Patch_put(postcard_writer *writer, const Patch *value);
postcard_status Patch_get(postcard_reader *reader, Patch *value);
/* Patch has no greatest size, since a text, a list or a map has no capacity. */
static inline postcard_status Patch_encode(const Patch *value, void *message, size_t size, size_t *count) {
    postcard_writer writer = postcard_writer_over(message, size);
    Patch_put(&writer, value);
    *count = writer.needed;
    return writer.status;
}
static inline postcard_status Patch_decode(Patch *value, const void *message, size_t size) {
    postcard_reader reader = postcard_reader_over(message, size);
    if (Patch_get(&reader, value) == POSTCARD_OK && reader.at != reader.size) reader.status = POSTCARD_NO_VALUE;
    return reader.status;
}

typedef struct messages_list_i64 { size_t count; const int64_t *items; postcard_slice encoded; } messages_list_i64;
postcard_status messages_list_i64_put(postcard_writer *writer, const messages_list_i64 *value);
postcard_status messages_list_i64_get(postcard_reader *reader, messages_list_i64 *value);
bool messages_list_i64_next(postcard_reader *reader, int64_t *item);
static inline postcard_reader messages_list_i64_reader(const messages_list_i64 *value) {
    return postcard_reader_over(value->encoded.bytes, value->encoded.size);
}

typedef struct Calibration {
    double matrix[2][2];
    messages_list_i64 offsets;
} Calibration;
postcard_status Calibration_put(postcard_writer *writer, const Calibration *value);
postcard_status Calibration_get(postcard_reader *reader, Calibration *value);
/* Calibration has no greatest size, since a text, a list or a map has no capacity. */
static inline postcard_status Calibration_encode(const Calibration *value, void *message, size_t size, size_t *count) {
    postcard_writer writer = postcard_writer_over(message, size);
    Calibration_put(&writer, value);
    *count = writer.needed;
    return writer.status;
}
static inline postcard_status Calibration_decode(Calibration *value, const void *message, size_t size) {
    postcard_reader reader = postcard_reader_over(message, size);
    if (Calibration_get(&reader, value) == POSTCARD_OK && reader.at != reader.size) reader.status = POSTCARD_NO_VALUE;
    return reader.status;
}

typedef struct messages_list_u64 { size_t count; const uint64_t *items; postcard_slice encoded; } messages_list_u64;
postcard_status messages_list_u64_put(postcard_writer *writer, const messages_list_u64 *value);
postcard_status messages_list_u64_get(postcard_reader *reader, messages_list_u64 *value);
bool messages_list_u64_next(postcard_reader *reader, uint64_t *item);
static inline postcard_reader messages_list_u64_reader(const messages_list_u64 *value) {
    return postcard_reader_over(value->encoded.bytes, value->encoded.size);
}

typedef struct Crash {
    uint64_t pc;
    uint32_t registers[4];
    messages_option_str message;
    messages_list_u64 backtrace;
} Crash;
postcard_status Crash_put(postcard_writer *writer, const Crash *value);
postcard_status Crash_get(postcard_reader *reader, Crash *value);
/* Crash has no greatest size, since a text, a list or a map has no capacity. */
static inline postcard_status Crash_encode(const Crash *value, void *message, size_t size, size_t *count) {
    postcard_writer writer = postcard_writer_over(message, size);
    Crash_put(&writer, value);
    *count = writer.needed;
    return writer.status;
}
static inline postcard_status Crash_decode(Crash *value, const void *message, size_t size) {
    postcard_reader reader = postcard_reader_over(message, size);
    if (Crash_get(&reader, value) == POSTCARD_OK && reader.at != reader.size) reader.status = POSTCARD_NO_VALUE;
    return reader.status;
}

typedef struct messages_list_u16 { size_t count; const uint16_t *items; postcard_slice encoded; } messages_list_u16;
postcard_status messages_list_u16_put(postcard_writer *writer, const messages_list_u16 *value);
postcard_status messages_list_u16_get(postcard_reader *reader, messages_list_u16 *value);
bool messages_list_u16_next(postcard_reader *reader, uint16_t *item);
static inline postcard_reader messages_list_u16_reader(const messages_list_u16 *value) {
    return postcard_reader_over(value->encoded.bytes, value->encoded.size);
}

typedef enum Cause { /* the numbers of the variants in a message */
    Cause_IllegalAddress = 0,
    Cause_Busy = 1
} Cause;
postcard_status Cause_put(postcard_writer *writer, const Cause *value);
postcard_status Cause_get(postcard_reader *reader, Cause *value);
#define Cause_MAX_SIZE 1u
static inline postcard_status Cause_encode(const Cause *value, void *message, size_t size, size_t *count) {
    postcard_writer writer = postcard_writer_over(message, size);
    Cause_put(&writer, value);
    *count = writer.needed;
    return writer.status;
}
static inline postcard_status Cause_decode(Cause *value, const void *message, size_t size) {
    postcard_reader reader = postcard_reader_over(message, size);
    if (Cause_get(&reader, value) == POSTCARD_OK && reader.at != reader.size) reader.status = POSTCARD_NO_VALUE;
    return reader.status;
}
#define Cause_FRAME_SIZE POSTCARD_FRAME_SIZE(Cause_MAX_SIZE)
static inline postcard_status Cause_frame(const Cause *value, uint8_t *frame, size_t size, size_t *count) {
    uint8_t message[1];
    size_t used = 0;
    postcard_status status = Cause_encode(value, message, sizeof message, &used);
    return status == POSTCARD_OK ? postcard_cobs_encode(message, used, frame, size, count) : status;
}

typedef enum FieldBus_tag { /* the numbers of the variants in a message */
    FieldBus_Read = 0,
    FieldBus_Write = 1,
    FieldBus_Refused = 2
} FieldBus_tag;
typedef struct FieldBus {
    FieldBus_tag tag;
    union {
        struct {
            uint8_t unit;
            uint16_t start;
            uint16_t count;
        } read;
        struct {
            uint8_t _0;
            uint16_t _1;
            messages_list_u16 _2;
        } write;
        struct {
            uint8_t _0;
            Cause _1;
        } refused;
    } as;
} FieldBus;
postcard_status FieldBus_put(postcard_writer *writer, const FieldBus *value);
postcard_status FieldBus_get(postcard_reader *reader, FieldBus *value);
/* FieldBus has no greatest size, since a text, a list or a map has no capacity. */
static inline postcard_status FieldBus_encode(const FieldBus *value, void *message, size_t size, size_t *count) {
    postcard_writer writer = postcard_writer_over(message, size);
    FieldBus_put(&writer, value);
    *count = writer.needed;
    return writer.status;
}
static inline postcard_status FieldBus_decode(FieldBus *value, const void *message, size_t size) {
    postcard_reader reader = postcard_reader_over(message, size);
    if (FieldBus_get(&reader, value) == POSTCARD_OK && reader.at != reader.size) reader.status = POSTCARD_NO_VALUE;
    return reader.status;
}

typedef enum Change_tag { /* the numbers of the variants in a message */
    Change_Put = 0,
    Change_Delete = 1
} Change_tag;
typedef struct Change {
    Change_tag tag;
    union {
        postcard_slice put;
    } as;
} Change;
postcard_status Change_put(postcard_writer *writer, const Change *value);
postcard_status Change_get(postcard_reader *reader, Change *value);
/* Change has no greatest size, since a text, a list or a map has no capacity. */
static inline postcard_status Change_encode(const Change *value, void *message, size_t size, size_t *count) {
    postcard_writer writer = postcard_writer_over(message, size);
    Change_put(&writer, value);
    *count = writer.needed;
    return writer.status;
}
static inline postcard_status Change_decode(Change *value, const void *message, size_t size) {
    postcard_reader reader = postcard_reader_over(message, size);
    if (Change_get(&reader, value) == POSTCARD_OK && reader.at != reader.size) reader.status = POSTCARD_NO_VALUE;
    return reader.status;
}

typedef struct messages_tuple2_str_Change { postcard_slice _0; Change _1; } messages_tuple2_str_Change;
postcard_status messages_tuple2_str_Change_put(postcard_writer *writer, const messages_tuple2_str_Change *value);
postcard_status messages_tuple2_str_Change_get(postcard_reader *reader, messages_tuple2_str_Change *value);

typedef struct Batch { size_t count; const messages_tuple2_str_Change *items; postcard_slice encoded; } Batch;
postcard_status Batch_put(postcard_writer *writer, const Batch *value);
postcard_status Batch_get(postcard_reader *reader, Batch *value);
bool Batch_next(postcard_reader *reader, messages_tuple2_str_Change *item);
static inline postcard_reader Batch_reader(const Batch *value) {
    return postcard_reader_over(value->encoded.bytes, value->encoded.size);
}
/* Batch has no greatest size, since a text, a list or a map has no capacity. */
static inline postcard_status Batch_encode(const Batch *value, void *message, size_t size, size_t *count) {
    postcard_writer writer = postcard_writer_over(message, size);
    Batch_put(&writer, value);
    *count = writer.needed;
    return writer.status;
}
static inline postcard_status Batch_decode(Batch *value, const void *message, size_t size) {
    postcard_reader reader = postcard_reader_over(message, size);
    if (Batch_get(&reader, value) == POSTCARD_OK && reader.at != reader.size) reader.status = POSTCARD_NO_VALUE;
    return reader.status;
}

typedef struct Samples {
    uint8_t channel;
    messages_list_u16 samples;
} Samples;
postcard_status Samples_put(postcard_writer *writer, const Samples *value);
postcard_status Samples_get(postcard_reader *reader, Samples *value);
/* Samples has no greatest size, since a text, a list or a map has no capacity. */
static inline postcard_status Samples_encode(const Samples *value, void *message, size_t size, size_t *count) {
    postcard_writer writer = postcard_writer_over(message, size);
    Samples_put(&writer, value);
    *count = writer.needed;
    return writer.status;
}
static inline postcard_status Samples_decode(Samples *value, const void *message, size_t size) {
    postcard_reader reader = postcard_reader_over(message, size);
    if (Samples_get(&reader, value) == POSTCARD_OK && reader.at != reader.size) reader.status = POSTCARD_NO_VALUE;
    return reader.status;
}

typedef struct Note {
    postcard_slice from;
    postcard_slice body;
} Note;
postcard_status Note_put(postcard_writer *writer, const Note *value);
postcard_status Note_get(postcard_reader *reader, Note *value);
/* Note has no greatest size, since a text, a list or a map has no capacity. */
static inline postcard_status Note_encode(const Note *value, void *message, size_t size, size_t *count) {
    postcard_writer writer = postcard_writer_over(message, size);
    Note_put(&writer, value);
    *count = writer.needed;
    return writer.status;
}
static inline postcard_status Note_decode(Note *value, const void *message, size_t size) {
    postcard_reader reader = postcard_reader_over(message, size);
    if (Note_get(&reader, value) == POSTCARD_OK && reader.at != reader.size) reader.status = POSTCARD_NO_VALUE;
    return reader.status;
}

typedef struct Advertisement {
    uint8_t address[6];
    int8_t rssi;
    messages_option_str name;
    messages_list_u16 services;
} Advertisement;
postcard_status Advertisement_put(postcard_writer *writer, const Advertisement *value);
postcard_status Advertisement_get(postcard_reader *reader, Advertisement *value);
/* Advertisement has no greatest size, since a text, a list or a map has no capacity. */
static inline postcard_status Advertisement_encode(const Advertisement *value, void *message, size_t size, size_t *count) {
    postcard_writer writer = postcard_writer_over(message, size);
    Advertisement_put(&writer, value);
    *count = writer.needed;
    return writer.status;
}
static inline postcard_status Advertisement_decode(Advertisement *value, const void *message, size_t size) {
    postcard_reader reader = postcard_reader_over(message, size);
    if (Advertisement_get(&reader, value) == POSTCARD_OK && reader.at != reader.size) reader.status = POSTCARD_NO_VALUE;
    return reader.status;
}

typedef enum Task_tag { /* the numbers of the variants in a message */
    Task_Idle = 0,
    Task_Running = 1,
    Task_Failed = 2
} Task_tag;
typedef struct Task {
    Task_tag tag;
    union {
        struct {
            uint16_t task;
            uint64_t since;
        } running;
        postcard_slice failed;
    } as;
} Task;
postcard_status Task_put(postcard_writer *writer, const Task *value);
postcard_status Task_get(postcard_reader *reader, Task *value);
/* Task has no greatest size, since a text, a list or a map has no capacity. */
static inline postcard_status Task_encode(const Task *value, void *message, size_t size, size_t *count) {
    postcard_writer writer = postcard_writer_over(message, size);
    Task_put(&writer, value);
    *count = writer.needed;
    return writer.status;
}
static inline postcard_status Task_decode(Task *value, const void *message, size_t size) {
    postcard_reader reader = postcard_reader_over(message, size);
    if (Task_get(&reader, value) == POSTCARD_OK && reader.at != reader.size) reader.status = POSTCARD_NO_VALUE;
    return reader.status;
}

typedef struct Lock {
    uint8_t nothing_;
} Lock;
postcard_status Lock_put(postcard_writer *writer, const Lock *value);
postcard_status Lock_get(postcard_reader *reader, Lock *value);
#define Lock_MAX_SIZE 0u
static inline postcard_status Lock_encode(const Lock *value, void *message, size_t size, size_t *count) {
    postcard_writer writer = postcard_writer_over(message, size);
    Lock_put(&writer, value);
    *count = writer.needed;
    return writer.status;
}
static inline postcard_status Lock_decode(Lock *value, const void *message, size_t size) {
    postcard_reader reader = postcard_reader_over(message, size);
    if (Lock_get(&reader, value) == POSTCARD_OK && reader.at != reader.size) reader.status = POSTCARD_NO_VALUE;
    return reader.status;
}
#define Lock_FRAME_SIZE POSTCARD_FRAME_SIZE(Lock_MAX_SIZE)
static inline postcard_status Lock_frame(const Lock *value, uint8_t *frame, size_t size, size_t *count) {
    uint8_t message[1];
    size_t used = 0;
    postcard_status status = Lock_encode(value, message, sizeof message, &used);
    return status == POSTCARD_OK ? postcard_cobs_encode(message, used, frame, size, count) : status;
}

typedef struct Scheduler {
    Task state;
    messages_list_u16 queue;
    Lock lock;
} Scheduler;
postcard_status Scheduler_put(postcard_writer *writer, const Scheduler *value);
postcard_status Scheduler_get(postcard_reader *reader, Scheduler *value);
/* Scheduler has no greatest size, since a text, a list or a map has no capacity. */
static inline postcard_status Scheduler_encode(const Scheduler *value, void *message, size_t size, size_t *count) {
    postcard_writer writer = postcard_writer_over(message, size);
    Scheduler_put(&writer, value);
    *count = writer.needed;
    return writer.status;
}
static inline postcard_status Scheduler_decode(Scheduler *value, const void *message, size_t size) {
    postcard_reader reader = postcard_reader_over(message, size);
    if (Scheduler_get(&reader, value) == POSTCARD_OK && reader.at != reader.size) reader.status = POSTCARD_NO_VALUE;
    return reader.status;
}

typedef struct Statistics {
    float min_;
    float max_;
    double mean;
    double last;
} Statistics;
postcard_status Statistics_put(postcard_writer *writer, const Statistics *value);
postcard_status Statistics_get(postcard_reader *reader, Statistics *value);
#define Statistics_MAX_SIZE 24u
static inline postcard_status Statistics_encode(const Statistics *value, void *message, size_t size, size_t *count) {
    postcard_writer writer = postcard_writer_over(message, size);
    Statistics_put(&writer, value);
    *count = writer.needed;
    return writer.status;
}
static inline postcard_status Statistics_decode(Statistics *value, const void *message, size_t size) {
    postcard_reader reader = postcard_reader_over(message, size);
    if (Statistics_get(&reader, value) == POSTCARD_OK && reader.at != reader.size) reader.status = POSTCARD_NO_VALUE;
    return reader.status;
}
#define Statistics_FRAME_SIZE POSTCARD_FRAME_SIZE(Statistics_MAX_SIZE)
static inline postcard_status Statistics_frame(const Statistics *value, uint8_t *frame, size_t size, size_t *count) {
    uint8_t message[24];
    size_t used = 0;
    postcard_status status = Statistics_encode(value, message, sizeof message, &used);
    return status == POSTCARD_OK ? postcard_cobs_encode(message, used, frame, size, count) : status;
}

typedef struct Counters {
    uint64_t sent;
    uint64_t received;
    postcard_u128 balance;
} Counters;
postcard_status Counters_put(postcard_writer *writer, const Counters *value);
postcard_status Counters_get(postcard_reader *reader, Counters *value);
#define Counters_MAX_SIZE 39u
static inline postcard_status Counters_encode(const Counters *value, void *message, size_t size, size_t *count) {
    postcard_writer writer = postcard_writer_over(message, size);
    Counters_put(&writer, value);
    *count = writer.needed;
    return writer.status;
}
static inline postcard_status Counters_decode(Counters *value, const void *message, size_t size) {
    postcard_reader reader = postcard_reader_over(message, size);
    if (Counters_get(&reader, value) == POSTCARD_OK && reader.at != reader.size) reader.status = POSTCARD_NO_VALUE;
    return reader.status;
}
#define Counters_FRAME_SIZE POSTCARD_FRAME_SIZE(Counters_MAX_SIZE)
static inline postcard_status Counters_frame(const Counters *value, uint8_t *frame, size_t size, size_t *count) {
    uint8_t message[39];
    size_t used = 0;
    postcard_status status = Counters_encode(value, message, sizeof message, &used);
    return status == POSTCARD_OK ? postcard_cobs_encode(message, used, frame, size, count) : status;
}

typedef int16_t Rpm;
typedef uint16_t FaultCode;
typedef uint16_t RequestId;

#ifdef __cplusplus
}
#endif
#endif
