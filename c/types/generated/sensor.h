/* Messages of sensor.rs, as structs of C99 and C++. Written by `pcard c`: don't edit it, but write it again.
 *
 * Each call returns 0 or a status of postcard.h. Of a type T,
 *   - T_put and T_get write and read a value among others, and T_encode and T_decode a whole message, after which nothing may follow;
 *   - T_encode sets *count to the size that the message needs, also where it has no room and fails with POSTCARD_BUFFER_FULL;
 *   - T_frame writes the message as a frame, its zero included, and takes T_MAX_SIZE bytes of stack;
 *   - T_MAX_SIZE and T_FRAME_SIZE are the bytes of the longest message and frame;
 *   - of a list without a capacity, T_reader and T_next give the elements that were read one by one. They are lent as `encoded`, and
 *     `items` is NULL. To write a list, set `items`, or leave both as they were read.
 *
 * Writing fails with POSTCARD_BAD_VALUE if a tag, a count or a size is none of the type. A `postcard_slice` that was read lies in the
 * message. After a failure a struct is read in part; its counts, flags and tags have a value. */
#ifndef SENSOR_H
#define SENSOR_H
#include "postcard.h"
#ifdef __cplusplus
extern "C" {
#endif

/* Sent each second. */
typedef struct Heartbeat {
    /* Milliseconds since the start. */
    uint64_t uptime;
    uint16_t battery;
    int16_t temp;
    uint8_t flags;
} Heartbeat;
postcard_status Heartbeat_put(postcard_writer *writer, const Heartbeat *value);
postcard_status Heartbeat_get(postcard_reader *reader, Heartbeat *value);
#define Heartbeat_MAX_SIZE 17u
static inline postcard_status Heartbeat_encode(const Heartbeat *value, void *message, size_t size, size_t *count) {
    postcard_writer writer = postcard_writer_over(message, size);
    Heartbeat_put(&writer, value);
    *count = writer.needed;
    return writer.status;
}
static inline postcard_status Heartbeat_decode(Heartbeat *value, const void *message, size_t size) {
    postcard_reader reader = postcard_reader_over(message, size);
    if (Heartbeat_get(&reader, value) == POSTCARD_OK && reader.at != reader.size) reader.status = POSTCARD_NO_VALUE;
    return reader.status;
}
#define Heartbeat_FRAME_SIZE POSTCARD_FRAME_SIZE(Heartbeat_MAX_SIZE)
static inline postcard_status Heartbeat_frame(const Heartbeat *value, uint8_t *frame, size_t size, size_t *count) {
    uint8_t message[17];
    size_t used = 0;
    postcard_status status = Heartbeat_encode(value, message, sizeof message, &used);
    return status == POSTCARD_OK ? postcard_cobs_encode(message, used, frame, size, count) : status;
}

typedef struct sensor_option_u8 { bool some; uint8_t value; } sensor_option_u8;
postcard_status sensor_option_u8_put(postcard_writer *writer, const sensor_option_u8 *value);
postcard_status sensor_option_u8_get(postcard_reader *reader, sensor_option_u8 *value);

/* Four fields: the record of docs/C_COSTS.md. */
typedef struct Record {
    uint32_t number;
    uint16_t short_;
    sensor_option_u8 byte;
    postcard_slice text;
} Record;
postcard_status Record_put(postcard_writer *writer, const Record *value);
postcard_status Record_get(postcard_reader *reader, Record *value);
/* Record has no greatest size, since a text, a list or a map has no capacity. */
static inline postcard_status Record_encode(const Record *value, void *message, size_t size, size_t *count) {
    postcard_writer writer = postcard_writer_over(message, size);
    Record_put(&writer, value);
    *count = writer.needed;
    return writer.status;
}
static inline postcard_status Record_decode(Record *value, const void *message, size_t size) {
    postcard_reader reader = postcard_reader_over(message, size);
    if (Record_get(&reader, value) == POSTCARD_OK && reader.at != reader.size) reader.status = POSTCARD_NO_VALUE;
    return reader.status;
}

typedef struct sensor_tuple3_f32_f32_f32 { float _0; float _1; float _2; } sensor_tuple3_f32_f32_f32;
postcard_status sensor_tuple3_f32_f32_f32_put(postcard_writer *writer, const sensor_tuple3_f32_f32_f32 *value);
postcard_status sensor_tuple3_f32_f32_f32_get(postcard_reader *reader, sensor_tuple3_f32_f32_f32 *value);

/* Samples of an inertial unit. */
typedef struct Imu {
    uint32_t t;
    int16_t accel[3];
    sensor_tuple3_f32_f32_f32 gyro;
    double quat[4];
} Imu;
postcard_status Imu_put(postcard_writer *writer, const Imu *value);
postcard_status Imu_get(postcard_reader *reader, Imu *value);
#define Imu_MAX_SIZE 58u
static inline postcard_status Imu_encode(const Imu *value, void *message, size_t size, size_t *count) {
    postcard_writer writer = postcard_writer_over(message, size);
    Imu_put(&writer, value);
    *count = writer.needed;
    return writer.status;
}
static inline postcard_status Imu_decode(Imu *value, const void *message, size_t size) {
    postcard_reader reader = postcard_reader_over(message, size);
    if (Imu_get(&reader, value) == POSTCARD_OK && reader.at != reader.size) reader.status = POSTCARD_NO_VALUE;
    return reader.status;
}
#define Imu_FRAME_SIZE POSTCARD_FRAME_SIZE(Imu_MAX_SIZE)
static inline postcard_status Imu_frame(const Imu *value, uint8_t *frame, size_t size, size_t *count) {
    uint8_t message[58];
    size_t used = 0;
    postcard_status status = Imu_encode(value, message, sizeof message, &used);
    return status == POSTCARD_OK ? postcard_cobs_encode(message, used, frame, size, count) : status;
}

/* A text of at most 16 bytes of UTF-8. Reading puts a NUL after it. */
typedef struct sensor_str16 { uint8_t size; char text[17]; } sensor_str16;

typedef struct sensor_tuple3_u8_u8_u16 { uint8_t _0; uint8_t _1; uint16_t _2; } sensor_tuple3_u8_u8_u16;
postcard_status sensor_tuple3_u8_u8_u16_put(postcard_writer *writer, const sensor_tuple3_u8_u8_u16 *value);
postcard_status sensor_tuple3_u8_u8_u16_get(postcard_reader *reader, sensor_tuple3_u8_u8_u16 *value);

typedef enum Class { /* the numbers of the variants in a message */
    Class_Sensor = 0,
    Class_Actuator = 1,
    Class_Gateway = 2
} Class;
postcard_status Class_put(postcard_writer *writer, const Class *value);
postcard_status Class_get(postcard_reader *reader, Class *value);
#define Class_MAX_SIZE 1u
static inline postcard_status Class_encode(const Class *value, void *message, size_t size, size_t *count) {
    postcard_writer writer = postcard_writer_over(message, size);
    Class_put(&writer, value);
    *count = writer.needed;
    return writer.status;
}
static inline postcard_status Class_decode(Class *value, const void *message, size_t size) {
    postcard_reader reader = postcard_reader_over(message, size);
    if (Class_get(&reader, value) == POSTCARD_OK && reader.at != reader.size) reader.status = POSTCARD_NO_VALUE;
    return reader.status;
}
#define Class_FRAME_SIZE POSTCARD_FRAME_SIZE(Class_MAX_SIZE)
static inline postcard_status Class_frame(const Class *value, uint8_t *frame, size_t size, size_t *count) {
    uint8_t message[1];
    size_t used = 0;
    postcard_status status = Class_encode(value, message, sizeof message, &used);
    return status == POSTCARD_OK ? postcard_cobs_encode(message, used, frame, size, count) : status;
}

/* What the node is. */
typedef struct Info {
    postcard_u128 serial;
    uint8_t mac[6];
    sensor_str16 name;
    sensor_tuple3_u8_u8_u16 version;
    Class class_;
} Info;
postcard_status Info_put(postcard_writer *writer, const Info *value);
postcard_status Info_get(postcard_reader *reader, Info *value);
#define Info_MAX_SIZE 48u
static inline postcard_status Info_encode(const Info *value, void *message, size_t size, size_t *count) {
    postcard_writer writer = postcard_writer_over(message, size);
    Info_put(&writer, value);
    *count = writer.needed;
    return writer.status;
}
static inline postcard_status Info_decode(Info *value, const void *message, size_t size) {
    postcard_reader reader = postcard_reader_over(message, size);
    if (Info_get(&reader, value) == POSTCARD_OK && reader.at != reader.size) reader.status = POSTCARD_NO_VALUE;
    return reader.status;
}
#define Info_FRAME_SIZE POSTCARD_FRAME_SIZE(Info_MAX_SIZE)
static inline postcard_status Info_frame(const Info *value, uint8_t *frame, size_t size, size_t *count) {
    uint8_t message[48];
    size_t used = 0;
    postcard_status status = Info_encode(value, message, sizeof message, &used);
    return status == POSTCARD_OK ? postcard_cobs_encode(message, used, frame, size, count) : status;
}

/* A part of an image of firmware. */
typedef struct Chunk {
    uint32_t offset;
    int16_t check;
    postcard_slice data;
} Chunk;
postcard_status Chunk_put(postcard_writer *writer, const Chunk *value);
postcard_status Chunk_get(postcard_reader *reader, Chunk *value);
/* Chunk has no greatest size, since a text, a list or a map has no capacity. */
static inline postcard_status Chunk_encode(const Chunk *value, void *message, size_t size, size_t *count) {
    postcard_writer writer = postcard_writer_over(message, size);
    Chunk_put(&writer, value);
    *count = writer.needed;
    return writer.status;
}
static inline postcard_status Chunk_decode(Chunk *value, const void *message, size_t size) {
    postcard_reader reader = postcard_reader_over(message, size);
    if (Chunk_get(&reader, value) == POSTCARD_OK && reader.at != reader.size) reader.status = POSTCARD_NO_VALUE;
    return reader.status;
}

/* A text of at most 8 bytes of UTF-8. Reading puts a NUL after it. */
typedef struct sensor_str8 { uint8_t size; char text[9]; } sensor_str8;

typedef enum Arg_tag { /* the numbers of the variants in a message */
    Arg_Int = 0,
    Arg_Float = 1,
    Arg_Char = 2,
    Arg_Flag = 3,
    Arg_Name = 4
} Arg_tag;
typedef struct Arg {
    Arg_tag tag;
    union {
        int64_t int_;
        double float_;
        uint32_t char_;
        bool flag;
        sensor_str8 name;
    } as;
} Arg;
postcard_status Arg_put(postcard_writer *writer, const Arg *value);
postcard_status Arg_get(postcard_reader *reader, Arg *value);
#define Arg_MAX_SIZE 11u
static inline postcard_status Arg_encode(const Arg *value, void *message, size_t size, size_t *count) {
    postcard_writer writer = postcard_writer_over(message, size);
    Arg_put(&writer, value);
    *count = writer.needed;
    return writer.status;
}
static inline postcard_status Arg_decode(Arg *value, const void *message, size_t size) {
    postcard_reader reader = postcard_reader_over(message, size);
    if (Arg_get(&reader, value) == POSTCARD_OK && reader.at != reader.size) reader.status = POSTCARD_NO_VALUE;
    return reader.status;
}
#define Arg_FRAME_SIZE POSTCARD_FRAME_SIZE(Arg_MAX_SIZE)
static inline postcard_status Arg_frame(const Arg *value, uint8_t *frame, size_t size, size_t *count) {
    uint8_t message[11];
    size_t used = 0;
    postcard_status status = Arg_encode(value, message, sizeof message, &used);
    return status == POSTCARD_OK ? postcard_cobs_encode(message, used, frame, size, count) : status;
}

typedef struct sensor_list4_Arg { uint8_t count; Arg items[4]; } sensor_list4_Arg;
postcard_status sensor_list4_Arg_put(postcard_writer *writer, const sensor_list4_Arg *value);
postcard_status sensor_list4_Arg_get(postcard_reader *reader, sensor_list4_Arg *value);

/* A line of a log. */
typedef enum Log_tag { /* the numbers of the variants in a message */
    Log_Text = 0,
    /* The number of a text, with its arguments. */
    Log_Coded = 1,
    Log_Dropped = 2,
    Log_Silence = 3
} Log_tag;
typedef struct Log {
    Log_tag tag;
    union {
        postcard_slice text;
        struct {
            uint16_t code;
            sensor_list4_Arg args;
        } coded;
        uint32_t dropped;
    } as;
} Log;
postcard_status Log_put(postcard_writer *writer, const Log *value);
postcard_status Log_get(postcard_reader *reader, Log *value);
/* Log has no greatest size, since a text, a list or a map has no capacity. */
static inline postcard_status Log_encode(const Log *value, void *message, size_t size, size_t *count) {
    postcard_writer writer = postcard_writer_over(message, size);
    Log_put(&writer, value);
    *count = writer.needed;
    return writer.status;
}
static inline postcard_status Log_decode(Log *value, const void *message, size_t size) {
    postcard_reader reader = postcard_reader_over(message, size);
    if (Log_get(&reader, value) == POSTCARD_OK && reader.at != reader.size) reader.status = POSTCARD_NO_VALUE;
    return reader.status;
}

typedef struct sensor_tuple2_i32_i32 { int32_t _0; int32_t _1; } sensor_tuple2_i32_i32;
postcard_status sensor_tuple2_i32_i32_put(postcard_writer *writer, const sensor_tuple2_i32_i32 *value);
postcard_status sensor_tuple2_i32_i32_get(postcard_reader *reader, sensor_tuple2_i32_i32 *value);

typedef struct sensor_option_tuple2_i32_i32 { bool some; sensor_tuple2_i32_i32 value; } sensor_option_tuple2_i32_i32;
postcard_status sensor_option_tuple2_i32_i32_put(postcard_writer *writer, const sensor_option_tuple2_i32_i32 *value);
postcard_status sensor_option_tuple2_i32_i32_get(postcard_reader *reader, sensor_option_tuple2_i32_i32 *value);

typedef struct Setting {
    int32_t value;
    sensor_option_tuple2_i32_i32 limits;
    uint32_t unit;
} Setting;
postcard_status Setting_put(postcard_writer *writer, const Setting *value);
postcard_status Setting_get(postcard_reader *reader, Setting *value);
#define Setting_MAX_SIZE 21u
static inline postcard_status Setting_encode(const Setting *value, void *message, size_t size, size_t *count) {
    postcard_writer writer = postcard_writer_over(message, size);
    Setting_put(&writer, value);
    *count = writer.needed;
    return writer.status;
}
static inline postcard_status Setting_decode(Setting *value, const void *message, size_t size) {
    postcard_reader reader = postcard_reader_over(message, size);
    if (Setting_get(&reader, value) == POSTCARD_OK && reader.at != reader.size) reader.status = POSTCARD_NO_VALUE;
    return reader.status;
}
#define Setting_FRAME_SIZE POSTCARD_FRAME_SIZE(Setting_MAX_SIZE)
static inline postcard_status Setting_frame(const Setting *value, uint8_t *frame, size_t size, size_t *count) {
    uint8_t message[21];
    size_t used = 0;
    postcard_status status = Setting_encode(value, message, sizeof message, &used);
    return status == POSTCARD_OK ? postcard_cobs_encode(message, used, frame, size, count) : status;
}

typedef struct sensor_tuple2_u8_Setting { uint8_t _0; Setting _1; } sensor_tuple2_u8_Setting;
postcard_status sensor_tuple2_u8_Setting_put(postcard_writer *writer, const sensor_tuple2_u8_Setting *value);
postcard_status sensor_tuple2_u8_Setting_get(postcard_reader *reader, sensor_tuple2_u8_Setting *value);

typedef struct sensor_map8_u8_Setting { uint8_t count; sensor_tuple2_u8_Setting items[8]; } sensor_map8_u8_Setting;
postcard_status sensor_map8_u8_Setting_put(postcard_writer *writer, const sensor_map8_u8_Setting *value);
postcard_status sensor_map8_u8_Setting_get(postcard_reader *reader, sensor_map8_u8_Setting *value);

typedef struct sensor_option_u16 { bool some; uint16_t value; } sensor_option_u16;
postcard_status sensor_option_u16_put(postcard_writer *writer, const sensor_option_u16 *value);
postcard_status sensor_option_u16_get(postcard_reader *reader, sensor_option_u16 *value);

typedef struct sensor_option_option_u16 { bool some; sensor_option_u16 value; } sensor_option_option_u16;
postcard_status sensor_option_option_u16_put(postcard_writer *writer, const sensor_option_option_u16 *value);
postcard_status sensor_option_option_u16_get(postcard_reader *reader, sensor_option_option_u16 *value);

/* Settings, by their number. */
typedef struct Settings {
    sensor_map8_u8_Setting values;
    sensor_option_option_u16 old;
} Settings;
postcard_status Settings_put(postcard_writer *writer, const Settings *value);
postcard_status Settings_get(postcard_reader *reader, Settings *value);
#define Settings_MAX_SIZE 182u
static inline postcard_status Settings_encode(const Settings *value, void *message, size_t size, size_t *count) {
    postcard_writer writer = postcard_writer_over(message, size);
    Settings_put(&writer, value);
    *count = writer.needed;
    return writer.status;
}
static inline postcard_status Settings_decode(Settings *value, const void *message, size_t size) {
    postcard_reader reader = postcard_reader_over(message, size);
    if (Settings_get(&reader, value) == POSTCARD_OK && reader.at != reader.size) reader.status = POSTCARD_NO_VALUE;
    return reader.status;
}
#define Settings_FRAME_SIZE POSTCARD_FRAME_SIZE(Settings_MAX_SIZE)
static inline postcard_status Settings_frame(const Settings *value, uint8_t *frame, size_t size, size_t *count) {
    uint8_t message[182];
    size_t used = 0;
    postcard_status status = Settings_encode(value, message, sizeof message, &used);
    return status == POSTCARD_OK ? postcard_cobs_encode(message, used, frame, size, count) : status;
}

typedef struct sensor_option_u32 { bool some; uint32_t value; } sensor_option_u32;
postcard_status sensor_option_u32_put(postcard_writer *writer, const sensor_option_u32 *value);
postcard_status sensor_option_u32_get(postcard_reader *reader, sensor_option_u32 *value);

typedef enum Fault_tag { /* the numbers of the variants in a message */
    Fault_Timeout = 0,
    Fault_Busy = 1,
    Fault_Refused = 2,
    Fault_Range = 3
} Fault_tag;
typedef struct Fault {
    Fault_tag tag;
    union {
        sensor_str16 refused;
        struct {
            int8_t min_;
            int8_t max_;
            postcard_u128 double_;
        } range;
    } as;
} Fault;
postcard_status Fault_put(postcard_writer *writer, const Fault *value);
postcard_status Fault_get(postcard_reader *reader, Fault *value);
#define Fault_MAX_SIZE 22u
static inline postcard_status Fault_encode(const Fault *value, void *message, size_t size, size_t *count) {
    postcard_writer writer = postcard_writer_over(message, size);
    Fault_put(&writer, value);
    *count = writer.needed;
    return writer.status;
}
static inline postcard_status Fault_decode(Fault *value, const void *message, size_t size) {
    postcard_reader reader = postcard_reader_over(message, size);
    if (Fault_get(&reader, value) == POSTCARD_OK && reader.at != reader.size) reader.status = POSTCARD_NO_VALUE;
    return reader.status;
}
#define Fault_FRAME_SIZE POSTCARD_FRAME_SIZE(Fault_MAX_SIZE)
static inline postcard_status Fault_frame(const Fault *value, uint8_t *frame, size_t size, size_t *count) {
    uint8_t message[22];
    size_t used = 0;
    postcard_status status = Fault_encode(value, message, sizeof message, &used);
    return status == POSTCARD_OK ? postcard_cobs_encode(message, used, frame, size, count) : status;
}

typedef struct sensor_result_option_u32_Fault { bool is_ok; union { sensor_option_u32 ok; Fault err; } as; } sensor_result_option_u32_Fault;
postcard_status sensor_result_option_u32_Fault_put(postcard_writer *writer, const sensor_result_option_u32_Fault *value);
postcard_status sensor_result_option_u32_Fault_get(postcard_reader *reader, sensor_result_option_u32_Fault *value);

typedef struct Mark {
    uint8_t nothing_;
} Mark;
postcard_status Mark_put(postcard_writer *writer, const Mark *value);
postcard_status Mark_get(postcard_reader *reader, Mark *value);
#define Mark_MAX_SIZE 0u
static inline postcard_status Mark_encode(const Mark *value, void *message, size_t size, size_t *count) {
    postcard_writer writer = postcard_writer_over(message, size);
    Mark_put(&writer, value);
    *count = writer.needed;
    return writer.status;
}
static inline postcard_status Mark_decode(Mark *value, const void *message, size_t size) {
    postcard_reader reader = postcard_reader_over(message, size);
    if (Mark_get(&reader, value) == POSTCARD_OK && reader.at != reader.size) reader.status = POSTCARD_NO_VALUE;
    return reader.status;
}
#define Mark_FRAME_SIZE POSTCARD_FRAME_SIZE(Mark_MAX_SIZE)
static inline postcard_status Mark_frame(const Mark *value, uint8_t *frame, size_t size, size_t *count) {
    uint8_t message[1];
    size_t used = 0;
    postcard_status status = Mark_encode(value, message, sizeof message, &used);
    return status == POSTCARD_OK ? postcard_cobs_encode(message, used, frame, size, count) : status;
}

/* An answer. */
typedef struct Answer {
    uint16_t id;
    sensor_result_option_u32_Fault result;
    /* unit has no bytes */
    Mark mark;
} Answer;
postcard_status Answer_put(postcard_writer *writer, const Answer *value);
postcard_status Answer_get(postcard_reader *reader, Answer *value);
#define Answer_MAX_SIZE 26u
static inline postcard_status Answer_encode(const Answer *value, void *message, size_t size, size_t *count) {
    postcard_writer writer = postcard_writer_over(message, size);
    Answer_put(&writer, value);
    *count = writer.needed;
    return writer.status;
}
static inline postcard_status Answer_decode(Answer *value, const void *message, size_t size) {
    postcard_reader reader = postcard_reader_over(message, size);
    if (Answer_get(&reader, value) == POSTCARD_OK && reader.at != reader.size) reader.status = POSTCARD_NO_VALUE;
    return reader.status;
}
#define Answer_FRAME_SIZE POSTCARD_FRAME_SIZE(Answer_MAX_SIZE)
static inline postcard_status Answer_frame(const Answer *value, uint8_t *frame, size_t size, size_t *count) {
    uint8_t message[26];
    size_t used = 0;
    postcard_status status = Answer_encode(value, message, sizeof message, &used);
    return status == POSTCARD_OK ? postcard_cobs_encode(message, used, frame, size, count) : status;
}

typedef struct sensor_list5_str16 { uint8_t count; sensor_str16 items[5]; } sensor_list5_str16;
postcard_status sensor_list5_str16_put(postcard_writer *writer, const sensor_list5_str16 *value);
postcard_status sensor_list5_str16_get(postcard_reader *reader, sensor_list5_str16 *value);

typedef struct sensor_bytes12 { uint8_t count; uint8_t items[12]; } sensor_bytes12;

/* All that is sent. */
typedef enum Message_tag { /* the numbers of the variants in a message */
    Message_Heartbeat = 0,
    Message_Record = 1,
    Message_Imu = 2,
    Message_Info = 3,
    Message_Chunk = 4,
    Message_Log = 5,
    Message_Settings = 6,
    Message_Answer = 7,
    Message_Names = 8,
    Message_Tiny = 9
} Message_tag;
typedef struct Message {
    Message_tag tag;
    union {
        Heartbeat heartbeat;
        Record record;
        Imu imu;
        Info info;
        Chunk chunk;
        Log log;
        Settings settings;
        Answer answer;
        sensor_list5_str16 names;
        struct {
            sensor_bytes12 _0;
            bool _1;
            int8_t _2;
            uint64_t _3;
        } tiny;
    } as;
} Message;
postcard_status Message_put(postcard_writer *writer, const Message *value);
postcard_status Message_get(postcard_reader *reader, Message *value);
/* Message has no greatest size, since a text, a list or a map has no capacity. */
static inline postcard_status Message_encode(const Message *value, void *message, size_t size, size_t *count) {
    postcard_writer writer = postcard_writer_over(message, size);
    Message_put(&writer, value);
    *count = writer.needed;
    return writer.status;
}
static inline postcard_status Message_decode(Message *value, const void *message, size_t size) {
    postcard_reader reader = postcard_reader_over(message, size);
    if (Message_get(&reader, value) == POSTCARD_OK && reader.at != reader.size) reader.status = POSTCARD_NO_VALUE;
    return reader.status;
}

#ifdef __cplusplus
}
#endif
#endif
