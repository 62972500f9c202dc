/* Messages of sensor.rs. Written by `pcard c`: don't edit it, but write it again. */
#include "sensor.h"

/* Fails since a value is none of its type. */
static void bad_value_(postcard_writer *writer) {
    if (writer->status == POSTCARD_OK) writer->status = POSTCARD_BAD_VALUE;
}

/* Fails since what begins at a place is no value of the type. */
static void bad_message_(postcard_reader *reader, size_t start) {
    if (reader->status == POSTCARD_OK) reader->at = start, reader->status = POSTCARD_NO_VALUE;
}

static size_t get_text_(postcard_reader *reader, char *text, size_t most) {
    postcard_slice found = {NULL, 0};
    size_t start = reader->at;
    if (postcard_get_str(reader, &found) == POSTCARD_OK && found.size > most) bad_message_(reader, start);
    if (reader->status != POSTCARD_OK) found.size = 0;
    if (found.size) memcpy(text, found.bytes, found.size);
    text[found.size] = 0;
    return found.size;
}

static size_t get_bytes_(postcard_reader *reader, uint8_t *items, size_t most) {
    postcard_slice found = {NULL, 0};
    size_t start = reader->at;
    if (postcard_get_bytes(reader, &found) == POSTCARD_OK && found.size > most) bad_message_(reader, start);
    if (reader->status != POSTCARD_OK) found.size = 0;
    if (found.size) memcpy(items, found.bytes, found.size);
    return found.size;
}

static void get_array_(postcard_reader *reader, uint8_t *items, size_t size) {
    postcard_slice found = {NULL, 0};
    memset(items, 0, size);
    if (postcard_get_raw(reader, size, &found) == POSTCARD_OK) memcpy(items, found.bytes, size);
}

postcard_status Heartbeat_put(postcard_writer *writer, const Heartbeat *value) {
    postcard_put_u64(writer, value->uptime);
    postcard_put_u16(writer, value->battery);
    postcard_put_i16(writer, value->temp);
    postcard_put_u8(writer, value->flags);
    return writer->status;
}

postcard_status Heartbeat_get(postcard_reader *reader, Heartbeat *value) {
    value->uptime = 0;
    postcard_get_u64(reader, &value->uptime);
    value->battery = 0;
    postcard_get_u16(reader, &value->battery);
    value->temp = 0;
    postcard_get_i16(reader, &value->temp);
    value->flags = 0;
    postcard_get_u8(reader, &value->flags);
    return reader->status;
}

postcard_status sensor_option_u8_put(postcard_writer *writer, const sensor_option_u8 *value) {
    if (value->some) {
        postcard_put_some(writer);
        postcard_put_u8(writer, value->value);
    } else {
        postcard_put_none(writer);
    }
    return writer->status;
}

postcard_status sensor_option_u8_get(postcard_reader *reader, sensor_option_u8 *value) {
    value->some = false;
    postcard_get_option(reader, &value->some);
    if (value->some) {
        value->value = 0;
        postcard_get_u8(reader, &value->value);
    }
    return reader->status;
}

postcard_status Record_put(postcard_writer *writer, const Record *value) {
    postcard_put_u32(writer, value->number);
    postcard_put_u16(writer, value->short_);
    if (value->byte.some) {
        postcard_put_some(writer);
        postcard_put_u8(writer, value->byte.value);
    } else {
        postcard_put_none(writer);
    }
    postcard_put_str(writer, (const char *)value->text.bytes, value->text.size);
    return writer->status;
}

postcard_status Record_get(postcard_reader *reader, Record *value) {
    value->number = 0;
    postcard_get_u32(reader, &value->number);
    value->short_ = 0;
    postcard_get_u16(reader, &value->short_);
    value->byte.some = false;
    postcard_get_option(reader, &value->byte.some);
    if (value->byte.some) {
        value->byte.value = 0;
        postcard_get_u8(reader, &value->byte.value);
    }
    value->text.bytes = NULL, value->text.size = 0;
    postcard_get_str(reader, &value->text);
    return reader->status;
}

postcard_status sensor_tuple3_f32_f32_f32_put(postcard_writer *writer, const sensor_tuple3_f32_f32_f32 *value) {
    postcard_put_f32(writer, value->_0);
    postcard_put_f32(writer, value->_1);
    postcard_put_f32(writer, value->_2);
    return writer->status;
}

postcard_status sensor_tuple3_f32_f32_f32_get(postcard_reader *reader, sensor_tuple3_f32_f32_f32 *value) {
    value->_0 = 0;
    postcard_get_f32(reader, &value->_0);
    value->_1 = 0;
    postcard_get_f32(reader, &value->_1);
    value->_2 = 0;
    postcard_get_f32(reader, &value->_2);
    return reader->status;
}

postcard_status Imu_put(postcard_writer *writer, const Imu *value) {
    postcard_put_u32(writer, value->t);
    for (size_t i0 = 0; i0 < 3u; i0++) {
        postcard_put_i16(writer, value->accel[i0]);
    }
    postcard_put_f32(writer, value->gyro._0);
    postcard_put_f32(writer, value->gyro._1);
    postcard_put_f32(writer, value->gyro._2);
    for (size_t i0 = 0; i0 < 4u; i0++) {
        postcard_put_f64(writer, value->quat[i0]);
    }
    return writer->status;
}

postcard_status Imu_get(postcard_reader *reader, Imu *value) {
    value->t = 0;
    postcard_get_u32(reader, &value->t);
    for (size_t i0 = 0; i0 < 3u; i0++) {
        value->accel[i0] = 0;
        postcard_get_i16(reader, &value->accel[i0]);
    }
    value->gyro._0 = 0;
    postcard_get_f32(reader, &value->gyro._0);
    value->gyro._1 = 0;
    postcard_get_f32(reader, &value->gyro._1);
    value->gyro._2 = 0;
    postcard_get_f32(reader, &value->gyro._2);
    for (size_t i0 = 0; i0 < 4u; i0++) {
        value->quat[i0] = 0;
        postcard_get_f64(reader, &value->quat[i0]);
    }
    return reader->status;
}

postcard_status sensor_tuple3_u8_u8_u16_put(postcard_writer *writer, const sensor_tuple3_u8_u8_u16 *value) {
    postcard_put_u8(writer, value->_0);
    postcard_put_u8(writer, value->_1);
    postcard_put_u16(writer, value->_2);
    return writer->status;
}

postcard_status sensor_tuple3_u8_u8_u16_get(postcard_reader *reader, sensor_tuple3_u8_u8_u16 *value) {
    value->_0 = 0;
    postcard_get_u8(reader, &value->_0);
    value->_1 = 0;
    postcard_get_u8(reader, &value->_1);
    value->_2 = 0;
    postcard_get_u16(reader, &value->_2);
    return reader->status;
}

postcard_status Class_put(postcard_writer *writer, const Class *value) {
    if ((uint32_t)*value >= 3u) bad_value_(writer);
    postcard_put_variant(writer, (uint32_t)*value);
    return writer->status;
}

postcard_status Class_get(postcard_reader *reader, Class *value) {
    uint32_t index = 0;
    size_t start = reader->at;
    postcard_get_variant(reader, &index);
    if (index >= 3u) index = 0, bad_message_(reader, start);
    *value = (Class)index;
    return reader->status;
}

postcard_status Info_put(postcard_writer *writer, const Info *value) {
    postcard_put_u128(writer, value->serial.low, value->serial.high);
    postcard_put_raw(writer, value->mac, 6u);
    if (value->name.size > 16u) bad_value_(writer);
    else postcard_put_str(writer, value->name.text, value->name.size);
    postcard_put_u8(writer, value->version._0);
    postcard_put_u8(writer, value->version._1);
    postcard_put_u16(writer, value->version._2);
    Class_put(writer, &value->class_);
    return writer->status;
}

postcard_status Info_get(postcard_reader *reader, Info *value) {
    value->serial.low = value->serial.high = 0;
    postcard_get_u128(reader, &value->serial.low, &value->serial.high);
    get_array_(reader, value->mac, 6u);
    value->name.size = (uint8_t)get_text_(reader, value->name.text, 16u);
    value->version._0 = 0;
    postcard_get_u8(reader, &value->version._0);
    value->version._1 = 0;
    postcard_get_u8(reader, &value->version._1);
    value->version._2 = 0;
    postcard_get_u16(reader, &value->version._2);
    Class_get(reader, &value->class_);
    return reader->status;
}

postcard_status Chunk_put(postcard_writer *writer, const Chunk *value) {
    postcard_put_u32_le(writer, value->offset);
    postcard_put_i16_be(writer, value->check);
    postcard_put_bytes(writer, value->data.bytes, value->data.size);
    return writer->status;
}

postcard_status Chunk_get(postcard_reader *reader, Chunk *value) {
    value->offset = 0;
    postcard_get_u32_le(reader, &value->offset);
    value->check = 0;
    postcard_get_i16_be(reader, &value->check);
    value->data.bytes = NULL, value->data.size = 0;
    postcard_get_bytes(reader, &value->data);
    return reader->status;
}

postcard_status Arg_put(postcard_writer *writer, const Arg *value) {
    if ((uint32_t)value->tag >= 5u) bad_value_(writer);
    postcard_put_variant(writer, (uint32_t)value->tag);
    switch (value->tag) {
        case Arg_Int:
            postcard_put_i64(writer, value->as.int_);
            break;
        case Arg_Float:
            postcard_put_f64(writer, value->as.float_);
            break;
        case Arg_Char:
            postcard_put_char(writer, value->as.char_);
            break;
        case Arg_Flag:
            postcard_put_bool(writer, value->as.flag);
            break;
        case Arg_Name:
            if (value->as.name.size > 8u) bad_value_(writer);
            else postcard_put_str(writer, value->as.name.text, value->as.name.size);
            break;
    }
    return writer->status;
}

postcard_status Arg_get(postcard_reader *reader, Arg *value) {
    uint32_t index = 0;
    size_t start = reader->at;
    postcard_get_variant(reader, &index);
    if (index >= 5u) index = 0, bad_message_(reader, start);
    value->tag = (Arg_tag)index;
    switch (value->tag) {
        case Arg_Int:
            value->as.int_ = 0;
            postcard_get_i64(reader, &value->as.int_);
            break;
        case Arg_Float:
            value->as.float_ = 0;
            postcard_get_f64(reader, &value->as.float_);
            break;
        case Arg_Char:
            value->as.char_ = 0;
            postcard_get_char(reader, &value->as.char_);
            break;
        case Arg_Flag:
            value->as.flag = false;
            postcard_get_bool(reader, &value->as.flag);
            break;
        case Arg_Name:
            value->as.name.size = (uint8_t)get_text_(reader, value->as.name.text, 8u);
            break;
    }
    return reader->status;
}

postcard_status sensor_list4_Arg_put(postcard_writer *writer, const sensor_list4_Arg *value) {
    if (value->count > 4u) return bad_value_(writer), writer->status;
    postcard_put_count(writer, value->count);
    for (size_t i = 0; i < value->count; i++) {
        Arg_put(writer, &value->items[i]);
    }
    return writer->status;
}

postcard_status sensor_list4_Arg_get(postcard_reader *reader, sensor_list4_Arg *value) {
    size_t count = 0, start = reader->at;
    value->count = 0;
    if (postcard_get_count(reader, &count) != POSTCARD_OK) return reader->status;
    if (count > 4u) return bad_message_(reader, start), reader->status;
    for (size_t i = 0; i < count && reader->status == POSTCARD_OK; i++) {
        Arg_get(reader, &value->items[i]);
    }
    if (reader->status == POSTCARD_OK) value->count = (uint8_t)count;
    return reader->status;
}

postcard_status Log_put(postcard_writer *writer, const Log *value) {
    if ((uint32_t)value->tag >= 4u) bad_value_(writer);
    postcard_put_variant(writer, (uint32_t)value->tag);
    switch (value->tag) {
        case Log_Text:
            postcard_put_str(writer, (const char *)value->as.text.bytes, value->as.text.size);
            break;
        case Log_Coded:
            postcard_put_u16(writer, value->as.coded.code);
            sensor_list4_Arg_put(writer, &value->as.coded.args);
            break;
        case Log_Dropped:
            postcard_put_u32(writer, value->as.dropped);
            break;
        case Log_Silence:
            break;
    }
    return writer->status;
}

postcard_status Log_get(postcard_reader *reader, Log *value) {
    uint32_t index = 0;
    size_t start = reader->at;
    postcard_get_variant(reader, &index);
    if (index >= 4u) index = 0, bad_message_(reader, start);
    value->tag = (Log_tag)index;
    switch (value->tag) {
        case Log_Text:
            value->as.text.bytes = NULL, value->as.text.size = 0;
            postcard_get_str(reader, &value->as.text);
            break;
        case Log_Coded:
            value->as.coded.code = 0;
            postcard_get_u16(reader, &value->as.coded.code);
            sensor_list4_Arg_get(reader, &value->as.coded.args);
            break;
        case Log_Dropped:
            value->as.dropped = 0;
            postcard_get_u32(reader, &value->as.dropped);
            break;
        case Log_Silence:
            break;
    }
    return reader->status;
}

postcard_status sensor_tuple2_i32_i32_put(postcard_writer *writer, const sensor_tuple2_i32_i32 *value) {
    postcard_put_i32(writer, value->_0);
    postcard_put_i32(writer, value->_1);
    return writer->status;
}

postcard_status sensor_tuple2_i32_i32_get(postcard_reader *reader, sensor_tuple2_i32_i32 *value) {
    value->_0 = 0;
    postcard_get_i32(reader, &value->_0);
    value->_1 = 0;
    postcard_get_i32(reader, &value->_1);
    return reader->status;
}

postcard_status sensor_option_tuple2_i32_i32_put(postcard_writer *writer, const sensor_option_tuple2_i32_i32 *value) {
    if (value->some) {
        postcard_put_some(writer);
        postcard_put_i32(writer, value->value._0);
        postcard_put_i32(writer, value->value._1);
    } else {
        postcard_put_none(writer);
    }
    return writer->status;
}

postcard_status sensor_option_tuple2_i32_i32_get(postcard_reader *reader, sensor_option_tuple2_i32_i32 *value) {
    value->some = false;
    postcard_get_option(reader, &value->some);
    if (value->some) {
        value->value._0 = 0;
        postcard_get_i32(reader, &value->value._0);
        value->value._1 = 0;
        postcard_get_i32(reader, &value->value._1);
    }
    return reader->status;
}

postcard_status Setting_put(postcard_writer *writer, const Setting *value) {
    postcard_put_i32(writer, value->value);
    if (value->limits.some) {
        postcard_put_some(writer);
        postcard_put_i32(writer, value->limits.value._0);
        postcard_put_i32(writer, value->limits.value._1);
    } else {
        postcard_put_none(writer);
    }
    postcard_put_char(writer, value->unit);
    return writer->status;
}

postcard_status Setting_get(postcard_reader *reader, Setting *value) {
    value->value = 0;
    postcard_get_i32(reader, &value->value);
    value->limits.some = false;
    postcard_get_option(reader, &value->limits.some);
    if (value->limits.some) {
        value->limits.value._0 = 0;
        postcard_get_i32(reader, &value->limits.value._0);
        value->limits.value._1 = 0;
        postcard_get_i32(reader, &value->limits.value._1);
    }
    value->unit = 0;
    postcard_get_char(reader, &value->unit);
    return reader->status;
}

postcard_status sensor_tuple2_u8_Setting_put(postcard_writer *writer, const sensor_tuple2_u8_Setting *value) {
    postcard_put_u8(writer, value->_0);
    Setting_put(writer, &value->_1);
    return writer->status;
}

postcard_status sensor_tuple2_u8_Setting_get(postcard_reader *reader, sensor_tuple2_u8_Setting *value) {
    value->_0 = 0;
    postcard_get_u8(reader, &value->_0);
    Setting_get(reader, &value->_1);
    return reader->status;
}

postcard_status sensor_map8_u8_Setting_put(postcard_writer *writer, const sensor_map8_u8_Setting *value) {
    if (value->count > 8u) return bad_value_(writer), writer->status;
    postcard_put_count(writer, value->count);
    for (size_t i = 0; i < value->count; i++) {
        postcard_put_u8(writer, value->items[i]._0);
        Setting_put(writer, &value->items[i]._1);
    }
    return writer->status;
}

postcard_status sensor_map8_u8_Setting_get(postcard_reader *reader, sensor_map8_u8_Setting *value) {
    size_t count = 0, start = reader->at;
    value->count = 0;
    if (postcard_get_count(reader, &count) != POSTCARD_OK) return reader->status;
    if (count > 8u) return bad_message_(reader, start), reader->status;
    for (size_t i = 0; i < count && reader->status == POSTCARD_OK; i++) {
        value->items[i]._0 = 0;
        postcard_get_u8(reader, &value->items[i]._0);
        Setting_get(reader, &value->items[i]._1);
    }
    if (reader->status == POSTCARD_OK) value->count = (uint8_t)count;
    return reader->status;
}

postcard_status sensor_option_u16_put(postcard_writer *writer, const sensor_option_u16 *value) {
    if (value->some) {
        postcard_put_some(writer);
        postcard_put_u16(writer, value->value);
    } else {
        postcard_put_none(writer);
    }
    return writer->status;
}

postcard_status sensor_option_u16_get(postcard_reader *reader, sensor_option_u16 *value) {
    value->some = false;
    postcard_get_option(reader, &value->some);
    if (value->some) {
        value->value = 0;
        postcard_get_u16(reader, &value->value);
    }
    return reader->status;
}

postcard_status sensor_option_option_u16_put(postcard_writer *writer, const sensor_option_option_u16 *value) {
    if (value->some) {
        postcard_put_some(writer);
        if (value->value.some) {
            postcard_put_some(writer);
            postcard_put_u16(writer, value->value.value);
        } else {
            postcard_put_none(writer);
        }
    } else {
        postcard_put_none(writer);
    }
    return writer->status;
}

postcard_status sensor_option_option_u16_get(postcard_reader *reader, sensor_option_option_u16 *value) {
    value->some = false;
    postcard_get_option(reader, &value->some);
    if (value->some) {
        value->value.some = false;
        postcard_get_option(reader, &value->value.some);
        if (value->value.some) {
            value->value.value = 0;
            postcard_get_u16(reader, &value->value.value);
        }
    }
    return reader->status;
}

postcard_status Settings_put(postcard_writer *writer, const Settings *value) {
    sensor_map8_u8_Setting_put(writer, &value->values);
    if (value->old.some) {
        postcard_put_some(writer);
        if (value->old.value.some) {
            postcard_put_some(writer);
            postcard_put_u16(writer, value->old.value.value);
        } else {
            postcard_put_none(writer);
        }
    } else {
        postcard_put_none(writer);
    }
    return writer->status;
}

postcard_status Settings_get(postcard_reader *reader, Settings *value) {
    sensor_map8_u8_Setting_get(reader, &value->values);
    value->old.some = false;
    postcard_get_option(reader, &value->old.some);
    if (value->old.some) {
        value->old.value.some = false;
        postcard_get_option(reader, &value->old.value.some);
        if (value->old.value.some) {
            value->old.value.value = 0;
            postcard_get_u16(reader, &value->old.value.value);
        }
    }
    return reader->status;
}

postcard_status sensor_option_u32_put(postcard_writer *writer, const sensor_option_u32 *value) {
    if (value->some) {
        postcard_put_some(writer);
        postcard_put_u32(writer, value->value);
    } else {
        postcard_put_none(writer);
    }
    return writer->status;
}

postcard_status sensor_option_u32_get(postcard_reader *reader, sensor_option_u32 *value) {
    value->some = false;
    postcard_get_option(reader, &value->some);
    if (value->some) {
        value->value = 0;
        postcard_get_u32(reader, &value->value);
    }
    return reader->status;
}

postcard_status Fault_put(postcard_writer *writer, const Fault *value) {
    if ((uint32_t)value->tag >= 4u) bad_value_(writer);
    postcard_put_variant(writer, (uint32_t)value->tag);
    switch (value->tag) {
        case Fault_Timeout:
            break;
        case Fault_Busy:
            break;
        case Fault_Refused:
            if (value->as.refused.size > 16u) bad_value_(writer);
            else postcard_put_str(writer, value->as.refused.text, value->as.refused.size);
            break;
        case Fault_Range:
            postcard_put_i8(writer, value->as.range.min_);
            postcard_put_i8(writer, value->as.range.max_);
            postcard_put_i128(writer, value->as.range.double_.low, value->as.range.double_.high);
            break;
    }
    return writer->status;
}

postcard_status Fault_get(postcard_reader *reader, Fault *value) {
    uint32_t index = 0;
    size_t start = reader->at;
    postcard_get_variant(reader, &index);
    if (index >= 4u) index = 0, bad_message_(reader, start);
    value->tag = (Fault_tag)index;
    switch (value->tag) {
        case Fault_Timeout:
            break;
        case Fault_Busy:
            break;
        case Fault_Refused:
            value->as.refused.size = (uint8_t)get_text_(reader, value->as.refused.text, 16u);
            break;
        case Fault_Range:
            value->as.range.min_ = 0;
            postcard_get_i8(reader, &value->as.range.min_);
            value->as.range.max_ = 0;
            postcard_get_i8(reader, &value->as.range.max_);
            value->as.range.double_.low = value->as.range.double_.high = 0;
            postcard_get_i128(reader, &value->as.range.double_.low, &value->as.range.double_.high);
            break;
    }
    return reader->status;
}

postcard_status sensor_result_option_u32_Fault_put(postcard_writer *writer, const sensor_result_option_u32_Fault *value) {
    postcard_put_variant(writer, value->is_ok ? 0u : 1u);
    if (value->is_ok) {
        if (value->as.ok.some) {
            postcard_put_some(writer);
            postcard_put_u32(writer, value->as.ok.value);
        } else {
            postcard_put_none(writer);
        }
    }
    if (!value->is_ok) {
        Fault_put(writer, &value->as.err);
    }
    return writer->status;
}

postcard_status sensor_result_option_u32_Fault_get(postcard_reader *reader, sensor_result_option_u32_Fault *value) {
    uint32_t index = 0;
    size_t start = reader->at;
    postcard_get_variant(reader, &index);
    if (index >= 2u) index = 0, bad_message_(reader, start);
    value->is_ok = index == 0;
    if (value->is_ok) {
        value->as.ok.some = false;
        postcard_get_option(reader, &value->as.ok.some);
        if (value->as.ok.some) {
            value->as.ok.value = 0;
            postcard_get_u32(reader, &value->as.ok.value);
        }
    }
    if (!value->is_ok) {
        Fault_get(reader, &value->as.err);
    }
    return reader->status;
}

postcard_status Mark_put(postcard_writer *writer, const Mark *value) {
    (void)value;
    return writer->status;
}

postcard_status Mark_get(postcard_reader *reader, Mark *value) {
    value->nothing_ = 0;
    return reader->status;
}

postcard_status Answer_put(postcard_writer *writer, const Answer *value) {
    postcard_put_u16(writer, value->id);
    sensor_result_option_u32_Fault_put(writer, &value->result);
    Mark_put(writer, &value->mark);
    return writer->status;
}

postcard_status Answer_get(postcard_reader *reader, Answer *value) {
    value->id = 0;
    postcard_get_u16(reader, &value->id);
    sensor_result_option_u32_Fault_get(reader, &value->result);
    Mark_get(reader, &value->mark);
    return reader->status;
}

postcard_status sensor_list5_str16_put(postcard_writer *writer, const sensor_list5_str16 *value) {
    if (value->count > 5u) return bad_value_(writer), writer->status;
    postcard_put_count(writer, value->count);
    for (size_t i = 0; i < value->count; i++) {
        if (value->items[i].size > 16u) bad_value_(writer);
        else postcard_put_str(writer, value->items[i].text, value->items[i].size);
    }
    return writer->status;
}

postcard_status sensor_list5_str16_get(postcard_reader *reader, sensor_list5_str16 *value) {
    size_t count = 0, start = reader->at;
    value->count = 0;
    if (postcard_get_count(reader, &count) != POSTCARD_OK) return reader->status;
    if (count > 5u) return bad_message_(reader, start), reader->status;
    for (size_t i = 0; i < count && reader->status == POSTCARD_OK; i++) {
        value->items[i].size = (uint8_t)get_text_(reader, value->items[i].text, 16u);
    }
    if (reader->status == POSTCARD_OK) value->count = (uint8_t)count;
    return reader->status;
}

postcard_status Message_put(postcard_writer *writer, const Message *value) {
    if ((uint32_t)value->tag >= 10u) bad_value_(writer);
    postcard_put_variant(writer, (uint32_t)value->tag);
    switch (value->tag) {
        case Message_Heartbeat:
            Heartbeat_put(writer, &value->as.heartbeat);
            break;
        case Message_Record:
            Record_put(writer, &value->as.record);
            break;
        case Message_Imu:
            Imu_put(writer, &value->as.imu);
            break;
        case Message_Info:
            Info_put(writer, &value->as.info);
            break;
        case Message_Chunk:
            Chunk_put(writer, &value->as.chunk);
            break;
        case Message_Log:
            Log_put(writer, &value->as.log);
            break;
        case Message_Settings:
            Settings_put(writer, &value->as.settings);
            break;
        case Message_Answer:
            Answer_put(writer, &value->as.answer);
            break;
        case Message_Names:
            sensor_list5_str16_put(writer, &value->as.names);
            break;
        case Message_Tiny:
            if (value->as.tiny._0.count > 12u) bad_value_(writer);
            else postcard_put_bytes(writer, value->as.tiny._0.items, value->as.tiny._0.count);
            postcard_put_bool(writer, value->as.tiny._1);
            postcard_put_i8(writer, value->as.tiny._2);
            postcard_put_u64(writer, value->as.tiny._3);
            break;
    }
    return writer->status;
}

postcard_status Message_get(postcard_reader *reader, Message *value) {
    uint32_t index = 0;
    size_t start = reader->at;
    postcard_get_variant(reader, &index);
    if (index >= 10u) index = 0, bad_message_(reader, start);
    value->tag = (Message_tag)index;
    switch (value->tag) {
        case Message_Heartbeat:
            Heartbeat_get(reader, &value->as.heartbeat);
            break;
        case Message_Record:
            Record_get(reader, &value->as.record);
            break;
        case Message_Imu:
            Imu_get(reader, &value->as.imu);
            break;
        case Message_Info:
            Info_get(reader, &value->as.info);
            break;
        case Message_Chunk:
            Chunk_get(reader, &value->as.chunk);
            break;
        case Message_Log:
            Log_get(reader, &value->as.log);
            break;
        case Message_Settings:
            Settings_get(reader, &value->as.settings);
            break;
        case Message_Answer:
            Answer_get(reader, &value->as.answer);
            break;
        case Message_Names:
            sensor_list5_str16_get(reader, &value->as.names);
            break;
        case Message_Tiny:
            value->as.tiny._0.count = (uint8_t)get_bytes_(reader, value->as.tiny._0.items, 12u);
            value->as.tiny._1 = false;
            postcard_get_bool(reader, &value->as.tiny._1);
            value->as.tiny._2 = 0;
            postcard_get_i8(reader, &value->as.tiny._2);
            value->as.tiny._3 = 0;
            postcard_get_u64(reader, &value->as.tiny._3);
            break;
    }
    return reader->status;
}
