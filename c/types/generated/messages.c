/* Messages of messages.rs. Written by `pcard c`: don't edit it, but write it again. */
#include "messages.h"

/* Fails since a value is none of its type. */
static void bad_value_(postcard_writer *writer) {
    if (writer->status == POSTCARD_OK) writer->status = POSTCARD_BAD_VALUE;
}

/* Fails since what begins at a place is no value of the type. */
static void bad_message_(postcard_reader *reader, size_t start) {
    if (reader->status == POSTCARD_OK) reader->at = start, reader->status = POSTCARD_NO_VALUE;
}

static void get_array_(postcard_reader *reader, uint8_t *items, size_t size) {
    postcard_slice found = {NULL, 0};
    memset(items, 0, size);
    if (postcard_get_raw(reader, size, &found) == POSTCARD_OK) memcpy(items, found.bytes, size);
}

postcard_status FixKind_put(postcard_writer *writer, const FixKind *value) {
    if ((uint32_t)*value >= 3u) bad_value_(writer);
    postcard_put_variant(writer, (uint32_t)*value);
    return writer->status;
}

postcard_status FixKind_get(postcard_reader *reader, FixKind *value) {
    uint32_t index = 0;
    size_t start = reader->at;
    postcard_get_variant(reader, &index);
    if (index >= 3u) index = 0, bad_message_(reader, start);
    *value = (FixKind)index;
    return reader->status;
}

postcard_status GnssFix_put(postcard_writer *writer, const GnssFix *value) {
    postcard_put_u64(writer, value->time);
    postcard_put_i32(writer, value->lat);
    postcard_put_i32(writer, value->lon);
    postcard_put_i32(writer, value->alt);
    postcard_put_u8(writer, value->sats);
    FixKind_put(writer, &value->fix);
    return writer->status;
}

postcard_status GnssFix_get(postcard_reader *reader, GnssFix *value) {
    value->time = 0;
    postcard_get_u64(reader, &value->time);
    value->lat = 0;
    postcard_get_i32(reader, &value->lat);
    value->lon = 0;
    postcard_get_i32(reader, &value->lon);
    value->alt = 0;
    postcard_get_i32(reader, &value->alt);
    value->sats = 0;
    postcard_get_u8(reader, &value->sats);
    FixKind_get(reader, &value->fix);
    return reader->status;
}

postcard_status messages_option_u16_put(postcard_writer *writer, const messages_option_u16 *value) {
    if (value->some) {
        postcard_put_some(writer);
        postcard_put_u16(writer, value->value);
    } else {
        postcard_put_none(writer);
    }
    return writer->status;
}

postcard_status messages_option_u16_get(postcard_reader *reader, messages_option_u16 *value) {
    value->some = false;
    postcard_get_option(reader, &value->some);
    if (value->some) {
        value->value = 0;
        postcard_get_u16(reader, &value->value);
    }
    return reader->status;
}

postcard_status Motor_put(postcard_writer *writer, const Motor *value) {
    postcard_put_u8(writer, value->id);
    postcard_put_i16(writer, value->rpm);
    postcard_put_f32(writer, value->current);
    for (size_t i0 = 0; i0 < 3u; i0++) {
        postcard_put_i8(writer, value->temps[i0]);
    }
    if (value->fault.some) {
        postcard_put_some(writer);
        postcard_put_u16(writer, value->fault.value);
    } else {
        postcard_put_none(writer);
    }
    return writer->status;
}

postcard_status Motor_get(postcard_reader *reader, Motor *value) {
    value->id = 0;
    postcard_get_u8(reader, &value->id);
    value->rpm = 0;
    postcard_get_i16(reader, &value->rpm);
    value->current = 0;
    postcard_get_f32(reader, &value->current);
    for (size_t i0 = 0; i0 < 3u; i0++) {
        value->temps[i0] = 0;
        postcard_get_i8(reader, &value->temps[i0]);
    }
    value->fault.some = false;
    postcard_get_option(reader, &value->fault.some);
    if (value->fault.some) {
        value->fault.value = 0;
        postcard_get_u16(reader, &value->fault.value);
    }
    return reader->status;
}

postcard_status Level_put(postcard_writer *writer, const Level *value) {
    if ((uint32_t)*value >= 5u) bad_value_(writer);
    postcard_put_variant(writer, (uint32_t)*value);
    return writer->status;
}

postcard_status Level_get(postcard_reader *reader, Level *value) {
    uint32_t index = 0;
    size_t start = reader->at;
    postcard_get_variant(reader, &index);
    if (index >= 5u) index = 0, bad_message_(reader, start);
    *value = (Level)index;
    return reader->status;
}

postcard_status LogLine_put(postcard_writer *writer, const LogLine *value) {
    postcard_put_u64(writer, value->at);
    Level_put(writer, &value->level);
    postcard_put_str(writer, (const char *)value->target.bytes, value->target.size);
    postcard_put_str(writer, (const char *)value->text.bytes, value->text.size);
    return writer->status;
}

postcard_status LogLine_get(postcard_reader *reader, LogLine *value) {
    value->at = 0;
    postcard_get_u64(reader, &value->at);
    Level_get(reader, &value->level);
    value->target.bytes = NULL, value->target.size = 0;
    postcard_get_str(reader, &value->target);
    value->text.bytes = NULL, value->text.size = 0;
    postcard_get_str(reader, &value->text);
    return reader->status;
}

postcard_status Parity_put(postcard_writer *writer, const Parity *value) {
    if ((uint32_t)*value >= 3u) bad_value_(writer);
    postcard_put_variant(writer, (uint32_t)*value);
    return writer->status;
}

postcard_status Parity_get(postcard_reader *reader, Parity *value) {
    uint32_t index = 0;
    size_t start = reader->at;
    postcard_get_variant(reader, &index);
    if (index >= 3u) index = 0, bad_message_(reader, start);
    *value = (Parity)index;
    return reader->status;
}

postcard_status messages_tuple4_u8_u8_u8_u8_put(postcard_writer *writer, const messages_tuple4_u8_u8_u8_u8 *value) {
    postcard_put_u8(writer, value->_0);
    postcard_put_u8(writer, value->_1);
    postcard_put_u8(writer, value->_2);
    postcard_put_u8(writer, value->_3);
    return writer->status;
}

postcard_status messages_tuple4_u8_u8_u8_u8_get(postcard_reader *reader, messages_tuple4_u8_u8_u8_u8 *value) {
    value->_0 = 0;
    postcard_get_u8(reader, &value->_0);
    value->_1 = 0;
    postcard_get_u8(reader, &value->_1);
    value->_2 = 0;
    postcard_get_u8(reader, &value->_2);
    value->_3 = 0;
    postcard_get_u8(reader, &value->_3);
    return reader->status;
}

postcard_status messages_option_tuple4_u8_u8_u8_u8_put(postcard_writer *writer, const messages_option_tuple4_u8_u8_u8_u8 *value) {
    if (value->some) {
        postcard_put_some(writer);
        postcard_put_u8(writer, value->value._0);
        postcard_put_u8(writer, value->value._1);
        postcard_put_u8(writer, value->value._2);
        postcard_put_u8(writer, value->value._3);
    } else {
        postcard_put_none(writer);
    }
    return writer->status;
}

postcard_status messages_option_tuple4_u8_u8_u8_u8_get(postcard_reader *reader, messages_option_tuple4_u8_u8_u8_u8 *value) {
    value->some = false;
    postcard_get_option(reader, &value->some);
    if (value->some) {
        value->value._0 = 0;
        postcard_get_u8(reader, &value->value._0);
        value->value._1 = 0;
        postcard_get_u8(reader, &value->value._1);
        value->value._2 = 0;
        postcard_get_u8(reader, &value->value._2);
        value->value._3 = 0;
        postcard_get_u8(reader, &value->value._3);
    }
    return reader->status;
}

postcard_status Settings_put(postcard_writer *writer, const Settings *value) {
    postcard_put_str(writer, (const char *)value->name.bytes, value->name.size);
    postcard_put_u32(writer, value->baud);
    Parity_put(writer, &value->parity);
    postcard_put_u8(writer, value->retries);
    if (value->address.some) {
        postcard_put_some(writer);
        postcard_put_u8(writer, value->address.value._0);
        postcard_put_u8(writer, value->address.value._1);
        postcard_put_u8(writer, value->address.value._2);
        postcard_put_u8(writer, value->address.value._3);
    } else {
        postcard_put_none(writer);
    }
    postcard_put_bool(writer, value->debug);
    return writer->status;
}

postcard_status Settings_get(postcard_reader *reader, Settings *value) {
    value->name.bytes = NULL, value->name.size = 0;
    postcard_get_str(reader, &value->name);
    value->baud = 0;
    postcard_get_u32(reader, &value->baud);
    Parity_get(reader, &value->parity);
    value->retries = 0;
    postcard_get_u8(reader, &value->retries);
    value->address.some = false;
    postcard_get_option(reader, &value->address.some);
    if (value->address.some) {
        value->address.value._0 = 0;
        postcard_get_u8(reader, &value->address.value._0);
        value->address.value._1 = 0;
        postcard_get_u8(reader, &value->address.value._1);
        value->address.value._2 = 0;
        postcard_get_u8(reader, &value->address.value._2);
        value->address.value._3 = 0;
        postcard_get_u8(reader, &value->address.value._3);
    }
    value->debug = false;
    postcard_get_bool(reader, &value->debug);
    return reader->status;
}

postcard_status Chunk_put(postcard_writer *writer, const Chunk *value) {
    postcard_put_u32(writer, value->image);
    postcard_put_u32(writer, value->offset);
    postcard_put_bytes(writer, value->data.bytes, value->data.size);
    postcard_put_bool(writer, value->last);
    return writer->status;
}

postcard_status Chunk_get(postcard_reader *reader, Chunk *value) {
    value->image = 0;
    postcard_get_u32(reader, &value->image);
    value->offset = 0;
    postcard_get_u32(reader, &value->offset);
    value->data.bytes = NULL, value->data.size = 0;
    postcard_get_bytes(reader, &value->data);
    value->last = false;
    postcard_get_bool(reader, &value->last);
    return reader->status;
}

postcard_status Page_put(postcard_writer *writer, const Page *value) {
    postcard_put_u32(writer, value->offset);
    postcard_put_bytes(writer, value->data.bytes, value->data.size);
    return writer->status;
}

postcard_status Page_get(postcard_reader *reader, Page *value) {
    value->offset = 0;
    postcard_get_u32(reader, &value->offset);
    value->data.bytes = NULL, value->data.size = 0;
    postcard_get_bytes(reader, &value->data);
    return reader->status;
}

postcard_status Gpio_put(postcard_writer *writer, const Gpio *value) {
    if ((uint32_t)value->tag >= 2u) bad_value_(writer);
    postcard_put_variant(writer, (uint32_t)value->tag);
    switch (value->tag) {
        case Gpio_Read:
            postcard_put_u8(writer, value->as.read.pin);
            break;
        case Gpio_Write:
            postcard_put_u8(writer, value->as.write.pin);
            postcard_put_bool(writer, value->as.write.high);
            break;
    }
    return writer->status;
}

postcard_status Gpio_get(postcard_reader *reader, Gpio *value) {
    uint32_t index = 0;
    size_t start = reader->at;
    postcard_get_variant(reader, &index);
    if (index >= 2u) index = 0, bad_message_(reader, start);
    value->tag = (Gpio_tag)index;
    switch (value->tag) {
        case Gpio_Read:
            value->as.read.pin = 0;
            postcard_get_u8(reader, &value->as.read.pin);
            break;
        case Gpio_Write:
            value->as.write.pin = 0;
            postcard_get_u8(reader, &value->as.write.pin);
            value->as.write.high = false;
            postcard_get_bool(reader, &value->as.write.high);
            break;
    }
    return reader->status;
}

postcard_status Flash_put(postcard_writer *writer, const Flash *value) {
    if ((uint32_t)value->tag >= 2u) bad_value_(writer);
    postcard_put_variant(writer, (uint32_t)value->tag);
    switch (value->tag) {
        case Flash_Erase:
            break;
        case Flash_Program:
            postcard_put_u32(writer, value->as.program._0);
            postcard_put_bytes(writer, value->as.program._1.bytes, value->as.program._1.size);
            break;
    }
    return writer->status;
}

postcard_status Flash_get(postcard_reader *reader, Flash *value) {
    uint32_t index = 0;
    size_t start = reader->at;
    postcard_get_variant(reader, &index);
    if (index >= 2u) index = 0, bad_message_(reader, start);
    value->tag = (Flash_tag)index;
    switch (value->tag) {
        case Flash_Erase:
            break;
        case Flash_Program:
            value->as.program._0 = 0;
            postcard_get_u32(reader, &value->as.program._0);
            value->as.program._1.bytes = NULL, value->as.program._1.size = 0;
            postcard_get_bytes(reader, &value->as.program._1);
            break;
    }
    return reader->status;
}

postcard_status Call_put(postcard_writer *writer, const Call *value) {
    if ((uint32_t)value->tag >= 3u) bad_value_(writer);
    postcard_put_variant(writer, (uint32_t)value->tag);
    switch (value->tag) {
        case Call_Ping:
            break;
        case Call_Gpio:
            Gpio_put(writer, &value->as.gpio);
            break;
        case Call_Flash:
            Flash_put(writer, &value->as.flash);
            break;
    }
    return writer->status;
}

postcard_status Call_get(postcard_reader *reader, Call *value) {
    uint32_t index = 0;
    size_t start = reader->at;
    postcard_get_variant(reader, &index);
    if (index >= 3u) index = 0, bad_message_(reader, start);
    value->tag = (Call_tag)index;
    switch (value->tag) {
        case Call_Ping:
            break;
        case Call_Gpio:
            Gpio_get(reader, &value->as.gpio);
            break;
        case Call_Flash:
            Flash_get(reader, &value->as.flash);
            break;
    }
    return reader->status;
}

postcard_status Request_put(postcard_writer *writer, const Request *value) {
    postcard_put_u16(writer, value->id);
    Call_put(writer, &value->call);
    return writer->status;
}

postcard_status Request_get(postcard_reader *reader, Request *value) {
    value->id = 0;
    postcard_get_u16(reader, &value->id);
    Call_get(reader, &value->call);
    return reader->status;
}

postcard_status Reason_put(postcard_writer *writer, const Reason *value) {
    if ((uint32_t)value->tag >= 3u) bad_value_(writer);
    postcard_put_variant(writer, (uint32_t)value->tag);
    switch (value->tag) {
        case Reason_Timeout:
            break;
        case Reason_Busy:
            break;
        case Reason_Refused:
            postcard_put_str(writer, (const char *)value->as.refused.bytes, value->as.refused.size);
            break;
    }
    return writer->status;
}

postcard_status Reason_get(postcard_reader *reader, Reason *value) {
    uint32_t index = 0;
    size_t start = reader->at;
    postcard_get_variant(reader, &index);
    if (index >= 3u) index = 0, bad_message_(reader, start);
    value->tag = (Reason_tag)index;
    switch (value->tag) {
        case Reason_Timeout:
            break;
        case Reason_Busy:
            break;
        case Reason_Refused:
            value->as.refused.bytes = NULL, value->as.refused.size = 0;
            postcard_get_str(reader, &value->as.refused);
            break;
    }
    return reader->status;
}

postcard_status messages_result_u32_Reason_put(postcard_writer *writer, const messages_result_u32_Reason *value) {
    postcard_put_variant(writer, value->is_ok ? 0u : 1u);
    if (value->is_ok) {
        postcard_put_u32(writer, value->as.ok);
    }
    if (!value->is_ok) {
        Reason_put(writer, &value->as.err);
    }
    return writer->status;
}

postcard_status messages_result_u32_Reason_get(postcard_reader *reader, messages_result_u32_Reason *value) {
    uint32_t index = 0;
    size_t start = reader->at;
    postcard_get_variant(reader, &index);
    if (index >= 2u) index = 0, bad_message_(reader, start);
    value->is_ok = index == 0;
    if (value->is_ok) {
        value->as.ok = 0;
        postcard_get_u32(reader, &value->as.ok);
    }
    if (!value->is_ok) {
        Reason_get(reader, &value->as.err);
    }
    return reader->status;
}

postcard_status Answer_put(postcard_writer *writer, const Answer *value) {
    postcard_put_u16(writer, value->id);
    messages_result_u32_Reason_put(writer, &value->result);
    return writer->status;
}

postcard_status Answer_get(postcard_reader *reader, Answer *value) {
    value->id = 0;
    postcard_get_u16(reader, &value->id);
    messages_result_u32_Reason_get(reader, &value->result);
    return reader->status;
}

postcard_status messages_option_i8_put(postcard_writer *writer, const messages_option_i8 *value) {
    if (value->some) {
        postcard_put_some(writer);
        postcard_put_i8(writer, value->value);
    } else {
        postcard_put_none(writer);
    }
    return writer->status;
}

postcard_status messages_option_i8_get(postcard_reader *reader, messages_option_i8 *value) {
    value->some = false;
    postcard_get_option(reader, &value->some);
    if (value->some) {
        value->value = 0;
        postcard_get_i8(reader, &value->value);
    }
    return reader->status;
}

postcard_status Battery_put(postcard_writer *writer, const Battery *value) {
    for (size_t i0 = 0; i0 < 4u; i0++) {
        postcard_put_u16(writer, value->cells[i0]);
    }
    postcard_put_i32(writer, value->current);
    postcard_put_bool(writer, value->charging);
    if (value->temp.some) {
        postcard_put_some(writer);
        postcard_put_i8(writer, value->temp.value);
    } else {
        postcard_put_none(writer);
    }
    return writer->status;
}

postcard_status Battery_get(postcard_reader *reader, Battery *value) {
    for (size_t i0 = 0; i0 < 4u; i0++) {
        value->cells[i0] = 0;
        postcard_get_u16(reader, &value->cells[i0]);
    }
    value->current = 0;
    postcard_get_i32(reader, &value->current);
    value->charging = false;
    postcard_get_bool(reader, &value->charging);
    value->temp.some = false;
    postcard_get_option(reader, &value->temp.some);
    if (value->temp.some) {
        value->temp.value = 0;
        postcard_get_i8(reader, &value->temp.value);
    }
    return reader->status;
}

postcard_status Axes_put(postcard_writer *writer, const Axes *value) {
    postcard_put_i16(writer, value->_0);
    postcard_put_i16(writer, value->_1);
    postcard_put_i16(writer, value->_2);
    return writer->status;
}

postcard_status Axes_get(postcard_reader *reader, Axes *value) {
    value->_0 = 0;
    postcard_get_i16(reader, &value->_0);
    value->_1 = 0;
    postcard_get_i16(reader, &value->_1);
    value->_2 = 0;
    postcard_get_i16(reader, &value->_2);
    return reader->status;
}

postcard_status messages_tuple3_f32_f32_f32_put(postcard_writer *writer, const messages_tuple3_f32_f32_f32 *value) {
    postcard_put_f32(writer, value->_0);
    postcard_put_f32(writer, value->_1);
    postcard_put_f32(writer, value->_2);
    return writer->status;
}

postcard_status messages_tuple3_f32_f32_f32_get(postcard_reader *reader, messages_tuple3_f32_f32_f32 *value) {
    value->_0 = 0;
    postcard_get_f32(reader, &value->_0);
    value->_1 = 0;
    postcard_get_f32(reader, &value->_1);
    value->_2 = 0;
    postcard_get_f32(reader, &value->_2);
    return reader->status;
}

postcard_status Inertial_put(postcard_writer *writer, const Inertial *value) {
    postcard_put_u32(writer, value->t);
    Axes_put(writer, &value->accel);
    postcard_put_f32(writer, value->gyro._0);
    postcard_put_f32(writer, value->gyro._1);
    postcard_put_f32(writer, value->gyro._2);
    return writer->status;
}

postcard_status Inertial_get(postcard_reader *reader, Inertial *value) {
    value->t = 0;
    postcard_get_u32(reader, &value->t);
    Axes_get(reader, &value->accel);
    value->gyro._0 = 0;
    postcard_get_f32(reader, &value->gyro._0);
    value->gyro._1 = 0;
    postcard_get_f32(reader, &value->gyro._1);
    value->gyro._2 = 0;
    postcard_get_f32(reader, &value->gyro._2);
    return reader->status;
}

postcard_status CanFrame_put(postcard_writer *writer, const CanFrame *value) {
    postcard_put_u32(writer, value->id);
    postcard_put_bool(writer, value->extended);
    postcard_put_bytes(writer, value->data.bytes, value->data.size);
    return writer->status;
}

postcard_status CanFrame_get(postcard_reader *reader, CanFrame *value) {
    value->id = 0;
    postcard_get_u32(reader, &value->id);
    value->extended = false;
    postcard_get_bool(reader, &value->extended);
    value->data.bytes = NULL, value->data.size = 0;
    postcard_get_bytes(reader, &value->data);
    return reader->status;
}

postcard_status messages_tuple2_str_f32_put(postcard_writer *writer, const messages_tuple2_str_f32 *value) {
    postcard_put_str(writer, (const char *)value->_0.bytes, value->_0.size);
    postcard_put_f32(writer, value->_1);
    return writer->status;
}

postcard_status messages_tuple2_str_f32_get(postcard_reader *reader, messages_tuple2_str_f32 *value) {
    value->_0.bytes = NULL, value->_0.size = 0;
    postcard_get_str(reader, &value->_0);
    value->_1 = 0;
    postcard_get_f32(reader, &value->_1);
    return reader->status;
}

postcard_status messages_map_str_f32_put(postcard_writer *writer, const messages_map_str_f32 *value) {
    postcard_put_count(writer, value->count);
    if (value->items == NULL) {
        messages_tuple2_str_f32 item;
        size_t read = 0;
        postcard_reader reader = messages_map_str_f32_reader(value);
        for (; messages_map_str_f32_next(&reader, &item); read++) {
            postcard_put_str(writer, (const char *)item._0.bytes, item._0.size);
            postcard_put_f32(writer, item._1);
        }
        if (read != value->count || reader.status != POSTCARD_OK) bad_value_(writer);
        return writer->status;
    }
    for (size_t i = 0; i < value->count; i++) {
        postcard_put_str(writer, (const char *)value->items[i]._0.bytes, value->items[i]._0.size);
        postcard_put_f32(writer, value->items[i]._1);
    }
    return writer->status;
}

postcard_status messages_map_str_f32_get(postcard_reader *reader, messages_map_str_f32 *value) {
    messages_tuple2_str_f32 item;
    size_t count = 0, start = reader->at;
    value->count = 0;
    value->items = NULL, value->encoded.bytes = NULL, value->encoded.size = 0;
    if (postcard_get_count(reader, &count) != POSTCARD_OK) return reader->status;
    start = reader->at;
    for (size_t i = 0; i < count && reader->status == POSTCARD_OK; i++) {
        item._0.bytes = NULL, item._0.size = 0;
        postcard_get_str(reader, &item._0);
        item._1 = 0;
        postcard_get_f32(reader, &item._1);
    }
    if (reader->status == POSTCARD_OK) value->count = count, value->encoded.bytes = reader->bytes + start, value->encoded.size = reader->at - start;
    return reader->status;
}

bool messages_map_str_f32_next(postcard_reader *reader, messages_tuple2_str_f32 *item) {
    if (reader->status != POSTCARD_OK || reader->at >= reader->size) return false;
    item->_0.bytes = NULL, item->_0.size = 0;
    postcard_get_str(reader, &item->_0);
    item->_1 = 0;
    postcard_get_f32(reader, &item->_1);
    return reader->status == POSTCARD_OK;
}

postcard_status Weather_put(postcard_writer *writer, const Weather *value) {
    postcard_put_str(writer, (const char *)value->station.bytes, value->station.size);
    messages_map_str_f32_put(writer, &value->readings);
    return writer->status;
}

postcard_status Weather_get(postcard_reader *reader, Weather *value) {
    value->station.bytes = NULL, value->station.size = 0;
    postcard_get_str(reader, &value->station);
    messages_map_str_f32_get(reader, &value->readings);
    return reader->status;
}

postcard_status messages_tuple3_u8_u8_u8_put(postcard_writer *writer, const messages_tuple3_u8_u8_u8 *value) {
    postcard_put_u8(writer, value->_0);
    postcard_put_u8(writer, value->_1);
    postcard_put_u8(writer, value->_2);
    return writer->status;
}

postcard_status messages_tuple3_u8_u8_u8_get(postcard_reader *reader, messages_tuple3_u8_u8_u8 *value) {
    value->_0 = 0;
    postcard_get_u8(reader, &value->_0);
    value->_1 = 0;
    postcard_get_u8(reader, &value->_1);
    value->_2 = 0;
    postcard_get_u8(reader, &value->_2);
    return reader->status;
}

postcard_status Announcement_put(postcard_writer *writer, const Announcement *value) {
    postcard_put_u128(writer, value->serial.low, value->serial.high);
    postcard_put_u8(writer, value->version._0);
    postcard_put_u8(writer, value->version._1);
    postcard_put_u8(writer, value->version._2);
    postcard_put_char(writer, value->unit);
    postcard_put_u16(writer, value->uptime);
    return writer->status;
}

postcard_status Announcement_get(postcard_reader *reader, Announcement *value) {
    value->serial.low = value->serial.high = 0;
    postcard_get_u128(reader, &value->serial.low, &value->serial.high);
    value->version._0 = 0;
    postcard_get_u8(reader, &value->version._0);
    value->version._1 = 0;
    postcard_get_u8(reader, &value->version._1);
    value->version._2 = 0;
    postcard_get_u8(reader, &value->version._2);
    value->unit = 0;
    postcard_get_char(reader, &value->unit);
    value->uptime = 0;
    postcard_get_u16(reader, &value->uptime);
    return reader->status;
}

postcard_status Pointer_put(postcard_writer *writer, const Pointer *value) {
    if ((uint32_t)value->tag >= 3u) bad_value_(writer);
    postcard_put_variant(writer, (uint32_t)value->tag);
    switch (value->tag) {
        case Pointer_Down:
            postcard_put_char(writer, value->as.down);
            break;
        case Pointer_Up:
            postcard_put_char(writer, value->as.up);
            break;
        case Pointer_Move:
            postcard_put_i8(writer, value->as.move.dx);
            postcard_put_i8(writer, value->as.move.dy);
            break;
    }
    return writer->status;
}

postcard_status Pointer_get(postcard_reader *reader, Pointer *value) {
    uint32_t index = 0;
    size_t start = reader->at;
    postcard_get_variant(reader, &index);
    if (index >= 3u) index = 0, bad_message_(reader, start);
    value->tag = (Pointer_tag)index;
    switch (value->tag) {
        case Pointer_Down:
            value->as.down = 0;
            postcard_get_char(reader, &value->as.down);
            break;
        case Pointer_Up:
            value->as.up = 0;
            postcard_get_char(reader, &value->as.up);
            break;
        case Pointer_Move:
            value->as.move.dx = 0;
            postcard_get_i8(reader, &value->as.move.dx);
            value->as.move.dy = 0;
            postcard_get_i8(reader, &value->as.move.dy);
            break;
    }
    return reader->status;
}

postcard_status messages_option_u8_put(postcard_writer *writer, const messages_option_u8 *value) {
    if (value->some) {
        postcard_put_some(writer);
        postcard_put_u8(writer, value->value);
    } else {
        postcard_put_none(writer);
    }
    return writer->status;
}

postcard_status messages_option_u8_get(postcard_reader *reader, messages_option_u8 *value) {
    value->some = false;
    postcard_get_option(reader, &value->some);
    if (value->some) {
        value->value = 0;
        postcard_get_u8(reader, &value->value);
    }
    return reader->status;
}

postcard_status messages_option_option_u8_put(postcard_writer *writer, const messages_option_option_u8 *value) {
    if (value->some) {
        postcard_put_some(writer);
        if (value->value.some) {
            postcard_put_some(writer);
            postcard_put_u8(writer, value->value.value);
        } else {
            postcard_put_none(writer);
        }
    } else {
        postcard_put_none(writer);
    }
    return writer->status;
}

postcard_status messages_option_option_u8_get(postcard_reader *reader, messages_option_option_u8 *value) {
    value->some = false;
    postcard_get_option(reader, &value->some);
    if (value->some) {
        value->value.some = false;
        postcard_get_option(reader, &value->value.some);
        if (value->value.some) {
            value->value.value = 0;
            postcard_get_u8(reader, &value->value.value);
        }
    }
    return reader->status;
}

postcard_status messages_option_str_put(postcard_writer *writer, const messages_option_str *value) {
    if (value->some) {
        postcard_put_some(writer);
        postcard_put_str(writer, (const char *)value->value.bytes, value->value.size);
    } else {
        postcard_put_none(writer);
    }
    return writer->status;
}

postcard_status messages_option_str_get(postcard_reader *reader, messages_option_str *value) {
    value->some = false;
    postcard_get_option(reader, &value->some);
    if (value->some) {
        value->value.bytes = NULL, value->value.size = 0;
        postcard_get_str(reader, &value->value);
    }
    return reader->status;
}

postcard_status messages_option_bool_put(postcard_writer *writer, const messages_option_bool *value) {
    if (value->some) {
        postcard_put_some(writer);
        postcard_put_bool(writer, value->value);
    } else {
        postcard_put_none(writer);
    }
    return writer->status;
}

postcard_status messages_option_bool_get(postcard_reader *reader, messages_option_bool *value) {
    value->some = false;
    postcard_get_option(reader, &value->some);
    if (value->some) {
        value->value = false;
        postcard_get_bool(reader, &value->value);
    }
    return reader->status;
}

postcard_status Patch_put(postcard_writer *writer, const Patch *value) {
    if (value->volume.some) {
        postcard_put_some(writer);
        if (value->volume.value.some) {
            postcard_put_some(writer);
            postcard_put_u8(writer, value->volume.value.value);
        } else {
            postcard_put_none(writer);
        }
    } else {
        postcard_put_none(writer);
    }
    if (value->title.some) {
        postcard_put_some(writer);
        postcard_put_str(writer, (const char *)value->title.value.bytes, value->title.value.size);
    } else {
        postcard_put_none(writer);
    }
    if (value->night.some) {
        postcard_put_some(writer);
        postcard_put_bool(writer, value->night.value);
    } else {
        postcard_put_none(writer);
    }
    return writer->status;
}

postcard_status Patch_get(postcard_reader *reader, Patch *value) {
    value->volume.some = false;
    postcard_get_option(reader, &value->volume.some);
    if (value->volume.some) {
        value->volume.value.some = false;
        postcard_get_option(reader, &value->volume.value.some);
        if (value->volume.value.some) {
            value->volume.value.value = 0;
            postcard_get_u8(reader, &value->volume.value.value);
        }
    }
    value->title.some = false;
    postcard_get_option(reader, &value->title.some);
    if (value->title.some) {
        value->title.value.bytes = NULL, value->title.value.size = 0;
        postcard_get_str(reader, &value->title.value);
    }
    value->night.some = false;
    postcard_get_option(reader, &value->night.some);
    if (value->night.some) {
        value->night.value = false;
        postcard_get_bool(reader, &value->night.value);
    }
    return reader->status;
}

postcard_status messages_list_i64_put(postcard_writer *writer, const messages_list_i64 *value) {
    postcard_put_count(writer, value->count);
    if (value->items == NULL) {
        int64_t item;
        size_t read = 0;
        postcard_reader reader = messages_list_i64_reader(value);
        for (; messages_list_i64_next(&reader, &item); read++) {
            postcard_put_i64(writer, item);
        }
        if (read != value->count || reader.status != POSTCARD_OK) bad_value_(writer);
        return writer->status;
    }
    for (size_t i = 0; i < value->count; i++) {
        postcard_put_i64(writer, value->items[i]);
    }
    return writer->status;
}

postcard_status messages_list_i64_get(postcard_reader *reader, messages_list_i64 *value) {
    int64_t item;
    size_t count = 0, start = reader->at;
    value->count = 0;
    value->items = NULL, value->encoded.bytes = NULL, value->encoded.size = 0;
    if (postcard_get_count(reader, &count) != POSTCARD_OK) return reader->status;
    start = reader->at;
    for (size_t i = 0; i < count && reader->status == POSTCARD_OK; i++) {
        item = 0;
        postcard_get_i64(reader, &item);
    }
    if (reader->status == POSTCARD_OK) value->count = count, value->encoded.bytes = reader->bytes + start, value->encoded.size = reader->at - start;
    return reader->status;
}

bool messages_list_i64_next(postcard_reader *reader, int64_t *item) {
    if (reader->status != POSTCARD_OK || reader->at >= reader->size) return false;
    *item = 0;
    postcard_get_i64(reader, item);
    return reader->status == POSTCARD_OK;
}

postcard_status Calibration_put(postcard_writer *writer, const Calibration *value) {
    for (size_t i0 = 0; i0 < 2u; i0++) {
        for (size_t i1 = 0; i1 < 2u; i1++) {
            postcard_put_f64(writer, value->matrix[i0][i1]);
        }
    }
    messages_list_i64_put(writer, &value->offsets);
    return writer->status;
}

postcard_status Calibration_get(postcard_reader *reader, Calibration *value) {
    for (size_t i0 = 0; i0 < 2u; i0++) {
        for (size_t i1 = 0; i1 < 2u; i1++) {
            value->matrix[i0][i1] = 0;
            postcard_get_f64(reader, &value->matrix[i0][i1]);
        }
    }
    messages_list_i64_get(reader, &value->offsets);
    return reader->status;
}

postcard_status messages_list_u64_put(postcard_writer *writer, const messages_list_u64 *value) {
    postcard_put_count(writer, value->count);
    if (value->items == NULL) {
        uint64_t item;
        size_t read = 0;
        postcard_reader reader = messages_list_u64_reader(value);
        for (; messages_list_u64_next(&reader, &item); read++) {
            postcard_put_u64(writer, item);
        }
        if (read != value->count || reader.status != POSTCARD_OK) bad_value_(writer);
        return writer->status;
    }
    for (size_t i = 0; i < value->count; i++) {
        postcard_put_u64(writer, value->items[i]);
    }
    return writer->status;
}

postcard_status messages_list_u64_get(postcard_reader *reader, messages_list_u64 *value) {
    uint64_t item;
    size_t count = 0, start = reader->at;
    value->count = 0;
    value->items = NULL, value->encoded.bytes = NULL, value->encoded.size = 0;
    if (postcard_get_count(reader, &count) != POSTCARD_OK) return reader->status;
    start = reader->at;
    for (size_t i = 0; i < count && reader->status == POSTCARD_OK; i++) {
        item = 0;
        postcard_get_u64(reader, &item);
    }
    if (reader->status == POSTCARD_OK) value->count = count, value->encoded.bytes = reader->bytes + start, value->encoded.size = reader->at - start;
    return reader->status;
}

bool messages_list_u64_next(postcard_reader *reader, uint64_t *item) {
    if (reader->status != POSTCARD_OK || reader->at >= reader->size) return false;
    *item = 0;
    postcard_get_u64(reader, item);
    return reader->status == POSTCARD_OK;
}

postcard_status Crash_put(postcard_writer *writer, const Crash *value) {
    postcard_put_u64(writer, value->pc);
    for (size_t i0 = 0; i0 < 4u; i0++) {
        postcard_put_u32(writer, value->registers[i0]);
    }
    if (value->message.some) {
        postcard_put_some(writer);
        postcard_put_str(writer, (const char *)value->message.value.bytes, value->message.value.size);
    } else {
        postcard_put_none(writer);
    }
    messages_list_u64_put(writer, &value->backtrace);
    return writer->status;
}

postcard_status Crash_get(postcard_reader *reader, Crash *value) {
    value->pc = 0;
    postcard_get_u64(reader, &value->pc);
    for (size_t i0 = 0; i0 < 4u; i0++) {
        value->registers[i0] = 0;
        postcard_get_u32(reader, &value->registers[i0]);
    }
    value->message.some = false;
    postcard_get_option(reader, &value->message.some);
    if (value->message.some) {
        value->message.value.bytes = NULL, value->message.value.size = 0;
        postcard_get_str(reader, &value->message.value);
    }
    messages_list_u64_get(reader, &value->backtrace);
    return reader->status;
}

postcard_status messages_list_u16_put(postcard_writer *writer, const messages_list_u16 *value) {
    postcard_put_count(writer, value->count);
    if (value->items == NULL) {
        uint16_t item;
        size_t read = 0;
        postcard_reader reader = messages_list_u16_reader(value);
        for (; messages_list_u16_next(&reader, &item); read++) {
            postcard_put_u16(writer, item);
        }
        if (read != value->count || reader.status != POSTCARD_OK) bad_value_(writer);
        return writer->status;
    }
    for (size_t i = 0; i < value->count; i++) {
        postcard_put_u16(writer, value->items[i]);
    }
    return writer->status;
}

postcard_status messages_list_u16_get(postcard_reader *reader, messages_list_u16 *value) {
    uint16_t item;
    size_t count = 0, start = reader->at;
    value->count = 0;
    value->items = NULL, value->encoded.bytes = NULL, value->encoded.size = 0;
    if (postcard_get_count(reader, &count) != POSTCARD_OK) return reader->status;
    start = reader->at;
    for (size_t i = 0; i < count && reader->status == POSTCARD_OK; i++) {
        item = 0;
        postcard_get_u16(reader, &item);
    }
    if (reader->status == POSTCARD_OK) value->count = count, value->encoded.bytes = reader->bytes + start, value->encoded.size = reader->at - start;
    return reader->status;
}

bool messages_list_u16_next(postcard_reader *reader, uint16_t *item) {
    if (reader->status != POSTCARD_OK || reader->at >= reader->size) return false;
    *item = 0;
    postcard_get_u16(reader, item);
    return reader->status == POSTCARD_OK;
}

postcard_status Cause_put(postcard_writer *writer, const Cause *value) {
    if ((uint32_t)*value >= 2u) bad_value_(writer);
    postcard_put_variant(writer, (uint32_t)*value);
    return writer->status;
}

postcard_status Cause_get(postcard_reader *reader, Cause *value) {
    uint32_t index = 0;
    size_t start = reader->at;
    postcard_get_variant(reader, &index);
    if (index >= 2u) index = 0, bad_message_(reader, start);
    *value = (Cause)index;
    return reader->status;
}

postcard_status FieldBus_put(postcard_writer *writer, const FieldBus *value) {
    if ((uint32_t)value->tag >= 3u) bad_value_(writer);
    postcard_put_variant(writer, (uint32_t)value->tag);
    switch (value->tag) {
        case FieldBus_Read:
            postcard_put_u8(writer, value->as.read.unit);
            postcard_put_u16(writer, value->as.read.start);
            postcard_put_u16(writer, value->as.read.count);
            break;
        case FieldBus_Write:
            postcard_put_u8(writer, value->as.write._0);
            postcard_put_u16(writer, value->as.write._1);
            messages_list_u16_put(writer, &value->as.write._2);
            break;
        case FieldBus_Refused:
            postcard_put_u8(writer, value->as.refused._0);
            Cause_put(writer, &value->as.refused._1);
            break;
    }
    return writer->status;
}

postcard_status FieldBus_get(postcard_reader *reader, FieldBus *value) {
    uint32_t index = 0;
    size_t start = reader->at;
    postcard_get_variant(reader, &index);
    if (index >= 3u) index = 0, bad_message_(reader, start);
    value->tag = (FieldBus_tag)index;
    switch (value->tag) {
        case FieldBus_Read:
            value->as.read.unit = 0;
            postcard_get_u8(reader, &value->as.read.unit);
            value->as.read.start = 0;
            postcard_get_u16(reader, &value->as.read.start);
            value->as.read.count = 0;
            postcard_get_u16(reader, &value->as.read.count);
            break;
        case FieldBus_Write:
            value->as.write._0 = 0;
            postcard_get_u8(reader, &value->as.write._0);
            value->as.write._1 = 0;
            postcard_get_u16(reader, &value->as.write._1);
            messages_list_u16_get(reader, &value->as.write._2);
            break;
        case FieldBus_Refused:
            value->as.refused._0 = 0;
            postcard_get_u8(reader, &value->as.refused._0);
            Cause_get(reader, &value->as.refused._1);
            break;
    }
    return reader->status;
}

postcard_status Change_put(postcard_writer *writer, const Change *value) {
    if ((uint32_t)value->tag >= 2u) bad_value_(writer);
    postcard_put_variant(writer, (uint32_t)value->tag);
    switch (value->tag) {
        case Change_Put:
            postcard_put_bytes(writer, value->as.put.bytes, value->as.put.size);
            break;
        case Change_Delete:
            break;
    }
    return writer->status;
}

postcard_status Change_get(postcard_reader *reader, Change *value) {
    uint32_t index = 0;
    size_t start = reader->at;
    postcard_get_variant(reader, &index);
    if (index >= 2u) index = 0, bad_message_(reader, start);
    value->tag = (Change_tag)index;
    switch (value->tag) {
        case Change_Put:
            value->as.put.bytes = NULL, value->as.put.size = 0;
            postcard_get_bytes(reader, &value->as.put);
            break;
        case Change_Delete:
            break;
    }
    return reader->status;
}

postcard_status messages_tuple2_str_Change_put(postcard_writer *writer, const messages_tuple2_str_Change *value) {
    postcard_put_str(writer, (const char *)value->_0.bytes, value->_0.size);
    Change_put(writer, &value->_1);
    return writer->status;
}

postcard_status messages_tuple2_str_Change_get(postcard_reader *reader, messages_tuple2_str_Change *value) {
    value->_0.bytes = NULL, value->_0.size = 0;
    postcard_get_str(reader, &value->_0);
    Change_get(reader, &value->_1);
    return reader->status;
}

postcard_status Batch_put(postcard_writer *writer, const Batch *value) {
    postcard_put_count(writer, value->count);
    if (value->items == NULL) {
        messages_tuple2_str_Change item;
        size_t read = 0;
        postcard_reader reader = Batch_reader(value);
        for (; Batch_next(&reader, &item); read++) {
            postcard_put_str(writer, (const char *)item._0.bytes, item._0.size);
            Change_put(writer, &item._1);
        }
        if (read != value->count || reader.status != POSTCARD_OK) bad_value_(writer);
        return writer->status;
    }
    for (size_t i = 0; i < value->count; i++) {
        postcard_put_str(writer, (const char *)value->items[i]._0.bytes, value->items[i]._0.size);
        Change_put(writer, &value->items[i]._1);
    }
    return writer->status;
}

postcard_status Batch_get(postcard_reader *reader, Batch *value) {
    messages_tuple2_str_Change item;
    size_t count = 0, start = reader->at;
    value->count = 0;
    value->items = NULL, value->encoded.bytes = NULL, value->encoded.size = 0;
    if (postcard_get_count(reader, &count) != POSTCARD_OK) return reader->status;
    start = reader->at;
    for (size_t i = 0; i < count && reader->status == POSTCARD_OK; i++) {
        item._0.bytes = NULL, item._0.size = 0;
        postcard_get_str(reader, &item._0);
        Change_get(reader, &item._1);
    }
    if (reader->status == POSTCARD_OK) value->count = count, value->encoded.bytes = reader->bytes + start, value->encoded.size = reader->at - start;
    return reader->status;
}

bool Batch_next(postcard_reader *reader, messages_tuple2_str_Change *item) {
    if (reader->status != POSTCARD_OK || reader->at >= reader->size) return false;
    item->_0.bytes = NULL, item->_0.size = 0;
    postcard_get_str(reader, &item->_0);
    Change_get(reader, &item->_1);
    return reader->status == POSTCARD_OK;
}

postcard_status Samples_put(postcard_writer *writer, const Samples *value) {
    postcard_put_u8(writer, value->channel);
    messages_list_u16_put(writer, &value->samples);
    return writer->status;
}

postcard_status Samples_get(postcard_reader *reader, Samples *value) {
    value->channel = 0;
    postcard_get_u8(reader, &value->channel);
    messages_list_u16_get(reader, &value->samples);
    return reader->status;
}

postcard_status Note_put(postcard_writer *writer, const Note *value) {
    postcard_put_str(writer, (const char *)value->from.bytes, value->from.size);
    postcard_put_str(writer, (const char *)value->body.bytes, value->body.size);
    return writer->status;
}

postcard_status Note_get(postcard_reader *reader, Note *value) {
    value->from.bytes = NULL, value->from.size = 0;
    postcard_get_str(reader, &value->from);
    value->body.bytes = NULL, value->body.size = 0;
    postcard_get_str(reader, &value->body);
    return reader->status;
}

postcard_status Advertisement_put(postcard_writer *writer, const Advertisement *value) {
    postcard_put_raw(writer, value->address, 6u);
    postcard_put_i8(writer, value->rssi);
    if (value->name.some) {
        postcard_put_some(writer);
        postcard_put_str(writer, (const char *)value->name.value.bytes, value->name.value.size);
    } else {
        postcard_put_none(writer);
    }
    messages_list_u16_put(writer, &value->services);
    return writer->status;
}

postcard_status Advertisement_get(postcard_reader *reader, Advertisement *value) {
    get_array_(reader, value->address, 6u);
    value->rssi = 0;
    postcard_get_i8(reader, &value->rssi);
    value->name.some = false;
    postcard_get_option(reader, &value->name.some);
    if (value->name.some) {
        value->name.value.bytes = NULL, value->name.value.size = 0;
        postcard_get_str(reader, &value->name.value);
    }
    messages_list_u16_get(reader, &value->services);
    return reader->status;
}

postcard_status Task_put(postcard_writer *writer, const Task *value) {
    if ((uint32_t)value->tag >= 3u) bad_value_(writer);
    postcard_put_variant(writer, (uint32_t)value->tag);
    switch (value->tag) {
        case Task_Idle:
            break;
        case Task_Running:
            postcard_put_u16(writer, value->as.running.task);
            postcard_put_u64(writer, value->as.running.since);
            break;
        case Task_Failed:
            postcard_put_str(writer, (const char *)value->as.failed.bytes, value->as.failed.size);
            break;
    }
    return writer->status;
}

postcard_status Task_get(postcard_reader *reader, Task *value) {
    uint32_t index = 0;
    size_t start = reader->at;
    postcard_get_variant(reader, &index);
    if (index >= 3u) index = 0, bad_message_(reader, start);
    value->tag = (Task_tag)index;
    switch (value->tag) {
        case Task_Idle:
            break;
        case Task_Running:
            value->as.running.task = 0;
            postcard_get_u16(reader, &value->as.running.task);
            value->as.running.since = 0;
            postcard_get_u64(reader, &value->as.running.since);
            break;
        case Task_Failed:
            value->as.failed.bytes = NULL, value->as.failed.size = 0;
            postcard_get_str(reader, &value->as.failed);
            break;
    }
    return reader->status;
}

postcard_status Lock_put(postcard_writer *writer, const Lock *value) {
    (void)value;
    return writer->status;
}

postcard_status Lock_get(postcard_reader *reader, Lock *value) {
    value->nothing_ = 0;
    return reader->status;
}

postcard_status Scheduler_put(postcard_writer *writer, const Scheduler *value) {
    Task_put(writer, &value->state);
    messages_list_u16_put(writer, &value->queue);
    Lock_put(writer, &value->lock);
    return writer->status;
}

postcard_status Scheduler_get(postcard_reader *reader, Scheduler *value) {
    Task_get(reader, &value->state);
    messages_list_u16_get(reader, &value->queue);
    Lock_get(reader, &value->lock);
    return reader->status;
}

postcard_status Statistics_put(postcard_writer *writer, const Statistics *value) {
    postcard_put_f32(writer, value->min_);
    postcard_put_f32(writer, value->max_);
    postcard_put_f64(writer, value->mean);
    postcard_put_f64(writer, value->last);
    return writer->status;
}

postcard_status Statistics_get(postcard_reader *reader, Statistics *value) {
    value->min_ = 0;
    postcard_get_f32(reader, &value->min_);
    value->max_ = 0;
    postcard_get_f32(reader, &value->max_);
    value->mean = 0;
    postcard_get_f64(reader, &value->mean);
    value->last = 0;
    postcard_get_f64(reader, &value->last);
    return reader->status;
}

postcard_status Counters_put(postcard_writer *writer, const Counters *value) {
    postcard_put_u64(writer, value->sent);
    postcard_put_u64(writer, value->received);
    postcard_put_i128(writer, value->balance.low, value->balance.high);
    return writer->status;
}

postcard_status Counters_get(postcard_reader *reader, Counters *value) {
    value->sent = 0;
    postcard_get_u64(reader, &value->sent);
    value->received = 0;
    postcard_get_u64(reader, &value->received);
    value->balance.low = value->balance.high = 0;
    postcard_get_i128(reader, &value->balance.low, &value->balance.high);
    return reader->status;
}
