/* Messages of forms.rs. Written by `pcard c`: don't edit it, but write it again. */
#include "forms.h"

/* Fails since a value is none of its type. */
static void bad_value_(postcard_writer *writer) {
    if (writer->status == POSTCARD_OK) writer->status = POSTCARD_BAD_VALUE;
}

/* Fails since what begins at a place is no value of the type. */
static void bad_message_(postcard_reader *reader, size_t start) {
    if (reader->status == POSTCARD_OK) reader->at = start, reader->status = POSTCARD_NO_VALUE;
}

static size_t get_text_(postcard_reader *reader, char *text, size_t most) {
    postcard_slice found = {NULL, 0};
    size_t start = reader->at;
    if (postcard_get_str(reader, &found) == POSTCARD_OK && found.size > most) bad_message_(reader, start);
    if (reader->status != POSTCARD_OK) found.size = 0;
    if (found.size) memcpy(text, found.bytes, found.size);
    text[found.size] = 0;
    return found.size;
}

static size_t get_bytes_(postcard_reader *reader, uint8_t *items, size_t most) {
    postcard_slice found = {NULL, 0};
    size_t start = reader->at;
    if (postcard_get_bytes(reader, &found) == POSTCARD_OK && found.size > most) bad_message_(reader, start);
    if (reader->status != POSTCARD_OK) found.size = 0;
    if (found.size) memcpy(items, found.bytes, found.size);
    return found.size;
}

static void get_array_(postcard_reader *reader, uint8_t *items, size_t size) {
    postcard_slice found = {NULL, 0};
    memset(items, 0, size);
    if (postcard_get_raw(reader, size, &found) == POSTCARD_OK) memcpy(items, found.bytes, size);
}

postcard_status Unit_put(postcard_writer *writer, const Unit *value) {
    (void)value;
    return writer->status;
}

postcard_status Unit_get(postcard_reader *reader, Unit *value) {
    value->nothing_ = 0;
    return reader->status;
}

postcard_status Nothing_put(postcard_writer *writer, const Nothing *value) {
    (void)value;
    return writer->status;
}

postcard_status Nothing_get(postcard_reader *reader, Nothing *value) {
    value->nothing_ = 0;
    return reader->status;
}

postcard_status Braces_put(postcard_writer *writer, const Braces *value) {
    (void)value;
    return writer->status;
}

postcard_status Braces_get(postcard_reader *reader, Braces *value) {
    value->nothing_ = 0;
    return reader->status;
}

postcard_status Serial_put(postcard_writer *writer, const Serial *value) {
    postcard_put_u64(writer, value->_0);
    return writer->status;
}

postcard_status Serial_get(postcard_reader *reader, Serial *value) {
    value->_0 = 0;
    postcard_get_u64(reader, &value->_0);
    return reader->status;
}

postcard_status Pair_put(postcard_writer *writer, const Pair *value) {
    postcard_put_i8(writer, value->_0);
    Unit_put(writer, &value->_1);
    return writer->status;
}

postcard_status Pair_get(postcard_reader *reader, Pair *value) {
    value->_0 = 0;
    postcard_get_i8(reader, &value->_0);
    Unit_get(reader, &value->_1);
    return reader->status;
}

postcard_status Numbers_put(postcard_writer *writer, const Numbers *value) {
    postcard_put_u8(writer, value->a);
    postcard_put_u16(writer, value->b);
    postcard_put_u32(writer, value->c);
    postcard_put_u64(writer, value->d);
    postcard_put_u128(writer, value->e.low, value->e.high);
    postcard_put_i8(writer, value->f);
    postcard_put_i16(writer, value->g);
    postcard_put_i32(writer, value->h);
    postcard_put_i64(writer, value->i);
    postcard_put_i128(writer, value->j.low, value->j.high);
    postcard_put_u64(writer, value->k);
    postcard_put_i64(writer, value->l);
    postcard_put_f32(writer, value->m);
    postcard_put_f64(writer, value->n);
    postcard_put_bool(writer, value->o);
    postcard_put_char(writer, value->p);
    return writer->status;
}

postcard_status Numbers_get(postcard_reader *reader, Numbers *value) {
    value->a = 0;
    postcard_get_u8(reader, &value->a);
    value->b = 0;
    postcard_get_u16(reader, &value->b);
    value->c = 0;
    postcard_get_u32(reader, &value->c);
    value->d = 0;
    postcard_get_u64(reader, &value->d);
    value->e.low = value->e.high = 0;
    postcard_get_u128(reader, &value->e.low, &value->e.high);
    value->f = 0;
    postcard_get_i8(reader, &value->f);
    value->g = 0;
    postcard_get_i16(reader, &value->g);
    value->h = 0;
    postcard_get_i32(reader, &value->h);
    value->i = 0;
    postcard_get_i64(reader, &value->i);
    value->j.low = value->j.high = 0;
    postcard_get_i128(reader, &value->j.low, &value->j.high);
    value->k = 0;
    postcard_get_u64(reader, &value->k);
    value->l = 0;
    postcard_get_i64(reader, &value->l);
    value->m = 0;
    postcard_get_f32(reader, &value->m);
    value->n = 0;
    postcard_get_f64(reader, &value->n);
    value->o = false;
    postcard_get_bool(reader, &value->o);
    value->p = 0;
    postcard_get_char(reader, &value->p);
    return reader->status;
}

postcard_status Widths_put(postcard_writer *writer, const Widths *value) {
    postcard_put_u16_le(writer, value->a);
    postcard_put_u32_le(writer, value->b);
    postcard_put_u64_le(writer, value->c);
    postcard_put_u128_le(writer, value->d.low, value->d.high);
    postcard_put_i16_le(writer, value->e);
    postcard_put_i32_le(writer, value->f);
    postcard_put_i64_le(writer, value->g);
    postcard_put_u128_le(writer, value->h.low, value->h.high);
    postcard_put_u16_be(writer, value->i);
    postcard_put_u32_be(writer, value->j);
    postcard_put_u64_be(writer, value->k);
    postcard_put_u128_be(writer, value->l.low, value->l.high);
    postcard_put_i16_be(writer, value->m);
    postcard_put_i32_be(writer, value->n);
    postcard_put_i64_be(writer, value->o);
    postcard_put_u128_be(writer, value->p.low, value->p.high);
    postcard_put_u64_le(writer, value->q);
    postcard_put_u128_be(writer, value->r.low, value->r.high);
    return writer->status;
}

postcard_status Widths_get(postcard_reader *reader, Widths *value) {
    value->a = 0;
    postcard_get_u16_le(reader, &value->a);
    value->b = 0;
    postcard_get_u32_le(reader, &value->b);
    value->c = 0;
    postcard_get_u64_le(reader, &value->c);
    value->d.low = value->d.high = 0;
    postcard_get_u128_le(reader, &value->d.low, &value->d.high);
    value->e = 0;
    postcard_get_i16_le(reader, &value->e);
    value->f = 0;
    postcard_get_i32_le(reader, &value->f);
    value->g = 0;
    postcard_get_i64_le(reader, &value->g);
    value->h.low = value->h.high = 0;
    postcard_get_u128_le(reader, &value->h.low, &value->h.high);
    value->i = 0;
    postcard_get_u16_be(reader, &value->i);
    value->j = 0;
    postcard_get_u32_be(reader, &value->j);
    value->k = 0;
    postcard_get_u64_be(reader, &value->k);
    value->l.low = value->l.high = 0;
    postcard_get_u128_be(reader, &value->l.low, &value->l.high);
    value->m = 0;
    postcard_get_i16_be(reader, &value->m);
    value->n = 0;
    postcard_get_i32_be(reader, &value->n);
    value->o = 0;
    postcard_get_i64_be(reader, &value->o);
    value->p.low = value->p.high = 0;
    postcard_get_u128_be(reader, &value->p.low, &value->p.high);
    value->q = 0;
    postcard_get_u64_le(reader, &value->q);
    value->r.low = value->r.high = 0;
    postcard_get_u128_be(reader, &value->r.low, &value->r.high);
    return reader->status;
}

postcard_status forms_option_nonzero_u64_put(postcard_writer *writer, const forms_option_nonzero_u64 *value) {
    if (value->some) {
        postcard_put_some(writer);
        if (value->value == 0) bad_value_(writer);
        postcard_put_u64(writer, value->value);
    } else {
        postcard_put_none(writer);
    }
    return writer->status;
}

postcard_status forms_option_nonzero_u64_get(postcard_reader *reader, forms_option_nonzero_u64 *value) {
    value->some = false;
    postcard_get_option(reader, &value->some);
    if (value->some) {
        {
            size_t begin = reader->at;
            value->value = 0;
            postcard_get_u64(reader, &value->value);
            if (value->value == 0) bad_message_(reader, begin);
        }
    }
    return reader->status;
}

postcard_status forms_list_nonzero_u8_put(postcard_writer *writer, const forms_list_nonzero_u8 *value) {
    postcard_put_count(writer, value->count);
    if (value->items == NULL) {
        uint8_t item;
        size_t read = 0;
        postcard_reader reader = forms_list_nonzero_u8_reader(value);
        for (; forms_list_nonzero_u8_next(&reader, &item); read++) {
            if (item == 0) bad_value_(writer);
            postcard_put_u8(writer, item);
        }
        if (read != value->count || reader.status != POSTCARD_OK) bad_value_(writer);
        return writer->status;
    }
    for (size_t i = 0; i < value->count; i++) {
        if (value->items[i] == 0) bad_value_(writer);
        postcard_put_u8(writer, value->items[i]);
    }
    return writer->status;
}

postcard_status forms_list_nonzero_u8_get(postcard_reader *reader, forms_list_nonzero_u8 *value) {
    uint8_t item;
    size_t count = 0, start = reader->at;
    value->count = 0;
    value->items = NULL, value->encoded.bytes = NULL, value->encoded.size = 0;
    if (postcard_get_count(reader, &count) != POSTCARD_OK) return reader->status;
    start = reader->at;
    for (size_t i = 0; i < count && reader->status == POSTCARD_OK; i++) {
        {
            size_t begin = reader->at;
            item = 0;
            postcard_get_u8(reader, &item);
            if (item == 0) bad_message_(reader, begin);
        }
    }
    if (reader->status == POSTCARD_OK) value->count = count, value->encoded.bytes = reader->bytes + start, value->encoded.size = reader->at - start;
    return reader->status;
}

bool forms_list_nonzero_u8_next(postcard_reader *reader, uint8_t *item) {
    if (reader->status != POSTCARD_OK || reader->at >= reader->size) return false;
    {
        size_t begin = reader->at;
        *item = 0;
        postcard_get_u8(reader, item);
        if (*item == 0) bad_message_(reader, begin);
    }
    return reader->status == POSTCARD_OK;
}

postcard_status forms_list2_nonzero_i64_put(postcard_writer *writer, const forms_list2_nonzero_i64 *value) {
    if (value->count > 2u) return bad_value_(writer), writer->status;
    postcard_put_count(writer, value->count);
    for (size_t i = 0; i < value->count; i++) {
        if (value->items[i] == 0) bad_value_(writer);
        postcard_put_i64(writer, value->items[i]);
    }
    return writer->status;
}

postcard_status forms_list2_nonzero_i64_get(postcard_reader *reader, forms_list2_nonzero_i64 *value) {
    size_t count = 0, start = reader->at;
    value->count = 0;
    if (postcard_get_count(reader, &count) != POSTCARD_OK) return reader->status;
    if (count > 2u) return bad_message_(reader, start), reader->status;
    for (size_t i = 0; i < count && reader->status == POSTCARD_OK; i++) {
        {
            size_t begin = reader->at;
            value->items[i] = 0;
            postcard_get_i64(reader, &value->items[i]);
            if (value->items[i] == 0) bad_message_(reader, begin);
        }
    }
    if (reader->status == POSTCARD_OK) value->count = (uint8_t)count;
    return reader->status;
}

postcard_status forms_result_nonzero_u16_u8_put(postcard_writer *writer, const forms_result_nonzero_u16_u8 *value) {
    postcard_put_variant(writer, value->is_ok ? 0u : 1u);
    if (value->is_ok) {
        if (value->as.ok == 0) bad_value_(writer);
        postcard_put_u16(writer, value->as.ok);
    }
    if (!value->is_ok) {
        postcard_put_u8(writer, value->as.err);
    }
    return writer->status;
}

postcard_status forms_result_nonzero_u16_u8_get(postcard_reader *reader, forms_result_nonzero_u16_u8 *value) {
    uint32_t index = 0;
    size_t start = reader->at;
    postcard_get_variant(reader, &index);
    if (index >= 2u) index = 0, bad_message_(reader, start);
    value->is_ok = index == 0;
    if (value->is_ok) {
        {
            size_t begin = reader->at;
            value->as.ok = 0;
            postcard_get_u16(reader, &value->as.ok);
            if (value->as.ok == 0) bad_message_(reader, begin);
        }
    }
    if (!value->is_ok) {
        value->as.err = 0;
        postcard_get_u8(reader, &value->as.err);
    }
    return reader->status;
}

postcard_status forms_option_nonzero_i64_put(postcard_writer *writer, const forms_option_nonzero_i64 *value) {
    if (value->some) {
        postcard_put_some(writer);
        if (value->value == 0) bad_value_(writer);
        postcard_put_i64(writer, value->value);
    } else {
        postcard_put_none(writer);
    }
    return writer->status;
}

postcard_status forms_option_nonzero_i64_get(postcard_reader *reader, forms_option_nonzero_i64 *value) {
    value->some = false;
    postcard_get_option(reader, &value->some);
    if (value->some) {
        {
            size_t begin = reader->at;
            value->value = 0;
            postcard_get_i64(reader, &value->value);
            if (value->value == 0) bad_message_(reader, begin);
        }
    }
    return reader->status;
}

postcard_status Counted_put(postcard_writer *writer, const Counted *value) {
    if ((uint32_t)value->tag >= 3u) bad_value_(writer);
    postcard_put_variant(writer, (uint32_t)value->tag);
    switch (value->tag) {
        case Counted_Off:
            break;
        case Counted_On:
            if (value->as.on == 0) bad_value_(writer);
            postcard_put_i8(writer, value->as.on);
            break;
        case Counted_Both:
            if (value->as.both.a == 0) bad_value_(writer);
            postcard_put_i32(writer, value->as.both.a);
            if (value->as.both.b.some) {
                postcard_put_some(writer);
                if (value->as.both.b.value == 0) bad_value_(writer);
                postcard_put_i64(writer, value->as.both.b.value);
            } else {
                postcard_put_none(writer);
            }
            break;
    }
    return writer->status;
}

postcard_status Counted_get(postcard_reader *reader, Counted *value) {
    uint32_t index = 0;
    size_t start = reader->at;
    postcard_get_variant(reader, &index);
    if (index >= 3u) index = 0, bad_message_(reader, start);
    value->tag = (Counted_tag)index;
    switch (value->tag) {
        case Counted_Off:
            break;
        case Counted_On:
            {
                size_t begin = reader->at;
                value->as.on = 0;
                postcard_get_i8(reader, &value->as.on);
                if (value->as.on == 0) bad_message_(reader, begin);
            }
            break;
        case Counted_Both:
            {
                size_t begin = reader->at;
                value->as.both.a = 0;
                postcard_get_i32(reader, &value->as.both.a);
                if (value->as.both.a == 0) bad_message_(reader, begin);
            }
            value->as.both.b.some = false;
            postcard_get_option(reader, &value->as.both.b.some);
            if (value->as.both.b.some) {
                {
                    size_t begin = reader->at;
                    value->as.both.b.value = 0;
                    postcard_get_i64(reader, &value->as.both.b.value);
                    if (value->as.both.b.value == 0) bad_message_(reader, begin);
                }
            }
            break;
    }
    return reader->status;
}

postcard_status NonZeros_put(postcard_writer *writer, const NonZeros *value) {
    if (value->a == 0) bad_value_(writer);
    postcard_put_u8(writer, value->a);
    if (value->b == 0) bad_value_(writer);
    postcard_put_i16(writer, value->b);
    if (value->c == 0) bad_value_(writer);
    postcard_put_u32(writer, value->c);
    if (value->d.some) {
        postcard_put_some(writer);
        if (value->d.value == 0) bad_value_(writer);
        postcard_put_u64(writer, value->d.value);
    } else {
        postcard_put_none(writer);
    }
    if ((value->e.low | value->e.high) == 0) bad_value_(writer);
    postcard_put_u128(writer, value->e.low, value->e.high);
    forms_list_nonzero_u8_put(writer, &value->f);
    forms_list2_nonzero_i64_put(writer, &value->g);
    forms_result_nonzero_u16_u8_put(writer, &value->h);
    Counted_put(writer, &value->i);
    return writer->status;
}

postcard_status NonZeros_get(postcard_reader *reader, NonZeros *value) {
    {
        size_t begin = reader->at;
        value->a = 0;
        postcard_get_u8(reader, &value->a);
        if (value->a == 0) bad_message_(reader, begin);
    }
    {
        size_t begin = reader->at;
        value->b = 0;
        postcard_get_i16(reader, &value->b);
        if (value->b == 0) bad_message_(reader, begin);
    }
    {
        size_t begin = reader->at;
        value->c = 0;
        postcard_get_u32(reader, &value->c);
        if (value->c == 0) bad_message_(reader, begin);
    }
    value->d.some = false;
    postcard_get_option(reader, &value->d.some);
    if (value->d.some) {
        {
            size_t begin = reader->at;
            value->d.value = 0;
            postcard_get_u64(reader, &value->d.value);
            if (value->d.value == 0) bad_message_(reader, begin);
        }
    }
    {
        size_t begin = reader->at;
        value->e.low = value->e.high = 0;
        postcard_get_u128(reader, &value->e.low, &value->e.high);
        if ((value->e.low | value->e.high) == 0) bad_message_(reader, begin);
    }
    forms_list_nonzero_u8_get(reader, &value->f);
    forms_list2_nonzero_i64_get(reader, &value->g);
    forms_result_nonzero_u16_u8_get(reader, &value->h);
    Counted_get(reader, &value->i);
    return reader->status;
}

postcard_status forms_option_bool_put(postcard_writer *writer, const forms_option_bool *value) {
    if (value->some) {
        postcard_put_some(writer);
        postcard_put_bool(writer, value->value);
    } else {
        postcard_put_none(writer);
    }
    return writer->status;
}

postcard_status forms_option_bool_get(postcard_reader *reader, forms_option_bool *value) {
    value->some = false;
    postcard_get_option(reader, &value->some);
    if (value->some) {
        value->value = false;
        postcard_get_bool(reader, &value->value);
    }
    return reader->status;
}

postcard_status forms_list3_option_bool_put(postcard_writer *writer, const forms_list3_option_bool *value) {
    if (value->count > 3u) return bad_value_(writer), writer->status;
    postcard_put_count(writer, value->count);
    for (size_t i = 0; i < value->count; i++) {
        if (value->items[i].some) {
            postcard_put_some(writer);
            postcard_put_bool(writer, value->items[i].value);
        } else {
            postcard_put_none(writer);
        }
    }
    return writer->status;
}

postcard_status forms_list3_option_bool_get(postcard_reader *reader, forms_list3_option_bool *value) {
    size_t count = 0, start = reader->at;
    value->count = 0;
    if (postcard_get_count(reader, &count) != POSTCARD_OK) return reader->status;
    if (count > 3u) return bad_message_(reader, start), reader->status;
    for (size_t i = 0; i < count && reader->status == POSTCARD_OK; i++) {
        value->items[i].some = false;
        postcard_get_option(reader, &value->items[i].some);
        if (value->items[i].some) {
            value->items[i].value = false;
            postcard_get_bool(reader, &value->items[i].value);
        }
    }
    if (reader->status == POSTCARD_OK) value->count = (uint8_t)count;
    return reader->status;
}

postcard_status forms_list2_str3_put(postcard_writer *writer, const forms_list2_str3 *value) {
    if (value->count > 2u) return bad_value_(writer), writer->status;
    postcard_put_count(writer, value->count);
    for (size_t i = 0; i < value->count; i++) {
        if (value->items[i].size > 3u) bad_value_(writer);
        else postcard_put_str(writer, value->items[i].text, value->items[i].size);
    }
    return writer->status;
}

postcard_status forms_list2_str3_get(postcard_reader *reader, forms_list2_str3 *value) {
    size_t count = 0, start = reader->at;
    value->count = 0;
    if (postcard_get_count(reader, &count) != POSTCARD_OK) return reader->status;
    if (count > 2u) return bad_message_(reader, start), reader->status;
    for (size_t i = 0; i < count && reader->status == POSTCARD_OK; i++) {
        value->items[i].size = (uint8_t)get_text_(reader, value->items[i].text, 3u);
    }
    if (reader->status == POSTCARD_OK) value->count = (uint8_t)count;
    return reader->status;
}

postcard_status forms_tuple2_str4_bytes6_put(postcard_writer *writer, const forms_tuple2_str4_bytes6 *value) {
    if (value->_0.size > 4u) bad_value_(writer);
    else postcard_put_str(writer, value->_0.text, value->_0.size);
    if (value->_1.count > 6u) bad_value_(writer);
    else postcard_put_bytes(writer, value->_1.items, value->_1.count);
    return writer->status;
}

postcard_status forms_tuple2_str4_bytes6_get(postcard_reader *reader, forms_tuple2_str4_bytes6 *value) {
    value->_0.size = (uint8_t)get_text_(reader, value->_0.text, 4u);
    value->_1.count = (uint8_t)get_bytes_(reader, value->_1.items, 6u);
    return reader->status;
}

postcard_status forms_map2_str4_bytes6_put(postcard_writer *writer, const forms_map2_str4_bytes6 *value) {
    if (value->count > 2u) return bad_value_(writer), writer->status;
    postcard_put_count(writer, value->count);
    for (size_t i = 0; i < value->count; i++) {
        if (value->items[i]._0.size > 4u) bad_value_(writer);
        else postcard_put_str(writer, value->items[i]._0.text, value->items[i]._0.size);
        if (value->items[i]._1.count > 6u) bad_value_(writer);
        else postcard_put_bytes(writer, value->items[i]._1.items, value->items[i]._1.count);
    }
    return writer->status;
}

postcard_status forms_map2_str4_bytes6_get(postcard_reader *reader, forms_map2_str4_bytes6 *value) {
    size_t count = 0, start = reader->at;
    value->count = 0;
    if (postcard_get_count(reader, &count) != POSTCARD_OK) return reader->status;
    if (count > 2u) return bad_message_(reader, start), reader->status;
    for (size_t i = 0; i < count && reader->status == POSTCARD_OK; i++) {
        value->items[i]._0.size = (uint8_t)get_text_(reader, value->items[i]._0.text, 4u);
        value->items[i]._1.count = (uint8_t)get_bytes_(reader, value->items[i]._1.items, 6u);
    }
    if (reader->status == POSTCARD_OK) value->count = (uint8_t)count;
    return reader->status;
}

postcard_status forms_tuple2_u8_u16_put(postcard_writer *writer, const forms_tuple2_u8_u16 *value) {
    postcard_put_u8(writer, value->_0);
    postcard_put_u16(writer, value->_1);
    return writer->status;
}

postcard_status forms_tuple2_u8_u16_get(postcard_reader *reader, forms_tuple2_u8_u16 *value) {
    value->_0 = 0;
    postcard_get_u8(reader, &value->_0);
    value->_1 = 0;
    postcard_get_u16(reader, &value->_1);
    return reader->status;
}

postcard_status forms_list1_tuple2_u8_u16_put(postcard_writer *writer, const forms_list1_tuple2_u8_u16 *value) {
    if (value->count > 1u) return bad_value_(writer), writer->status;
    postcard_put_count(writer, value->count);
    for (size_t i = 0; i < value->count; i++) {
        postcard_put_u8(writer, value->items[i]._0);
        postcard_put_u16(writer, value->items[i]._1);
    }
    return writer->status;
}

postcard_status forms_list1_tuple2_u8_u16_get(postcard_reader *reader, forms_list1_tuple2_u8_u16 *value) {
    size_t count = 0, start = reader->at;
    value->count = 0;
    if (postcard_get_count(reader, &count) != POSTCARD_OK) return reader->status;
    if (count > 1u) return bad_message_(reader, start), reader->status;
    for (size_t i = 0; i < count && reader->status == POSTCARD_OK; i++) {
        value->items[i]._0 = 0;
        postcard_get_u8(reader, &value->items[i]._0);
        value->items[i]._1 = 0;
        postcard_get_u16(reader, &value->items[i]._1);
    }
    if (reader->status == POSTCARD_OK) value->count = (uint8_t)count;
    return reader->status;
}

postcard_status forms_list0_u16_put(postcard_writer *writer, const forms_list0_u16 *value) {
    if (value->count > 0u) return bad_value_(writer), writer->status;
    postcard_put_count(writer, value->count);
    for (size_t i = 0; i < value->count; i++) {
        postcard_put_u16(writer, value->items[i]);
    }
    return writer->status;
}

postcard_status forms_list0_u16_get(postcard_reader *reader, forms_list0_u16 *value) {
    size_t count = 0, start = reader->at;
    value->count = 0;
    if (postcard_get_count(reader, &count) != POSTCARD_OK) return reader->status;
    if (count > 0u) return bad_message_(reader, start), reader->status;
    for (size_t i = 0; i < count && reader->status == POSTCARD_OK; i++) {
        value->items[i] = 0;
        postcard_get_u16(reader, &value->items[i]);
    }
    if (reader->status == POSTCARD_OK) value->count = (uint8_t)count;
    return reader->status;
}

postcard_status forms_tuple2_char_f32_put(postcard_writer *writer, const forms_tuple2_char_f32 *value) {
    postcard_put_char(writer, value->_0);
    postcard_put_f32(writer, value->_1);
    return writer->status;
}

postcard_status forms_tuple2_char_f32_get(postcard_reader *reader, forms_tuple2_char_f32 *value) {
    value->_0 = 0;
    postcard_get_char(reader, &value->_0);
    value->_1 = 0;
    postcard_get_f32(reader, &value->_1);
    return reader->status;
}

postcard_status forms_map2_char_f32_put(postcard_writer *writer, const forms_map2_char_f32 *value) {
    if (value->count > 2u) return bad_value_(writer), writer->status;
    postcard_put_count(writer, value->count);
    for (size_t i = 0; i < value->count; i++) {
        postcard_put_char(writer, value->items[i]._0);
        postcard_put_f32(writer, value->items[i]._1);
    }
    return writer->status;
}

postcard_status forms_map2_char_f32_get(postcard_reader *reader, forms_map2_char_f32 *value) {
    size_t count = 0, start = reader->at;
    value->count = 0;
    if (postcard_get_count(reader, &count) != POSTCARD_OK) return reader->status;
    if (count > 2u) return bad_message_(reader, start), reader->status;
    for (size_t i = 0; i < count && reader->status == POSTCARD_OK; i++) {
        value->items[i]._0 = 0;
        postcard_get_char(reader, &value->items[i]._0);
        value->items[i]._1 = 0;
        postcard_get_f32(reader, &value->items[i]._1);
    }
    if (reader->status == POSTCARD_OK) value->count = (uint8_t)count;
    return reader->status;
}

postcard_status forms_list255_bool_put(postcard_writer *writer, const forms_list255_bool *value) {
    postcard_put_count(writer, value->count);
    for (size_t i = 0; i < value->count; i++) {
        postcard_put_bool(writer, value->items[i]);
    }
    return writer->status;
}

postcard_status forms_list255_bool_get(postcard_reader *reader, forms_list255_bool *value) {
    size_t count = 0, start = reader->at;
    value->count = 0;
    if (postcard_get_count(reader, &count) != POSTCARD_OK) return reader->status;
    if (count > 255u) return bad_message_(reader, start), reader->status;
    for (size_t i = 0; i < count && reader->status == POSTCARD_OK; i++) {
        value->items[i] = false;
        postcard_get_bool(reader, &value->items[i]);
    }
    if (reader->status == POSTCARD_OK) value->count = (uint8_t)count;
    return reader->status;
}

postcard_status Capacities_put(postcard_writer *writer, const Capacities *value) {
    postcard_put_str(writer, value->a.text, value->a.size);
    if (value->b.size > 256u) bad_value_(writer);
    else postcard_put_str(writer, value->b.text, value->b.size);
    if (value->c.count > 256u) bad_value_(writer);
    else postcard_put_bytes(writer, value->c.items, value->c.count);
    forms_list3_option_bool_put(writer, &value->d);
    if (value->e.size > 5u) bad_value_(writer);
    else postcard_put_str(writer, value->e.text, value->e.size);
    forms_list2_str3_put(writer, &value->f);
    forms_map2_str4_bytes6_put(writer, &value->g);
    forms_list1_tuple2_u8_u16_put(writer, &value->h);
    forms_list0_u16_put(writer, &value->i);
    forms_map2_char_f32_put(writer, &value->j);
    forms_list255_bool_put(writer, &value->k);
    return writer->status;
}

postcard_status Capacities_get(postcard_reader *reader, Capacities *value) {
    value->a.size = (uint8_t)get_text_(reader, value->a.text, 255u);
    value->b.size = (uint16_t)get_text_(reader, value->b.text, 256u);
    value->c.count = (uint16_t)get_bytes_(reader, value->c.items, 256u);
    forms_list3_option_bool_get(reader, &value->d);
    value->e.size = (uint8_t)get_text_(reader, value->e.text, 5u);
    forms_list2_str3_get(reader, &value->f);
    forms_map2_str4_bytes6_get(reader, &value->g);
    forms_list1_tuple2_u8_u16_get(reader, &value->h);
    forms_list0_u16_get(reader, &value->i);
    forms_map2_char_f32_get(reader, &value->j);
    forms_list255_bool_get(reader, &value->k);
    return reader->status;
}

postcard_status forms_list_u16_put(postcard_writer *writer, const forms_list_u16 *value) {
    postcard_put_count(writer, value->count);
    if (value->items == NULL) {
        uint16_t item;
        size_t read = 0;
        postcard_reader reader = forms_list_u16_reader(value);
        for (; forms_list_u16_next(&reader, &item); read++) {
            postcard_put_u16(writer, item);
        }
        if (read != value->count || reader.status != POSTCARD_OK) bad_value_(writer);
        return writer->status;
    }
    for (size_t i = 0; i < value->count; i++) {
        postcard_put_u16(writer, value->items[i]);
    }
    return writer->status;
}

postcard_status forms_list_u16_get(postcard_reader *reader, forms_list_u16 *value) {
    uint16_t item;
    size_t count = 0, start = reader->at;
    value->count = 0;
    value->items = NULL, value->encoded.bytes = NULL, value->encoded.size = 0;
    if (postcard_get_count(reader, &count) != POSTCARD_OK) return reader->status;
    start = reader->at;
    for (size_t i = 0; i < count && reader->status == POSTCARD_OK; i++) {
        item = 0;
        postcard_get_u16(reader, &item);
    }
    if (reader->status == POSTCARD_OK) value->count = count, value->encoded.bytes = reader->bytes + start, value->encoded.size = reader->at - start;
    return reader->status;
}

bool forms_list_u16_next(postcard_reader *reader, uint16_t *item) {
    if (reader->status != POSTCARD_OK || reader->at >= reader->size) return false;
    *item = 0;
    postcard_get_u16(reader, item);
    return reader->status == POSTCARD_OK;
}

postcard_status forms_option_i32_put(postcard_writer *writer, const forms_option_i32 *value) {
    if (value->some) {
        postcard_put_some(writer);
        postcard_put_i32(writer, value->value);
    } else {
        postcard_put_none(writer);
    }
    return writer->status;
}

postcard_status forms_option_i32_get(postcard_reader *reader, forms_option_i32 *value) {
    value->some = false;
    postcard_get_option(reader, &value->some);
    if (value->some) {
        value->value = 0;
        postcard_get_i32(reader, &value->value);
    }
    return reader->status;
}

postcard_status forms_list_option_i32_put(postcard_writer *writer, const forms_list_option_i32 *value) {
    postcard_put_count(writer, value->count);
    if (value->items == NULL) {
        forms_option_i32 item;
        size_t read = 0;
        postcard_reader reader = forms_list_option_i32_reader(value);
        for (; forms_list_option_i32_next(&reader, &item); read++) {
            if (item.some) {
                postcard_put_some(writer);
                postcard_put_i32(writer, item.value);
            } else {
                postcard_put_none(writer);
            }
        }
        if (read != value->count || reader.status != POSTCARD_OK) bad_value_(writer);
        return writer->status;
    }
    for (size_t i = 0; i < value->count; i++) {
        if (value->items[i].some) {
            postcard_put_some(writer);
            postcard_put_i32(writer, value->items[i].value);
        } else {
            postcard_put_none(writer);
        }
    }
    return writer->status;
}

postcard_status forms_list_option_i32_get(postcard_reader *reader, forms_list_option_i32 *value) {
    forms_option_i32 item;
    size_t count = 0, start = reader->at;
    value->count = 0;
    value->items = NULL, value->encoded.bytes = NULL, value->encoded.size = 0;
    if (postcard_get_count(reader, &count) != POSTCARD_OK) return reader->status;
    start = reader->at;
    for (size_t i = 0; i < count && reader->status == POSTCARD_OK; i++) {
        item.some = false;
        postcard_get_option(reader, &item.some);
        if (item.some) {
            item.value = 0;
            postcard_get_i32(reader, &item.value);
        }
    }
    if (reader->status == POSTCARD_OK) value->count = count, value->encoded.bytes = reader->bytes + start, value->encoded.size = reader->at - start;
    return reader->status;
}

bool forms_list_option_i32_next(postcard_reader *reader, forms_option_i32 *item) {
    if (reader->status != POSTCARD_OK || reader->at >= reader->size) return false;
    item->some = false;
    postcard_get_option(reader, &item->some);
    if (item->some) {
        item->value = 0;
        postcard_get_i32(reader, &item->value);
    }
    return reader->status == POSTCARD_OK;
}

postcard_status forms_list_list_option_i32_put(postcard_writer *writer, const forms_list_list_option_i32 *value) {
    postcard_put_count(writer, value->count);
    if (value->items == NULL) {
        forms_list_option_i32 item;
        size_t read = 0;
        postcard_reader reader = forms_list_list_option_i32_reader(value);
        for (; forms_list_list_option_i32_next(&reader, &item); read++) {
            forms_list_option_i32_put(writer, &item);
        }
        if (read != value->count || reader.status != POSTCARD_OK) bad_value_(writer);
        return writer->status;
    }
    for (size_t i = 0; i < value->count; i++) {
        forms_list_option_i32_put(writer, &value->items[i]);
    }
    return writer->status;
}

postcard_status forms_list_list_option_i32_get(postcard_reader *reader, forms_list_list_option_i32 *value) {
    forms_list_option_i32 item;
    size_t count = 0, start = reader->at;
    value->count = 0;
    value->items = NULL, value->encoded.bytes = NULL, value->encoded.size = 0;
    if (postcard_get_count(reader, &count) != POSTCARD_OK) return reader->status;
    start = reader->at;
    for (size_t i = 0; i < count && reader->status == POSTCARD_OK; i++) {
        forms_list_option_i32_get(reader, &item);
    }
    if (reader->status == POSTCARD_OK) value->count = count, value->encoded.bytes = reader->bytes + start, value->encoded.size = reader->at - start;
    return reader->status;
}

bool forms_list_list_option_i32_next(postcard_reader *reader, forms_list_option_i32 *item) {
    if (reader->status != POSTCARD_OK || reader->at >= reader->size) return false;
    forms_list_option_i32_get(reader, item);
    return reader->status == POSTCARD_OK;
}

postcard_status forms_tuple2_u16_str_put(postcard_writer *writer, const forms_tuple2_u16_str *value) {
    postcard_put_u16(writer, value->_0);
    postcard_put_str(writer, (const char *)value->_1.bytes, value->_1.size);
    return writer->status;
}

postcard_status forms_tuple2_u16_str_get(postcard_reader *reader, forms_tuple2_u16_str *value) {
    value->_0 = 0;
    postcard_get_u16(reader, &value->_0);
    value->_1.bytes = NULL, value->_1.size = 0;
    postcard_get_str(reader, &value->_1);
    return reader->status;
}

postcard_status forms_map_u16_str_put(postcard_writer *writer, const forms_map_u16_str *value) {
    postcard_put_count(writer, value->count);
    if (value->items == NULL) {
        forms_tuple2_u16_str item;
        size_t read = 0;
        postcard_reader reader = forms_map_u16_str_reader(value);
        for (; forms_map_u16_str_next(&reader, &item); read++) {
            postcard_put_u16(writer, item._0);
            postcard_put_str(writer, (const char *)item._1.bytes, item._1.size);
        }
        if (read != value->count || reader.status != POSTCARD_OK) bad_value_(writer);
        return writer->status;
    }
    for (size_t i = 0; i < value->count; i++) {
        postcard_put_u16(writer, value->items[i]._0);
        postcard_put_str(writer, (const char *)value->items[i]._1.bytes, value->items[i]._1.size);
    }
    return writer->status;
}

postcard_status forms_map_u16_str_get(postcard_reader *reader, forms_map_u16_str *value) {
    forms_tuple2_u16_str item;
    size_t count = 0, start = reader->at;
    value->count = 0;
    value->items = NULL, value->encoded.bytes = NULL, value->encoded.size = 0;
    if (postcard_get_count(reader, &count) != POSTCARD_OK) return reader->status;
    start = reader->at;
    for (size_t i = 0; i < count && reader->status == POSTCARD_OK; i++) {
        item._0 = 0;
        postcard_get_u16(reader, &item._0);
        item._1.bytes = NULL, item._1.size = 0;
        postcard_get_str(reader, &item._1);
    }
    if (reader->status == POSTCARD_OK) value->count = count, value->encoded.bytes = reader->bytes + start, value->encoded.size = reader->at - start;
    return reader->status;
}

bool forms_map_u16_str_next(postcard_reader *reader, forms_tuple2_u16_str *item) {
    if (reader->status != POSTCARD_OK || reader->at >= reader->size) return false;
    item->_0 = 0;
    postcard_get_u16(reader, &item->_0);
    item->_1.bytes = NULL, item->_1.size = 0;
    postcard_get_str(reader, &item->_1);
    return reader->status == POSTCARD_OK;
}

postcard_status forms_tuple2_u8_bool_put(postcard_writer *writer, const forms_tuple2_u8_bool *value) {
    postcard_put_u8(writer, value->_0);
    postcard_put_bool(writer, value->_1);
    return writer->status;
}

postcard_status forms_tuple2_u8_bool_get(postcard_reader *reader, forms_tuple2_u8_bool *value) {
    value->_0 = 0;
    postcard_get_u8(reader, &value->_0);
    value->_1 = false;
    postcard_get_bool(reader, &value->_1);
    return reader->status;
}

postcard_status forms_list_tuple2_u8_bool_put(postcard_writer *writer, const forms_list_tuple2_u8_bool *value) {
    postcard_put_count(writer, value->count);
    if (value->items == NULL) {
        forms_tuple2_u8_bool item;
        size_t read = 0;
        postcard_reader reader = forms_list_tuple2_u8_bool_reader(value);
        for (; forms_list_tuple2_u8_bool_next(&reader, &item); read++) {
            postcard_put_u8(writer, item._0);
            postcard_put_bool(writer, item._1);
        }
        if (read != value->count || reader.status != POSTCARD_OK) bad_value_(writer);
        return writer->status;
    }
    for (size_t i = 0; i < value->count; i++) {
        postcard_put_u8(writer, value->items[i]._0);
        postcard_put_bool(writer, value->items[i]._1);
    }
    return writer->status;
}

postcard_status forms_list_tuple2_u8_bool_get(postcard_reader *reader, forms_list_tuple2_u8_bool *value) {
    forms_tuple2_u8_bool item;
    size_t count = 0, start = reader->at;
    value->count = 0;
    value->items = NULL, value->encoded.bytes = NULL, value->encoded.size = 0;
    if (postcard_get_count(reader, &count) != POSTCARD_OK) return reader->status;
    start = reader->at;
    for (size_t i = 0; i < count && reader->status == POSTCARD_OK; i++) {
        item._0 = 0;
        postcard_get_u8(reader, &item._0);
        item._1 = false;
        postcard_get_bool(reader, &item._1);
    }
    if (reader->status == POSTCARD_OK) value->count = count, value->encoded.bytes = reader->bytes + start, value->encoded.size = reader->at - start;
    return reader->status;
}

bool forms_list_tuple2_u8_bool_next(postcard_reader *reader, forms_tuple2_u8_bool *item) {
    if (reader->status != POSTCARD_OK || reader->at >= reader->size) return false;
    item->_0 = 0;
    postcard_get_u8(reader, &item->_0);
    item->_1 = false;
    postcard_get_bool(reader, &item->_1);
    return reader->status == POSTCARD_OK;
}

postcard_status forms_list_array2_i16_put(postcard_writer *writer, const forms_list_array2_i16 *value) {
    postcard_put_count(writer, value->count);
    if (value->items == NULL) {
        int16_t item[2];
        size_t read = 0;
        postcard_reader reader = forms_list_array2_i16_reader(value);
        for (; forms_list_array2_i16_next(&reader, &item); read++) {
            for (size_t i0 = 0; i0 < 2u; i0++) {
                postcard_put_i16(writer, item[i0]);
            }
        }
        if (read != value->count || reader.status != POSTCARD_OK) bad_value_(writer);
        return writer->status;
    }
    for (size_t i = 0; i < value->count; i++) {
        for (size_t i0 = 0; i0 < 2u; i0++) {
            postcard_put_i16(writer, value->items[i][i0]);
        }
    }
    return writer->status;
}

postcard_status forms_list_array2_i16_get(postcard_reader *reader, forms_list_array2_i16 *value) {
    int16_t item[2];
    size_t count = 0, start = reader->at;
    value->count = 0;
    value->items = NULL, value->encoded.bytes = NULL, value->encoded.size = 0;
    if (postcard_get_count(reader, &count) != POSTCARD_OK) return reader->status;
    start = reader->at;
    for (size_t i = 0; i < count && reader->status == POSTCARD_OK; i++) {
        for (size_t i0 = 0; i0 < 2u; i0++) {
            item[i0] = 0;
            postcard_get_i16(reader, &item[i0]);
        }
    }
    if (reader->status == POSTCARD_OK) value->count = count, value->encoded.bytes = reader->bytes + start, value->encoded.size = reader->at - start;
    return reader->status;
}

bool forms_list_array2_i16_next(postcard_reader *reader, int16_t (*item)[2]) {
    if (reader->status != POSTCARD_OK || reader->at >= reader->size) return false;
    for (size_t i0 = 0; i0 < 2u; i0++) {
        (*item)[i0] = 0;
        postcard_get_i16(reader, &(*item)[i0]);
    }
    return reader->status == POSTCARD_OK;
}

postcard_status Level_put(postcard_writer *writer, const Level *value) {
    if ((uint32_t)*value >= 3u) bad_value_(writer);
    postcard_put_variant(writer, (uint32_t)*value);
    return writer->status;
}

postcard_status Level_get(postcard_reader *reader, Level *value) {
    uint32_t index = 0;
    size_t start = reader->at;
    postcard_get_variant(reader, &index);
    if (index >= 3u) index = 0, bad_message_(reader, start);
    *value = (Level)index;
    return reader->status;
}

postcard_status forms_list_Level_put(postcard_writer *writer, const forms_list_Level *value) {
    postcard_put_count(writer, value->count);
    if (value->items == NULL) {
        Level item;
        size_t read = 0;
        postcard_reader reader = forms_list_Level_reader(value);
        for (; forms_list_Level_next(&reader, &item); read++) {
            Level_put(writer, &item);
        }
        if (read != value->count || reader.status != POSTCARD_OK) bad_value_(writer);
        return writer->status;
    }
    for (size_t i = 0; i < value->count; i++) {
        Level_put(writer, &value->items[i]);
    }
    return writer->status;
}

postcard_status forms_list_Level_get(postcard_reader *reader, forms_list_Level *value) {
    Level item;
    size_t count = 0, start = reader->at;
    value->count = 0;
    value->items = NULL, value->encoded.bytes = NULL, value->encoded.size = 0;
    if (postcard_get_count(reader, &count) != POSTCARD_OK) return reader->status;
    start = reader->at;
    for (size_t i = 0; i < count && reader->status == POSTCARD_OK; i++) {
        Level_get(reader, &item);
    }
    if (reader->status == POSTCARD_OK) value->count = count, value->encoded.bytes = reader->bytes + start, value->encoded.size = reader->at - start;
    return reader->status;
}

bool forms_list_Level_next(postcard_reader *reader, Level *item) {
    if (reader->status != POSTCARD_OK || reader->at >= reader->size) return false;
    Level_get(reader, item);
    return reader->status == POSTCARD_OK;
}

postcard_status forms_list_Serial_put(postcard_writer *writer, const forms_list_Serial *value) {
    postcard_put_count(writer, value->count);
    if (value->items == NULL) {
        Serial item;
        size_t read = 0;
        postcard_reader reader = forms_list_Serial_reader(value);
        for (; forms_list_Serial_next(&reader, &item); read++) {
            Serial_put(writer, &item);
        }
        if (read != value->count || reader.status != POSTCARD_OK) bad_value_(writer);
        return writer->status;
    }
    for (size_t i = 0; i < value->count; i++) {
        Serial_put(writer, &value->items[i]);
    }
    return writer->status;
}

postcard_status forms_list_Serial_get(postcard_reader *reader, forms_list_Serial *value) {
    Serial item;
    size_t count = 0, start = reader->at;
    value->count = 0;
    value->items = NULL, value->encoded.bytes = NULL, value->encoded.size = 0;
    if (postcard_get_count(reader, &count) != POSTCARD_OK) return reader->status;
    start = reader->at;
    for (size_t i = 0; i < count && reader->status == POSTCARD_OK; i++) {
        Serial_get(reader, &item);
    }
    if (reader->status == POSTCARD_OK) value->count = count, value->encoded.bytes = reader->bytes + start, value->encoded.size = reader->at - start;
    return reader->status;
}

bool forms_list_Serial_next(postcard_reader *reader, Serial *item) {
    if (reader->status != POSTCARD_OK || reader->at >= reader->size) return false;
    Serial_get(reader, item);
    return reader->status == POSTCARD_OK;
}

postcard_status forms_list_str_put(postcard_writer *writer, const forms_list_str *value) {
    postcard_put_count(writer, value->count);
    if (value->items == NULL) {
        postcard_slice item;
        size_t read = 0;
        postcard_reader reader = forms_list_str_reader(value);
        for (; forms_list_str_next(&reader, &item); read++) {
            postcard_put_str(writer, (const char *)item.bytes, item.size);
        }
        if (read != value->count || reader.status != POSTCARD_OK) bad_value_(writer);
        return writer->status;
    }
    for (size_t i = 0; i < value->count; i++) {
        postcard_put_str(writer, (const char *)value->items[i].bytes, value->items[i].size);
    }
    return writer->status;
}

postcard_status forms_list_str_get(postcard_reader *reader, forms_list_str *value) {
    postcard_slice item;
    size_t count = 0, start = reader->at;
    value->count = 0;
    value->items = NULL, value->encoded.bytes = NULL, value->encoded.size = 0;
    if (postcard_get_count(reader, &count) != POSTCARD_OK) return reader->status;
    start = reader->at;
    for (size_t i = 0; i < count && reader->status == POSTCARD_OK; i++) {
        item.bytes = NULL, item.size = 0;
        postcard_get_str(reader, &item);
    }
    if (reader->status == POSTCARD_OK) value->count = count, value->encoded.bytes = reader->bytes + start, value->encoded.size = reader->at - start;
    return reader->status;
}

bool forms_list_str_next(postcard_reader *reader, postcard_slice *item) {
    if (reader->status != POSTCARD_OK || reader->at >= reader->size) return false;
    item->bytes = NULL, item->size = 0;
    postcard_get_str(reader, item);
    return reader->status == POSTCARD_OK;
}

postcard_status forms_option_list_str_put(postcard_writer *writer, const forms_option_list_str *value) {
    if (value->some) {
        postcard_put_some(writer);
        forms_list_str_put(writer, &value->value);
    } else {
        postcard_put_none(writer);
    }
    return writer->status;
}

postcard_status forms_option_list_str_get(postcard_reader *reader, forms_option_list_str *value) {
    value->some = false;
    postcard_get_option(reader, &value->some);
    if (value->some) {
        forms_list_str_get(reader, &value->value);
    }
    return reader->status;
}

postcard_status forms_result_u8_unit_put(postcard_writer *writer, const forms_result_u8_unit *value) {
    postcard_put_variant(writer, value->is_ok ? 0u : 1u);
    if (value->is_ok) {
        postcard_put_u8(writer, value->as.ok);
    }
    return writer->status;
}

postcard_status forms_result_u8_unit_get(postcard_reader *reader, forms_result_u8_unit *value) {
    uint32_t index = 0;
    size_t start = reader->at;
    postcard_get_variant(reader, &index);
    if (index >= 2u) index = 0, bad_message_(reader, start);
    value->is_ok = index == 0;
    if (value->is_ok) {
        value->as.ok = 0;
        postcard_get_u8(reader, &value->as.ok);
    }
    return reader->status;
}

postcard_status forms_list_result_u8_unit_put(postcard_writer *writer, const forms_list_result_u8_unit *value) {
    postcard_put_count(writer, value->count);
    if (value->items == NULL) {
        forms_result_u8_unit item;
        size_t read = 0;
        postcard_reader reader = forms_list_result_u8_unit_reader(value);
        for (; forms_list_result_u8_unit_next(&reader, &item); read++) {
            forms_result_u8_unit_put(writer, &item);
        }
        if (read != value->count || reader.status != POSTCARD_OK) bad_value_(writer);
        return writer->status;
    }
    for (size_t i = 0; i < value->count; i++) {
        forms_result_u8_unit_put(writer, &value->items[i]);
    }
    return writer->status;
}

postcard_status forms_list_result_u8_unit_get(postcard_reader *reader, forms_list_result_u8_unit *value) {
    forms_result_u8_unit item;
    size_t count = 0, start = reader->at;
    value->count = 0;
    value->items = NULL, value->encoded.bytes = NULL, value->encoded.size = 0;
    if (postcard_get_count(reader, &count) != POSTCARD_OK) return reader->status;
    start = reader->at;
    for (size_t i = 0; i < count && reader->status == POSTCARD_OK; i++) {
        forms_result_u8_unit_get(reader, &item);
    }
    if (reader->status == POSTCARD_OK) value->count = count, value->encoded.bytes = reader->bytes + start, value->encoded.size = reader->at - start;
    return reader->status;
}

bool forms_list_result_u8_unit_next(postcard_reader *reader, forms_result_u8_unit *item) {
    if (reader->status != POSTCARD_OK || reader->at >= reader->size) return false;
    forms_result_u8_unit_get(reader, item);
    return reader->status == POSTCARD_OK;
}

postcard_status forms_list_u128_put(postcard_writer *writer, const forms_list_u128 *value) {
    postcard_put_count(writer, value->count);
    if (value->items == NULL) {
        postcard_u128 item;
        size_t read = 0;
        postcard_reader reader = forms_list_u128_reader(value);
        for (; forms_list_u128_next(&reader, &item); read++) {
            postcard_put_u128(writer, item.low, item.high);
        }
        if (read != value->count || reader.status != POSTCARD_OK) bad_value_(writer);
        return writer->status;
    }
    for (size_t i = 0; i < value->count; i++) {
        postcard_put_u128(writer, value->items[i].low, value->items[i].high);
    }
    return writer->status;
}

postcard_status forms_list_u128_get(postcard_reader *reader, forms_list_u128 *value) {
    postcard_u128 item;
    size_t count = 0, start = reader->at;
    value->count = 0;
    value->items = NULL, value->encoded.bytes = NULL, value->encoded.size = 0;
    if (postcard_get_count(reader, &count) != POSTCARD_OK) return reader->status;
    start = reader->at;
    for (size_t i = 0; i < count && reader->status == POSTCARD_OK; i++) {
        item.low = item.high = 0;
        postcard_get_u128(reader, &item.low, &item.high);
    }
    if (reader->status == POSTCARD_OK) value->count = count, value->encoded.bytes = reader->bytes + start, value->encoded.size = reader->at - start;
    return reader->status;
}

bool forms_list_u128_next(postcard_reader *reader, postcard_u128 *item) {
    if (reader->status != POSTCARD_OK || reader->at >= reader->size) return false;
    item->low = item->high = 0;
    postcard_get_u128(reader, &item->low, &item->high);
    return reader->status == POSTCARD_OK;
}

postcard_status forms_list_char_put(postcard_writer *writer, const forms_list_char *value) {
    postcard_put_count(writer, value->count);
    if (value->items == NULL) {
        uint32_t item;
        size_t read = 0;
        postcard_reader reader = forms_list_char_reader(value);
        for (; forms_list_char_next(&reader, &item); read++) {
            postcard_put_char(writer, item);
        }
        if (read != value->count || reader.status != POSTCARD_OK) bad_value_(writer);
        return writer->status;
    }
    for (size_t i = 0; i < value->count; i++) {
        postcard_put_char(writer, value->items[i]);
    }
    return writer->status;
}

postcard_status forms_list_char_get(postcard_reader *reader, forms_list_char *value) {
    uint32_t item;
    size_t count = 0, start = reader->at;
    value->count = 0;
    value->items = NULL, value->encoded.bytes = NULL, value->encoded.size = 0;
    if (postcard_get_count(reader, &count) != POSTCARD_OK) return reader->status;
    start = reader->at;
    for (size_t i = 0; i < count && reader->status == POSTCARD_OK; i++) {
        item = 0;
        postcard_get_char(reader, &item);
    }
    if (reader->status == POSTCARD_OK) value->count = count, value->encoded.bytes = reader->bytes + start, value->encoded.size = reader->at - start;
    return reader->status;
}

bool forms_list_char_next(postcard_reader *reader, uint32_t *item) {
    if (reader->status != POSTCARD_OK || reader->at >= reader->size) return false;
    *item = 0;
    postcard_get_char(reader, item);
    return reader->status == POSTCARD_OK;
}

postcard_status Lists_put(postcard_writer *writer, const Lists *value) {
    postcard_put_str(writer, (const char *)value->a.bytes, value->a.size);
    postcard_put_bytes(writer, value->b.bytes, value->b.size);
    forms_list_u16_put(writer, &value->c);
    forms_list_list_option_i32_put(writer, &value->d);
    forms_map_u16_str_put(writer, &value->e);
    forms_list_tuple2_u8_bool_put(writer, &value->f);
    forms_list_array2_i16_put(writer, &value->g);
    forms_list_Level_put(writer, &value->h);
    forms_list_Serial_put(writer, &value->i);
    postcard_put_bytes(writer, value->j.bytes, value->j.size);
    if (value->k.some) {
        postcard_put_some(writer);
        forms_list_str_put(writer, &value->k.value);
    } else {
        postcard_put_none(writer);
    }
    forms_list_result_u8_unit_put(writer, &value->l);
    forms_list_u128_put(writer, &value->m);
    forms_list_char_put(writer, &value->n);
    return writer->status;
}

postcard_status Lists_get(postcard_reader *reader, Lists *value) {
    value->a.bytes = NULL, value->a.size = 0;
    postcard_get_str(reader, &value->a);
    value->b.bytes = NULL, value->b.size = 0;
    postcard_get_bytes(reader, &value->b);
    forms_list_u16_get(reader, &value->c);
    forms_list_list_option_i32_get(reader, &value->d);
    forms_map_u16_str_get(reader, &value->e);
    forms_list_tuple2_u8_bool_get(reader, &value->f);
    forms_list_array2_i16_get(reader, &value->g);
    forms_list_Level_get(reader, &value->h);
    forms_list_Serial_get(reader, &value->i);
    value->j.bytes = NULL, value->j.size = 0;
    postcard_get_bytes(reader, &value->j);
    value->k.some = false;
    postcard_get_option(reader, &value->k.some);
    if (value->k.some) {
        forms_list_str_get(reader, &value->k.value);
    }
    forms_list_result_u8_unit_get(reader, &value->l);
    forms_list_u128_get(reader, &value->m);
    forms_list_char_get(reader, &value->n);
    return reader->status;
}

postcard_status forms_option_Serial_put(postcard_writer *writer, const forms_option_Serial *value) {
    if (value->some) {
        postcard_put_some(writer);
        Serial_put(writer, &value->value);
    } else {
        postcard_put_none(writer);
    }
    return writer->status;
}

postcard_status forms_option_Serial_get(postcard_reader *reader, forms_option_Serial *value) {
    value->some = false;
    postcard_get_option(reader, &value->some);
    if (value->some) {
        Serial_get(reader, &value->value);
    }
    return reader->status;
}

postcard_status forms_tuple2_i8_f64_put(postcard_writer *writer, const forms_tuple2_i8_f64 *value) {
    postcard_put_i8(writer, value->_0);
    postcard_put_f64(writer, value->_1);
    return writer->status;
}

postcard_status forms_tuple2_i8_f64_get(postcard_reader *reader, forms_tuple2_i8_f64 *value) {
    value->_0 = 0;
    postcard_get_i8(reader, &value->_0);
    value->_1 = 0;
    postcard_get_f64(reader, &value->_1);
    return reader->status;
}

postcard_status Arrays_put(postcard_writer *writer, const Arrays *value) {
    postcard_put_raw(writer, value->a, 4u);
    for (size_t i0 = 0; i0 < 3u; i0++) {
        for (size_t i1 = 0; i1 < 2u; i1++) {
            postcard_put_u16(writer, value->b[i0][i1]);
        }
    }
    for (size_t i0 = 0; i0 < 2u; i0++) {
        if (value->c[i0].some) {
            postcard_put_some(writer);
            Serial_put(writer, &value->c[i0].value);
        } else {
            postcard_put_none(writer);
        }
    }
    for (size_t i0 = 0; i0 < 3u; i0++) {
        postcard_put_i8(writer, value->e[i0]._0);
        postcard_put_f64(writer, value->e[i0]._1);
    }
    for (size_t i0 = 0; i0 < 2u; i0++) {
        postcard_put_raw(writer, value->f[i0], 2u);
    }
    for (size_t i0 = 0; i0 < 2u; i0++) {
        if (value->g[i0] == 0) bad_value_(writer);
        postcard_put_u16(writer, value->g[i0]);
    }
    for (size_t i0 = 0; i0 < 2u; i0++) {
        Level_put(writer, &value->h[i0]);
    }
    return writer->status;
}

postcard_status Arrays_get(postcard_reader *reader, Arrays *value) {
    get_array_(reader, value->a, 4u);
    for (size_t i0 = 0; i0 < 3u; i0++) {
        for (size_t i1 = 0; i1 < 2u; i1++) {
            value->b[i0][i1] = 0;
            postcard_get_u16(reader, &value->b[i0][i1]);
        }
    }
    for (size_t i0 = 0; i0 < 2u; i0++) {
        value->c[i0].some = false;
        postcard_get_option(reader, &value->c[i0].some);
        if (value->c[i0].some) {
            Serial_get(reader, &value->c[i0].value);
        }
    }
    for (size_t i0 = 0; i0 < 3u; i0++) {
        value->e[i0]._0 = 0;
        postcard_get_i8(reader, &value->e[i0]._0);
        value->e[i0]._1 = 0;
        postcard_get_f64(reader, &value->e[i0]._1);
    }
    for (size_t i0 = 0; i0 < 2u; i0++) {
        get_array_(reader, value->f[i0], 2u);
    }
    for (size_t i0 = 0; i0 < 2u; i0++) {
        {
            size_t begin = reader->at;
            value->g[i0] = 0;
            postcard_get_u16(reader, &value->g[i0]);
            if (value->g[i0] == 0) bad_message_(reader, begin);
        }
    }
    for (size_t i0 = 0; i0 < 2u; i0++) {
        Level_get(reader, &value->h[i0]);
    }
    return reader->status;
}

postcard_status Owners_put(postcard_writer *writer, const Owners *value) {
    Serial_put(writer, &value->a);
    postcard_put_str(writer, (const char *)value->b.bytes, value->b.size);
    forms_list_u16_put(writer, &value->c);
    postcard_put_str(writer, (const char *)value->d.bytes, value->d.size);
    Pair_put(writer, &value->e);
    postcard_put_u32(writer, value->f);
    return writer->status;
}

postcard_status Owners_get(postcard_reader *reader, Owners *value) {
    Serial_get(reader, &value->a);
    value->b.bytes = NULL, value->b.size = 0;
    postcard_get_str(reader, &value->b);
    forms_list_u16_get(reader, &value->c);
    value->d.bytes = NULL, value->d.size = 0;
    postcard_get_str(reader, &value->d);
    Pair_get(reader, &value->e);
    value->f = 0;
    postcard_get_u32(reader, &value->f);
    return reader->status;
}

postcard_status forms_option_u8_put(postcard_writer *writer, const forms_option_u8 *value) {
    if (value->some) {
        postcard_put_some(writer);
        postcard_put_u8(writer, value->value);
    } else {
        postcard_put_none(writer);
    }
    return writer->status;
}

postcard_status forms_option_u8_get(postcard_reader *reader, forms_option_u8 *value) {
    value->some = false;
    postcard_get_option(reader, &value->some);
    if (value->some) {
        value->value = 0;
        postcard_get_u8(reader, &value->value);
    }
    return reader->status;
}

postcard_status forms_option_option_bool_put(postcard_writer *writer, const forms_option_option_bool *value) {
    if (value->some) {
        postcard_put_some(writer);
        if (value->value.some) {
            postcard_put_some(writer);
            postcard_put_bool(writer, value->value.value);
        } else {
            postcard_put_none(writer);
        }
    } else {
        postcard_put_none(writer);
    }
    return writer->status;
}

postcard_status forms_option_option_bool_get(postcard_reader *reader, forms_option_option_bool *value) {
    value->some = false;
    postcard_get_option(reader, &value->some);
    if (value->some) {
        value->value.some = false;
        postcard_get_option(reader, &value->value.some);
        if (value->value.some) {
            value->value.value = false;
            postcard_get_bool(reader, &value->value.value);
        }
    }
    return reader->status;
}

postcard_status forms_option_unit_put(postcard_writer *writer, const forms_option_unit *value) {
    if (value->some) {
        postcard_put_some(writer);
    } else {
        postcard_put_none(writer);
    }
    return writer->status;
}

postcard_status forms_option_unit_get(postcard_reader *reader, forms_option_unit *value) {
    value->some = false;
    postcard_get_option(reader, &value->some);
    return reader->status;
}

postcard_status forms_option_Unit_put(postcard_writer *writer, const forms_option_Unit *value) {
    if (value->some) {
        postcard_put_some(writer);
        Unit_put(writer, &value->value);
    } else {
        postcard_put_none(writer);
    }
    return writer->status;
}

postcard_status forms_option_Unit_get(postcard_reader *reader, forms_option_Unit *value) {
    value->some = false;
    postcard_get_option(reader, &value->some);
    if (value->some) {
        Unit_get(reader, &value->value);
    }
    return reader->status;
}

postcard_status forms_option_char_put(postcard_writer *writer, const forms_option_char *value) {
    if (value->some) {
        postcard_put_some(writer);
        postcard_put_char(writer, value->value);
    } else {
        postcard_put_none(writer);
    }
    return writer->status;
}

postcard_status forms_option_char_get(postcard_reader *reader, forms_option_char *value) {
    value->some = false;
    postcard_get_option(reader, &value->some);
    if (value->some) {
        value->value = 0;
        postcard_get_char(reader, &value->value);
    }
    return reader->status;
}

postcard_status forms_tuple2_u8_option_char_put(postcard_writer *writer, const forms_tuple2_u8_option_char *value) {
    postcard_put_u8(writer, value->_0);
    if (value->_1.some) {
        postcard_put_some(writer);
        postcard_put_char(writer, value->_1.value);
    } else {
        postcard_put_none(writer);
    }
    return writer->status;
}

postcard_status forms_tuple2_u8_option_char_get(postcard_reader *reader, forms_tuple2_u8_option_char *value) {
    value->_0 = 0;
    postcard_get_u8(reader, &value->_0);
    value->_1.some = false;
    postcard_get_option(reader, &value->_1.some);
    if (value->_1.some) {
        value->_1.value = 0;
        postcard_get_char(reader, &value->_1.value);
    }
    return reader->status;
}

postcard_status forms_option_tuple2_u8_option_char_put(postcard_writer *writer, const forms_option_tuple2_u8_option_char *value) {
    if (value->some) {
        postcard_put_some(writer);
        postcard_put_u8(writer, value->value._0);
        if (value->value._1.some) {
            postcard_put_some(writer);
            postcard_put_char(writer, value->value._1.value);
        } else {
            postcard_put_none(writer);
        }
    } else {
        postcard_put_none(writer);
    }
    return writer->status;
}

postcard_status forms_option_tuple2_u8_option_char_get(postcard_reader *reader, forms_option_tuple2_u8_option_char *value) {
    value->some = false;
    postcard_get_option(reader, &value->some);
    if (value->some) {
        value->value._0 = 0;
        postcard_get_u8(reader, &value->value._0);
        value->value._1.some = false;
        postcard_get_option(reader, &value->value._1.some);
        if (value->value._1.some) {
            value->value._1.value = 0;
            postcard_get_char(reader, &value->value._1.value);
        }
    }
    return reader->status;
}

postcard_status forms_option_Level_put(postcard_writer *writer, const forms_option_Level *value) {
    if (value->some) {
        postcard_put_some(writer);
        Level_put(writer, &value->value);
    } else {
        postcard_put_none(writer);
    }
    return writer->status;
}

postcard_status forms_option_Level_get(postcard_reader *reader, forms_option_Level *value) {
    value->some = false;
    postcard_get_option(reader, &value->some);
    if (value->some) {
        Level_get(reader, &value->value);
    }
    return reader->status;
}

postcard_status forms_option_option_Level_put(postcard_writer *writer, const forms_option_option_Level *value) {
    if (value->some) {
        postcard_put_some(writer);
        if (value->value.some) {
            postcard_put_some(writer);
            Level_put(writer, &value->value.value);
        } else {
            postcard_put_none(writer);
        }
    } else {
        postcard_put_none(writer);
    }
    return writer->status;
}

postcard_status forms_option_option_Level_get(postcard_reader *reader, forms_option_option_Level *value) {
    value->some = false;
    postcard_get_option(reader, &value->some);
    if (value->some) {
        value->value.some = false;
        postcard_get_option(reader, &value->value.some);
        if (value->value.some) {
            Level_get(reader, &value->value.value);
        }
    }
    return reader->status;
}

postcard_status forms_option_option_option_Level_put(postcard_writer *writer, const forms_option_option_option_Level *value) {
    if (value->some) {
        postcard_put_some(writer);
        if (value->value.some) {
            postcard_put_some(writer);
            if (value->value.value.some) {
                postcard_put_some(writer);
                Level_put(writer, &value->value.value.value);
            } else {
                postcard_put_none(writer);
            }
        } else {
            postcard_put_none(writer);
        }
    } else {
        postcard_put_none(writer);
    }
    return writer->status;
}

postcard_status forms_option_option_option_Level_get(postcard_reader *reader, forms_option_option_option_Level *value) {
    value->some = false;
    postcard_get_option(reader, &value->some);
    if (value->some) {
        value->value.some = false;
        postcard_get_option(reader, &value->value.some);
        if (value->value.some) {
            value->value.value.some = false;
            postcard_get_option(reader, &value->value.value.some);
            if (value->value.value.some) {
                Level_get(reader, &value->value.value.value);
            }
        }
    }
    return reader->status;
}

postcard_status forms_option_array3_u8_put(postcard_writer *writer, const forms_option_array3_u8 *value) {
    if (value->some) {
        postcard_put_some(writer);
        postcard_put_raw(writer, value->value, 3u);
    } else {
        postcard_put_none(writer);
    }
    return writer->status;
}

postcard_status forms_option_array3_u8_get(postcard_reader *reader, forms_option_array3_u8 *value) {
    value->some = false;
    postcard_get_option(reader, &value->some);
    if (value->some) {
        get_array_(reader, value->value, 3u);
    }
    return reader->status;
}

postcard_status Options_put(postcard_writer *writer, const Options *value) {
    if (value->a.some) {
        postcard_put_some(writer);
        postcard_put_u8(writer, value->a.value);
    } else {
        postcard_put_none(writer);
    }
    if (value->b.some) {
        postcard_put_some(writer);
        if (value->b.value.some) {
            postcard_put_some(writer);
            postcard_put_bool(writer, value->b.value.value);
        } else {
            postcard_put_none(writer);
        }
    } else {
        postcard_put_none(writer);
    }
    if (value->c.some) {
        postcard_put_some(writer);
    } else {
        postcard_put_none(writer);
    }
    if (value->d.some) {
        postcard_put_some(writer);
        Unit_put(writer, &value->d.value);
    } else {
        postcard_put_none(writer);
    }
    if (value->e.some) {
        postcard_put_some(writer);
        postcard_put_u8(writer, value->e.value._0);
        if (value->e.value._1.some) {
            postcard_put_some(writer);
            postcard_put_char(writer, value->e.value._1.value);
        } else {
            postcard_put_none(writer);
        }
    } else {
        postcard_put_none(writer);
    }
    if (value->f.some) {
        postcard_put_some(writer);
        if (value->f.value.some) {
            postcard_put_some(writer);
            if (value->f.value.value.some) {
                postcard_put_some(writer);
                Level_put(writer, &value->f.value.value.value);
            } else {
                postcard_put_none(writer);
            }
        } else {
            postcard_put_none(writer);
        }
    } else {
        postcard_put_none(writer);
    }
    if (value->g.some) {
        postcard_put_some(writer);
        postcard_put_raw(writer, value->g.value, 3u);
    } else {
        postcard_put_none(writer);
    }
    return writer->status;
}

postcard_status Options_get(postcard_reader *reader, Options *value) {
    value->a.some = false;
    postcard_get_option(reader, &value->a.some);
    if (value->a.some) {
        value->a.value = 0;
        postcard_get_u8(reader, &value->a.value);
    }
    value->b.some = false;
    postcard_get_option(reader, &value->b.some);
    if (value->b.some) {
        value->b.value.some = false;
        postcard_get_option(reader, &value->b.value.some);
        if (value->b.value.some) {
            value->b.value.value = false;
            postcard_get_bool(reader, &value->b.value.value);
        }
    }
    value->c.some = false;
    postcard_get_option(reader, &value->c.some);
    value->d.some = false;
    postcard_get_option(reader, &value->d.some);
    if (value->d.some) {
        Unit_get(reader, &value->d.value);
    }
    value->e.some = false;
    postcard_get_option(reader, &value->e.some);
    if (value->e.some) {
        value->e.value._0 = 0;
        postcard_get_u8(reader, &value->e.value._0);
        value->e.value._1.some = false;
        postcard_get_option(reader, &value->e.value._1.some);
        if (value->e.value._1.some) {
            value->e.value._1.value = 0;
            postcard_get_char(reader, &value->e.value._1.value);
        }
    }
    value->f.some = false;
    postcard_get_option(reader, &value->f.some);
    if (value->f.some) {
        value->f.value.some = false;
        postcard_get_option(reader, &value->f.value.some);
        if (value->f.value.some) {
            value->f.value.value.some = false;
            postcard_get_option(reader, &value->f.value.value.some);
            if (value->f.value.value.some) {
                Level_get(reader, &value->f.value.value.value);
            }
        }
    }
    value->g.some = false;
    postcard_get_option(reader, &value->g.some);
    if (value->g.some) {
        get_array_(reader, value->g.value, 3u);
    }
    return reader->status;
}

postcard_status forms_result_u8_Level_put(postcard_writer *writer, const forms_result_u8_Level *value) {
    postcard_put_variant(writer, value->is_ok ? 0u : 1u);
    if (value->is_ok) {
        postcard_put_u8(writer, value->as.ok);
    }
    if (!value->is_ok) {
        Level_put(writer, &value->as.err);
    }
    return writer->status;
}

postcard_status forms_result_u8_Level_get(postcard_reader *reader, forms_result_u8_Level *value) {
    uint32_t index = 0;
    size_t start = reader->at;
    postcard_get_variant(reader, &index);
    if (index >= 2u) index = 0, bad_message_(reader, start);
    value->is_ok = index == 0;
    if (value->is_ok) {
        value->as.ok = 0;
        postcard_get_u8(reader, &value->as.ok);
    }
    if (!value->is_ok) {
        Level_get(reader, &value->as.err);
    }
    return reader->status;
}

postcard_status forms_result_unit_unit_put(postcard_writer *writer, const forms_result_unit_unit *value) {
    postcard_put_variant(writer, value->is_ok ? 0u : 1u);
    return writer->status;
}

postcard_status forms_result_unit_unit_get(postcard_reader *reader, forms_result_unit_unit *value) {
    uint32_t index = 0;
    size_t start = reader->at;
    postcard_get_variant(reader, &index);
    if (index >= 2u) index = 0, bad_message_(reader, start);
    value->is_ok = index == 0;
    return reader->status;
}

postcard_status forms_result_unit_str4_put(postcard_writer *writer, const forms_result_unit_str4 *value) {
    postcard_put_variant(writer, value->is_ok ? 0u : 1u);
    if (!value->is_ok) {
        if (value->as.err.size > 4u) bad_value_(writer);
        else postcard_put_str(writer, value->as.err.text, value->as.err.size);
    }
    return writer->status;
}

postcard_status forms_result_unit_str4_get(postcard_reader *reader, forms_result_unit_str4 *value) {
    uint32_t index = 0;
    size_t start = reader->at;
    postcard_get_variant(reader, &index);
    if (index >= 2u) index = 0, bad_message_(reader, start);
    value->is_ok = index == 0;
    if (!value->is_ok) {
        value->as.err.size = (uint8_t)get_text_(reader, value->as.err.text, 4u);
    }
    return reader->status;
}

postcard_status forms_result_Numbers_array2_i32_put(postcard_writer *writer, const forms_result_Numbers_array2_i32 *value) {
    postcard_put_variant(writer, value->is_ok ? 0u : 1u);
    if (value->is_ok) {
        Numbers_put(writer, &value->as.ok);
    }
    if (!value->is_ok) {
        for (size_t i0 = 0; i0 < 2u; i0++) {
            postcard_put_i32(writer, value->as.err[i0]);
        }
    }
    return writer->status;
}

postcard_status forms_result_Numbers_array2_i32_get(postcard_reader *reader, forms_result_Numbers_array2_i32 *value) {
    uint32_t index = 0;
    size_t start = reader->at;
    postcard_get_variant(reader, &index);
    if (index >= 2u) index = 0, bad_message_(reader, start);
    value->is_ok = index == 0;
    if (value->is_ok) {
        Numbers_get(reader, &value->as.ok);
    }
    if (!value->is_ok) {
        for (size_t i0 = 0; i0 < 2u; i0++) {
            value->as.err[i0] = 0;
            postcard_get_i32(reader, &value->as.err[i0]);
        }
    }
    return reader->status;
}

postcard_status forms_result_u8_i8_put(postcard_writer *writer, const forms_result_u8_i8 *value) {
    postcard_put_variant(writer, value->is_ok ? 0u : 1u);
    if (value->is_ok) {
        postcard_put_u8(writer, value->as.ok);
    }
    if (!value->is_ok) {
        postcard_put_i8(writer, value->as.err);
    }
    return writer->status;
}

postcard_status forms_result_u8_i8_get(postcard_reader *reader, forms_result_u8_i8 *value) {
    uint32_t index = 0;
    size_t start = reader->at;
    postcard_get_variant(reader, &index);
    if (index >= 2u) index = 0, bad_message_(reader, start);
    value->is_ok = index == 0;
    if (value->is_ok) {
        value->as.ok = 0;
        postcard_get_u8(reader, &value->as.ok);
    }
    if (!value->is_ok) {
        value->as.err = 0;
        postcard_get_i8(reader, &value->as.err);
    }
    return reader->status;
}

postcard_status forms_result_result_u8_i8_option_u8_put(postcard_writer *writer, const forms_result_result_u8_i8_option_u8 *value) {
    postcard_put_variant(writer, value->is_ok ? 0u : 1u);
    if (value->is_ok) {
        forms_result_u8_i8_put(writer, &value->as.ok);
    }
    if (!value->is_ok) {
        if (value->as.err.some) {
            postcard_put_some(writer);
            postcard_put_u8(writer, value->as.err.value);
        } else {
            postcard_put_none(writer);
        }
    }
    return writer->status;
}

postcard_status forms_result_result_u8_i8_option_u8_get(postcard_reader *reader, forms_result_result_u8_i8_option_u8 *value) {
    uint32_t index = 0;
    size_t start = reader->at;
    postcard_get_variant(reader, &index);
    if (index >= 2u) index = 0, bad_message_(reader, start);
    value->is_ok = index == 0;
    if (value->is_ok) {
        forms_result_u8_i8_get(reader, &value->as.ok);
    }
    if (!value->is_ok) {
        value->as.err.some = false;
        postcard_get_option(reader, &value->as.err.some);
        if (value->as.err.some) {
            value->as.err.value = 0;
            postcard_get_u8(reader, &value->as.err.value);
        }
    }
    return reader->status;
}

postcard_status Results_put(postcard_writer *writer, const Results *value) {
    forms_result_u8_Level_put(writer, &value->a);
    forms_result_unit_unit_put(writer, &value->b);
    forms_result_unit_str4_put(writer, &value->c);
    forms_result_Numbers_array2_i32_put(writer, &value->d);
    forms_result_result_u8_i8_option_u8_put(writer, &value->e);
    return writer->status;
}

postcard_status Results_get(postcard_reader *reader, Results *value) {
    forms_result_u8_Level_get(reader, &value->a);
    forms_result_unit_unit_get(reader, &value->b);
    forms_result_unit_str4_get(reader, &value->c);
    forms_result_Numbers_array2_i32_get(reader, &value->d);
    forms_result_result_u8_i8_option_u8_get(reader, &value->e);
    return reader->status;
}

postcard_status forms_tuple1_u8_put(postcard_writer *writer, const forms_tuple1_u8 *value) {
    postcard_put_u8(writer, value->_0);
    return writer->status;
}

postcard_status forms_tuple1_u8_get(postcard_reader *reader, forms_tuple1_u8 *value) {
    value->_0 = 0;
    postcard_get_u8(reader, &value->_0);
    return reader->status;
}

postcard_status forms_tuple2_bool_bool_put(postcard_writer *writer, const forms_tuple2_bool_bool *value) {
    postcard_put_bool(writer, value->_0);
    postcard_put_bool(writer, value->_1);
    return writer->status;
}

postcard_status forms_tuple2_bool_bool_get(postcard_reader *reader, forms_tuple2_bool_bool *value) {
    value->_0 = false;
    postcard_get_bool(reader, &value->_0);
    value->_1 = false;
    postcard_get_bool(reader, &value->_1);
    return reader->status;
}

postcard_status forms_tuple2_tuple2_u8_u16_array2_tuple2_bool_bool_put(postcard_writer *writer, const forms_tuple2_tuple2_u8_u16_array2_tuple2_bool_bool *value) {
    postcard_put_u8(writer, value->_0._0);
    postcard_put_u16(writer, value->_0._1);
    for (size_t i0 = 0; i0 < 2u; i0++) {
        postcard_put_bool(writer, value->_1[i0]._0);
        postcard_put_bool(writer, value->_1[i0]._1);
    }
    return writer->status;
}

postcard_status forms_tuple2_tuple2_u8_u16_array2_tuple2_bool_bool_get(postcard_reader *reader, forms_tuple2_tuple2_u8_u16_array2_tuple2_bool_bool *value) {
    value->_0._0 = 0;
    postcard_get_u8(reader, &value->_0._0);
    value->_0._1 = 0;
    postcard_get_u16(reader, &value->_0._1);
    for (size_t i0 = 0; i0 < 2u; i0++) {
        value->_1[i0]._0 = false;
        postcard_get_bool(reader, &value->_1[i0]._0);
        value->_1[i0]._1 = false;
        postcard_get_bool(reader, &value->_1[i0]._1);
    }
    return reader->status;
}

postcard_status forms_tuple2_unit_unit_put(postcard_writer *writer, const forms_tuple2_unit_unit *value) {
    (void)value;
    return writer->status;
}

postcard_status forms_tuple2_unit_unit_get(postcard_reader *reader, forms_tuple2_unit_unit *value) {
    value->nothing_ = 0;
    return reader->status;
}

postcard_status Tuples_put(postcard_writer *writer, const Tuples *value) {
    postcard_put_u8(writer, value->_1._0);
    postcard_put_u8(writer, value->_2._0._0);
    postcard_put_u16(writer, value->_2._0._1);
    for (size_t i0 = 0; i0 < 2u; i0++) {
        postcard_put_bool(writer, value->_2._1[i0]._0);
        postcard_put_bool(writer, value->_2._1[i0]._1);
    }
    return writer->status;
}

postcard_status Tuples_get(postcard_reader *reader, Tuples *value) {
    value->_1._0 = 0;
    postcard_get_u8(reader, &value->_1._0);
    value->_2._0._0 = 0;
    postcard_get_u8(reader, &value->_2._0._0);
    value->_2._0._1 = 0;
    postcard_get_u16(reader, &value->_2._0._1);
    for (size_t i0 = 0; i0 < 2u; i0++) {
        value->_2._1[i0]._0 = false;
        postcard_get_bool(reader, &value->_2._1[i0]._0);
        value->_2._1[i0]._1 = false;
        postcard_get_bool(reader, &value->_2._1[i0]._1);
    }
    return reader->status;
}

postcard_status Holder_option_u8_put(postcard_writer *writer, const Holder_option_u8 *value) {
    if (value->old.some) {
        postcard_put_some(writer);
        postcard_put_u8(writer, value->old.value);
    } else {
        postcard_put_none(writer);
    }
    if (value->new_.some) {
        postcard_put_some(writer);
        postcard_put_u8(writer, value->new_.value);
    } else {
        postcard_put_none(writer);
    }
    return writer->status;
}

postcard_status Holder_option_u8_get(postcard_reader *reader, Holder_option_u8 *value) {
    value->old.some = false;
    postcard_get_option(reader, &value->old.some);
    if (value->old.some) {
        value->old.value = 0;
        postcard_get_u8(reader, &value->old.value);
    }
    value->new_.some = false;
    postcard_get_option(reader, &value->new_.some);
    if (value->new_.some) {
        value->new_.value = 0;
        postcard_get_u8(reader, &value->new_.value);
    }
    return reader->status;
}

postcard_status Shape_put(postcard_writer *writer, const Shape *value) {
    if ((uint32_t)value->tag >= 11u) bad_value_(writer);
    postcard_put_variant(writer, (uint32_t)value->tag);
    switch (value->tag) {
        case Shape_Empty:
            break;
        case Shape_NoParts:
            break;
        case Shape_NoFields:
            break;
        case Shape_Unit:
            break;
        case Shape_One:
            postcard_put_u8(writer, value->as.one);
            break;
        case Shape_Two:
            postcard_put_u8(writer, value->as.two._0);
            postcard_put_i16(writer, value->as.two._1);
            break;
        case Shape_Named:
            postcard_put_u16(writer, value->as.named.width);
            postcard_put_u16(writer, value->as.named.height);
            break;
        case Shape_Inner:
            Level_put(writer, &value->as.inner);
            break;
        case Shape_HTTPServer:
            postcard_put_u16(writer, value->as.http_server.port);
            break;
        case Shape_List:
            forms_list_u16_put(writer, &value->as.list);
            break;
        case Shape_Deep:
            Holder_option_u8_put(writer, &value->as.deep);
            break;
    }
    return writer->status;
}

postcard_status Shape_get(postcard_reader *reader, Shape *value) {
    uint32_t index = 0;
    size_t start = reader->at;
    postcard_get_variant(reader, &index);
    if (index >= 11u) index = 0, bad_message_(reader, start);
    value->tag = (Shape_tag)index;
    switch (value->tag) {
        case Shape_Empty:
            break;
        case Shape_NoParts:
            break;
        case Shape_NoFields:
            break;
        case Shape_Unit:
            break;
        case Shape_One:
            value->as.one = 0;
            postcard_get_u8(reader, &value->as.one);
            break;
        case Shape_Two:
            value->as.two._0 = 0;
            postcard_get_u8(reader, &value->as.two._0);
            value->as.two._1 = 0;
            postcard_get_i16(reader, &value->as.two._1);
            break;
        case Shape_Named:
            value->as.named.width = 0;
            postcard_get_u16(reader, &value->as.named.width);
            value->as.named.height = 0;
            postcard_get_u16(reader, &value->as.named.height);
            break;
        case Shape_Inner:
            Level_get(reader, &value->as.inner);
            break;
        case Shape_HTTPServer:
            value->as.http_server.port = 0;
            postcard_get_u16(reader, &value->as.http_server.port);
            break;
        case Shape_List:
            forms_list_u16_get(reader, &value->as.list);
            break;
        case Shape_Deep:
            Holder_option_u8_get(reader, &value->as.deep);
            break;
    }
    return reader->status;
}

postcard_status Single_put(postcard_writer *writer, const Single *value) {
    if ((uint32_t)value->tag >= 1u) bad_value_(writer);
    postcard_put_variant(writer, (uint32_t)value->tag);
    switch (value->tag) {
        case Single_Only:
            postcard_put_u8(writer, value->as.only.a);
            break;
    }
    return writer->status;
}

postcard_status Single_get(postcard_reader *reader, Single *value) {
    uint32_t index = 0;
    size_t start = reader->at;
    postcard_get_variant(reader, &index);
    if (index >= 1u) index = 0, bad_message_(reader, start);
    value->tag = (Single_tag)index;
    switch (value->tag) {
        case Single_Only:
            value->as.only.a = 0;
            postcard_get_u8(reader, &value->as.only.a);
            break;
    }
    return reader->status;
}

postcard_status Hollow_put(postcard_writer *writer, const Hollow *value) {
    if ((uint32_t)value->tag >= 2u) bad_value_(writer);
    postcard_put_variant(writer, (uint32_t)value->tag);
    switch (value->tag) {
        case Hollow_A:
            break;
        case Hollow_B:
            break;
    }
    return writer->status;
}

postcard_status Hollow_get(postcard_reader *reader, Hollow *value) {
    uint32_t index = 0;
    size_t start = reader->at;
    postcard_get_variant(reader, &index);
    if (index >= 2u) index = 0, bad_message_(reader, start);
    value->tag = (Hollow_tag)index;
    switch (value->tag) {
        case Hollow_A:
            break;
        case Hollow_B:
            break;
    }
    return reader->status;
}

postcard_status Many_put(postcard_writer *writer, const Many *value) {
    if ((uint32_t)value->tag >= 130u) bad_value_(writer);
    postcard_put_variant(writer, (uint32_t)value->tag);
    switch (value->tag) {
        case Many_V0:
            break;
        case Many_V1:
            break;
        case Many_V2:
            break;
        case Many_V3:
            break;
        case Many_V4:
            break;
        case Many_V5:
            break;
        case Many_V6:
            break;
        case Many_V7:
            break;
        case Many_V8:
            break;
        case Many_V9:
            break;
        case Many_V10:
            break;
        case Many_V11:
            break;
        case Many_V12:
            break;
        case Many_V13:
            break;
        case Many_V14:
            break;
        case Many_V15:
            break;
        case Many_V16:
            break;
        case Many_V17:
            break;
        case Many_V18:
            break;
        case Many_V19:
            break;
        case Many_V20:
            break;
        case Many_V21:
            break;
        case Many_V22:
            break;
        case Many_V23:
            break;
        case Many_V24:
            break;
        case Many_V25:
            break;
        case Many_V26:
            break;
        case Many_V27:
            break;
        case Many_V28:
            break;
        case Many_V29:
            break;
        case Many_V30:
            break;
        case Many_V31:
            break;
        case Many_V32:
            break;
        case Many_V33:
            break;
        case Many_V34:
            break;
        case Many_V35:
            break;
        case Many_V36:
            break;
        case Many_V37:
            break;
        case Many_V38:
            break;
        case Many_V39:
            break;
        case Many_V40:
            break;
        case Many_V41:
            break;
        case Many_V42:
            break;
        case Many_V43:
            break;
        case Many_V44:
            break;
        case Many_V45:
            break;
        case Many_V46:
            break;
        case Many_V47:
            break;
        case Many_V48:
            break;
        case Many_V49:
            break;
        case Many_V50:
            break;
        case Many_V51:
            break;
        case Many_V52:
            break;
        case Many_V53:
            break;
        case Many_V54:
            break;
        case Many_V55:
            break;
        case Many_V56:
            break;
        case Many_V57:
            break;
        case Many_V58:
            break;
        case Many_V59:
            break;
        case Many_V60:
            break;
        case Many_V61:
            break;
        case Many_V62:
            break;
        case Many_V63:
            break;
        case Many_V64:
            break;
        case Many_V65:
            break;
        case Many_V66:
            break;
        case Many_V67:
            break;
        case Many_V68:
            break;
        case Many_V69:
            break;
        case Many_V70:
            break;
        case Many_V71:
            break;
        case Many_V72:
            break;
        case Many_V73:
            break;
        case Many_V74:
            break;
        case Many_V75:
            break;
        case Many_V76:
            break;
        case Many_V77:
            break;
        case Many_V78:
            break;
        case Many_V79:
            break;
        case Many_V80:
            break;
        case Many_V81:
            break;
        case Many_V82:
            break;
        case Many_V83:
            break;
        case Many_V84:
            break;
        case Many_V85:
            break;
        case Many_V86:
            break;
        case Many_V87:
            break;
        case Many_V88:
            break;
        case Many_V89:
            break;
        case Many_V90:
            break;
        case Many_V91:
            break;
        case Many_V92:
            break;
        case Many_V93:
            break;
        case Many_V94:
            break;
        case Many_V95:
            break;
        case Many_V96:
            break;
        case Many_V97:
            break;
        case Many_V98:
            break;
        case Many_V99:
            break;
        case Many_V100:
            break;
        case Many_V101:
            break;
        case Many_V102:
            break;
        case Many_V103:
            break;
        case Many_V104:
            break;
        case Many_V105:
            break;
        case Many_V106:
            break;
        case Many_V107:
            break;
        case Many_V108:
            break;
        case Many_V109:
            break;
        case Many_V110:
            break;
        case Many_V111:
            break;
        case Many_V112:
            break;
        case Many_V113:
            break;
        case Many_V114:
            break;
        case Many_V115:
            break;
        case Many_V116:
            break;
        case Many_V117:
            break;
        case Many_V118:
            break;
        case Many_V119:
            break;
        case Many_V120:
            break;
        case Many_V121:
            break;
        case Many_V122:
            break;
        case Many_V123:
            break;
        case Many_V124:
            break;
        case Many_V125:
            break;
        case Many_V126:
            break;
        case Many_V127:
            break;
        case Many_Last:
            postcard_put_u8(writer, value->as.last);
            break;
        case Many_Other:
            postcard_put_i8(writer, value->as.other.a);
            break;
    }
    return writer->status;
}

postcard_status Many_get(postcard_reader *reader, Many *value) {
    uint32_t index = 0;
    size_t start = reader->at;
    postcard_get_variant(reader, &index);
    if (index >= 130u) index = 0, bad_message_(reader, start);
    value->tag = (Many_tag)index;
    switch (value->tag) {
        case Many_V0:
            break;
        case Many_V1:
            break;
        case Many_V2:
            break;
        case Many_V3:
            break;
        case Many_V4:
            break;
        case Many_V5:
            break;
        case Many_V6:
            break;
        case Many_V7:
            break;
        case Many_V8:
            break;
        case Many_V9:
            break;
        case Many_V10:
            break;
        case Many_V11:
            break;
        case Many_V12:
            break;
        case Many_V13:
            break;
        case Many_V14:
            break;
        case Many_V15:
            break;
        case Many_V16:
            break;
        case Many_V17:
            break;
        case Many_V18:
            break;
        case Many_V19:
            break;
        case Many_V20:
            break;
        case Many_V21:
            break;
        case Many_V22:
            break;
        case Many_V23:
            break;
        case Many_V24:
            break;
        case Many_V25:
            break;
        case Many_V26:
            break;
        case Many_V27:
            break;
        case Many_V28:
            break;
        case Many_V29:
            break;
        case Many_V30:
            break;
        case Many_V31:
            break;
        case Many_V32:
            break;
        case Many_V33:
            break;
        case Many_V34:
            break;
        case Many_V35:
            break;
        case Many_V36:
            break;
        case Many_V37:
            break;
        case Many_V38:
            break;
        case Many_V39:
            break;
        case Many_V40:
            break;
        case Many_V41:
            break;
        case Many_V42:
            break;
        case Many_V43:
            break;
        case Many_V44:
            break;
        case Many_V45:
            break;
        case Many_V46:
            break;
        case Many_V47:
            break;
        case Many_V48:
            break;
        case Many_V49:
            break;
        case Many_V50:
            break;
        case Many_V51:
            break;
        case Many_V52:
            break;
        case Many_V53:
            break;
        case Many_V54:
            break;
        case Many_V55:
            break;
        case Many_V56:
            break;
        case Many_V57:
            break;
        case Many_V58:
            break;
        case Many_V59:
            break;
        case Many_V60:
            break;
        case Many_V61:
            break;
        case Many_V62:
            break;
        case Many_V63:
            break;
        case Many_V64:
            break;
        case Many_V65:
            break;
        case Many_V66:
            break;
        case Many_V67:
            break;
        case Many_V68:
            break;
        case Many_V69:
            break;
        case Many_V70:
            break;
        case Many_V71:
            break;
        case Many_V72:
            break;
        case Many_V73:
            break;
        case Many_V74:
            break;
        case Many_V75:
            break;
        case Many_V76:
            break;
        case Many_V77:
            break;
        case Many_V78:
            break;
        case Many_V79:
            break;
        case Many_V80:
            break;
        case Many_V81:
            break;
        case Many_V82:
            break;
        case Many_V83:
            break;
        case Many_V84:
            break;
        case Many_V85:
            break;
        case Many_V86:
            break;
        case Many_V87:
            break;
        case Many_V88:
            break;
        case Many_V89:
            break;
        case Many_V90:
            break;
        case Many_V91:
            break;
        case Many_V92:
            break;
        case Many_V93:
            break;
        case Many_V94:
            break;
        case Many_V95:
            break;
        case Many_V96:
            break;
        case Many_V97:
            break;
        case Many_V98:
            break;
        case Many_V99:
            break;
        case Many_V100:
            break;
        case Many_V101:
            break;
        case Many_V102:
            break;
        case Many_V103:
            break;
        case Many_V104:
            break;
        case Many_V105:
            break;
        case Many_V106:
            break;
        case Many_V107:
            break;
        case Many_V108:
            break;
        case Many_V109:
            break;
        case Many_V110:
            break;
        case Many_V111:
            break;
        case Many_V112:
            break;
        case Many_V113:
            break;
        case Many_V114:
            break;
        case Many_V115:
            break;
        case Many_V116:
            break;
        case Many_V117:
            break;
        case Many_V118:
            break;
        case Many_V119:
            break;
        case Many_V120:
            break;
        case Many_V121:
            break;
        case Many_V122:
            break;
        case Many_V123:
            break;
        case Many_V124:
            break;
        case Many_V125:
            break;
        case Many_V126:
            break;
        case Many_V127:
            break;
        case Many_Last:
            value->as.last = 0;
            postcard_get_u8(reader, &value->as.last);
            break;
        case Many_Other:
            value->as.other.a = 0;
            postcard_get_i8(reader, &value->as.other.a);
            break;
    }
    return reader->status;
}

postcard_status HolderByte_put(postcard_writer *writer, const HolderByte *value) {
    postcard_put_u8(writer, value->old);
    postcard_put_u8(writer, value->new_);
    return writer->status;
}

postcard_status HolderByte_get(postcard_reader *reader, HolderByte *value) {
    value->old = 0;
    postcard_get_u8(reader, &value->old);
    value->new_ = 0;
    postcard_get_u8(reader, &value->new_);
    return reader->status;
}

postcard_status RequestShort_put(postcard_writer *writer, const RequestShort *value) {
    if ((uint32_t)value->tag >= 4u) bad_value_(writer);
    postcard_put_variant(writer, (uint32_t)value->tag);
    switch (value->tag) {
        case RequestShort_Get:
            break;
        case RequestShort_Set:
            postcard_put_u16(writer, value->as.set);
            break;
        case RequestShort_Limit:
            postcard_put_u16(writer, value->as.limit.low);
            postcard_put_u16(writer, value->as.limit.high);
            break;
        case RequestShort_Fail:
            Level_put(writer, &value->as.fail);
            break;
    }
    return writer->status;
}

postcard_status RequestShort_get(postcard_reader *reader, RequestShort *value) {
    uint32_t index = 0;
    size_t start = reader->at;
    postcard_get_variant(reader, &index);
    if (index >= 4u) index = 0, bad_message_(reader, start);
    value->tag = (RequestShort_tag)index;
    switch (value->tag) {
        case RequestShort_Get:
            break;
        case RequestShort_Set:
            value->as.set = 0;
            postcard_get_u16(reader, &value->as.set);
            break;
        case RequestShort_Limit:
            value->as.limit.low = 0;
            postcard_get_u16(reader, &value->as.limit.low);
            value->as.limit.high = 0;
            postcard_get_u16(reader, &value->as.limit.high);
            break;
        case RequestShort_Fail:
            Level_get(reader, &value->as.fail);
            break;
    }
    return reader->status;
}

postcard_status Holder_bool_put(postcard_writer *writer, const Holder_bool *value) {
    postcard_put_bool(writer, value->old);
    postcard_put_bool(writer, value->new_);
    return writer->status;
}

postcard_status Holder_bool_get(postcard_reader *reader, Holder_bool *value) {
    value->old = false;
    postcard_get_bool(reader, &value->old);
    value->new_ = false;
    postcard_get_bool(reader, &value->new_);
    return reader->status;
}

postcard_status Holder_Holder_bool_put(postcard_writer *writer, const Holder_Holder_bool *value) {
    Holder_bool_put(writer, &value->old);
    Holder_bool_put(writer, &value->new_);
    return writer->status;
}

postcard_status Holder_Holder_bool_get(postcard_reader *reader, Holder_Holder_bool *value) {
    Holder_bool_get(reader, &value->old);
    Holder_bool_get(reader, &value->new_);
    return reader->status;
}

postcard_status Request_i32_unit_put(postcard_writer *writer, const Request_i32_unit *value) {
    if ((uint32_t)value->tag >= 4u) bad_value_(writer);
    postcard_put_variant(writer, (uint32_t)value->tag);
    switch (value->tag) {
        case Request_i32_unit_Get:
            break;
        case Request_i32_unit_Set:
            postcard_put_i32(writer, value->as.set);
            break;
        case Request_i32_unit_Limit:
            postcard_put_i32(writer, value->as.limit.low);
            postcard_put_i32(writer, value->as.limit.high);
            break;
        case Request_i32_unit_Fail:
            break;
    }
    return writer->status;
}

postcard_status Request_i32_unit_get(postcard_reader *reader, Request_i32_unit *value) {
    uint32_t index = 0;
    size_t start = reader->at;
    postcard_get_variant(reader, &index);
    if (index >= 4u) index = 0, bad_message_(reader, start);
    value->tag = (Request_i32_unit_tag)index;
    switch (value->tag) {
        case Request_i32_unit_Get:
            break;
        case Request_i32_unit_Set:
            value->as.set = 0;
            postcard_get_i32(reader, &value->as.set);
            break;
        case Request_i32_unit_Limit:
            value->as.limit.low = 0;
            postcard_get_i32(reader, &value->as.limit.low);
            value->as.limit.high = 0;
            postcard_get_i32(reader, &value->as.limit.high);
            break;
        case Request_i32_unit_Fail:
            break;
    }
    return reader->status;
}

postcard_status Holder_bytes_put(postcard_writer *writer, const Holder_bytes *value) {
    postcard_put_bytes(writer, value->old.bytes, value->old.size);
    postcard_put_bytes(writer, value->new_.bytes, value->new_.size);
    return writer->status;
}

postcard_status Holder_bytes_get(postcard_reader *reader, Holder_bytes *value) {
    value->old.bytes = NULL, value->old.size = 0;
    postcard_get_bytes(reader, &value->old);
    value->new_.bytes = NULL, value->new_.size = 0;
    postcard_get_bytes(reader, &value->new_);
    return reader->status;
}

postcard_status Generics_put(postcard_writer *writer, const Generics *value) {
    HolderByte_put(writer, &value->a);
    Holder_Holder_bool_put(writer, &value->b);
    RequestShort_put(writer, &value->c);
    Request_i32_unit_put(writer, &value->d);
    Holder_bytes_put(writer, &value->e);
    return writer->status;
}

postcard_status Generics_get(postcard_reader *reader, Generics *value) {
    HolderByte_get(reader, &value->a);
    Holder_Holder_bool_get(reader, &value->b);
    RequestShort_get(reader, &value->c);
    Request_i32_unit_get(reader, &value->d);
    Holder_bytes_get(reader, &value->e);
    return reader->status;
}

postcard_status Samples_put(postcard_writer *writer, const Samples *value) {
    postcard_put_count(writer, value->count);
    if (value->items == NULL) {
        int32_t item;
        size_t read = 0;
        postcard_reader reader = Samples_reader(value);
        for (; Samples_next(&reader, &item); read++) {
            postcard_put_i32(writer, item);
        }
        if (read != value->count || reader.status != POSTCARD_OK) bad_value_(writer);
        return writer->status;
    }
    for (size_t i = 0; i < value->count; i++) {
        postcard_put_i32(writer, value->items[i]);
    }
    return writer->status;
}

postcard_status Samples_get(postcard_reader *reader, Samples *value) {
    int32_t item;
    size_t count = 0, start = reader->at;
    value->count = 0;
    value->items = NULL, value->encoded.bytes = NULL, value->encoded.size = 0;
    if (postcard_get_count(reader, &count) != POSTCARD_OK) return reader->status;
    start = reader->at;
    for (size_t i = 0; i < count && reader->status == POSTCARD_OK; i++) {
        item = 0;
        postcard_get_i32(reader, &item);
    }
    if (reader->status == POSTCARD_OK) value->count = count, value->encoded.bytes = reader->bytes + start, value->encoded.size = reader->at - start;
    return reader->status;
}

bool Samples_next(postcard_reader *reader, int32_t *item) {
    if (reader->status != POSTCARD_OK || reader->at >= reader->size) return false;
    *item = 0;
    postcard_get_i32(reader, item);
    return reader->status == POSTCARD_OK;
}

postcard_status Place_put(postcard_writer *writer, const Place *value) {
    postcard_put_i32(writer, value->_0);
    postcard_put_str(writer, (const char *)value->_1.bytes, value->_1.size);
    return writer->status;
}

postcard_status Place_get(postcard_reader *reader, Place *value) {
    value->_0 = 0;
    postcard_get_i32(reader, &value->_0);
    value->_1.bytes = NULL, value->_1.size = 0;
    postcard_get_str(reader, &value->_1);
    return reader->status;
}

postcard_status Aliases_put(postcard_writer *writer, const Aliases *value) {
    postcard_put_i32(writer, value->a);
    Samples_put(writer, &value->b);
    postcard_put_i32(writer, value->c._0);
    postcard_put_str(writer, (const char *)value->c._1.bytes, value->c._1.size);
    Shape_put(writer, &value->d);
    return writer->status;
}

postcard_status Aliases_get(postcard_reader *reader, Aliases *value) {
    value->a = 0;
    postcard_get_i32(reader, &value->a);
    Samples_get(reader, &value->b);
    value->c._0 = 0;
    postcard_get_i32(reader, &value->c._0);
    value->c._1.bytes = NULL, value->c._1.size = 0;
    postcard_get_str(reader, &value->c._1);
    Shape_get(reader, &value->d);
    return reader->status;
}

postcard_status State_put(postcard_writer *writer, const State *value) {
    if ((uint32_t)value->tag >= 3u) bad_value_(writer);
    postcard_put_variant(writer, (uint32_t)value->tag);
    switch (value->tag) {
        case State_Boot:
            break;
        case State_Fault:
            postcard_put_u8(writer, value->as.fault);
            break;
        case State_Stopped:
            postcard_put_u16(writer, value->as.stopped._0);
            postcard_put_bool(writer, value->as.stopped._1);
            break;
    }
    return writer->status;
}

postcard_status State_get(postcard_reader *reader, State *value) {
    uint32_t index = 0;
    size_t start = reader->at;
    postcard_get_variant(reader, &index);
    if (index >= 3u) index = 0, bad_message_(reader, start);
    value->tag = (State_tag)index;
    switch (value->tag) {
        case State_Boot:
            break;
        case State_Fault:
            value->as.fault = 0;
            postcard_get_u8(reader, &value->as.fault);
            break;
        case State_Stopped:
            value->as.stopped._0 = 0;
            postcard_get_u16(reader, &value->as.stopped._0);
            value->as.stopped._1 = false;
            postcard_get_bool(reader, &value->as.stopped._1);
            break;
    }
    return reader->status;
}

postcard_status forms_option_State_put(postcard_writer *writer, const forms_option_State *value) {
    if (value->some) {
        postcard_put_some(writer);
        State_put(writer, &value->value);
    } else {
        postcard_put_none(writer);
    }
    return writer->status;
}

postcard_status forms_option_State_get(postcard_reader *reader, forms_option_State *value) {
    value->some = false;
    postcard_get_option(reader, &value->some);
    if (value->some) {
        State_get(reader, &value->value);
    }
    return reader->status;
}

postcard_status forms_list_i16_put(postcard_writer *writer, const forms_list_i16 *value) {
    postcard_put_count(writer, value->count);
    if (value->items == NULL) {
        int16_t item;
        size_t read = 0;
        postcard_reader reader = forms_list_i16_reader(value);
        for (; forms_list_i16_next(&reader, &item); read++) {
            postcard_put_i16(writer, item);
        }
        if (read != value->count || reader.status != POSTCARD_OK) bad_value_(writer);
        return writer->status;
    }
    for (size_t i = 0; i < value->count; i++) {
        postcard_put_i16(writer, value->items[i]);
    }
    return writer->status;
}

postcard_status forms_list_i16_get(postcard_reader *reader, forms_list_i16 *value) {
    int16_t item;
    size_t count = 0, start = reader->at;
    value->count = 0;
    value->items = NULL, value->encoded.bytes = NULL, value->encoded.size = 0;
    if (postcard_get_count(reader, &count) != POSTCARD_OK) return reader->status;
    start = reader->at;
    for (size_t i = 0; i < count && reader->status == POSTCARD_OK; i++) {
        item = 0;
        postcard_get_i16(reader, &item);
    }
    if (reader->status == POSTCARD_OK) value->count = count, value->encoded.bytes = reader->bytes + start, value->encoded.size = reader->at - start;
    return reader->status;
}

bool forms_list_i16_next(postcard_reader *reader, int16_t *item) {
    if (reader->status != POSTCARD_OK || reader->at >= reader->size) return false;
    *item = 0;
    postcard_get_i16(reader, item);
    return reader->status == POSTCARD_OK;
}

postcard_status forms_tuple2_u8_str_put(postcard_writer *writer, const forms_tuple2_u8_str *value) {
    postcard_put_u8(writer, value->_0);
    postcard_put_str(writer, (const char *)value->_1.bytes, value->_1.size);
    return writer->status;
}

postcard_status forms_tuple2_u8_str_get(postcard_reader *reader, forms_tuple2_u8_str *value) {
    value->_0 = 0;
    postcard_get_u8(reader, &value->_0);
    value->_1.bytes = NULL, value->_1.size = 0;
    postcard_get_str(reader, &value->_1);
    return reader->status;
}

postcard_status forms_map_u8_str_put(postcard_writer *writer, const forms_map_u8_str *value) {
    postcard_put_count(writer, value->count);
    if (value->items == NULL) {
        forms_tuple2_u8_str item;
        size_t read = 0;
        postcard_reader reader = forms_map_u8_str_reader(value);
        for (; forms_map_u8_str_next(&reader, &item); read++) {
            postcard_put_u8(writer, item._0);
            postcard_put_str(writer, (const char *)item._1.bytes, item._1.size);
        }
        if (read != value->count || reader.status != POSTCARD_OK) bad_value_(writer);
        return writer->status;
    }
    for (size_t i = 0; i < value->count; i++) {
        postcard_put_u8(writer, value->items[i]._0);
        postcard_put_str(writer, (const char *)value->items[i]._1.bytes, value->items[i]._1.size);
    }
    return writer->status;
}

postcard_status forms_map_u8_str_get(postcard_reader *reader, forms_map_u8_str *value) {
    forms_tuple2_u8_str item;
    size_t count = 0, start = reader->at;
    value->count = 0;
    value->items = NULL, value->encoded.bytes = NULL, value->encoded.size = 0;
    if (postcard_get_count(reader, &count) != POSTCARD_OK) return reader->status;
    start = reader->at;
    for (size_t i = 0; i < count && reader->status == POSTCARD_OK; i++) {
        item._0 = 0;
        postcard_get_u8(reader, &item._0);
        item._1.bytes = NULL, item._1.size = 0;
        postcard_get_str(reader, &item._1);
    }
    if (reader->status == POSTCARD_OK) value->count = count, value->encoded.bytes = reader->bytes + start, value->encoded.size = reader->at - start;
    return reader->status;
}

bool forms_map_u8_str_next(postcard_reader *reader, forms_tuple2_u8_str *item) {
    if (reader->status != POSTCARD_OK || reader->at >= reader->size) return false;
    item->_0 = 0;
    postcard_get_u8(reader, &item->_0);
    item->_1.bytes = NULL, item->_1.size = 0;
    postcard_get_str(reader, &item->_1);
    return reader->status == POSTCARD_OK;
}

postcard_status Expressions_d_y_put(postcard_writer *writer, const Expressions_d_y *value) {
    if ((uint32_t)*value >= 2u) bad_value_(writer);
    postcard_put_variant(writer, (uint32_t)*value);
    return writer->status;
}

postcard_status Expressions_d_y_get(postcard_reader *reader, Expressions_d_y *value) {
    uint32_t index = 0;
    size_t start = reader->at;
    postcard_get_variant(reader, &index);
    if (index >= 2u) index = 0, bad_message_(reader, start);
    *value = (Expressions_d_y)index;
    return reader->status;
}

postcard_status Expressions_d_put(postcard_writer *writer, const Expressions_d *value) {
    postcard_put_u8(writer, value->x);
    Expressions_d_y_put(writer, &value->y);
    return writer->status;
}

postcard_status Expressions_d_get(postcard_reader *reader, Expressions_d *value) {
    value->x = 0;
    postcard_get_u8(reader, &value->x);
    Expressions_d_y_get(reader, &value->y);
    return reader->status;
}

postcard_status Expressions_put(postcard_writer *writer, const Expressions *value) {
    if (value->a.some) {
        postcard_put_some(writer);
        State_put(writer, &value->a.value);
    } else {
        postcard_put_none(writer);
    }
    forms_list_i16_put(writer, &value->b);
    forms_map_u8_str_put(writer, &value->c);
    Expressions_d_put(writer, &value->d);
    postcard_put_bytes(writer, value->e.bytes, value->e.size);
    return writer->status;
}

postcard_status Expressions_get(postcard_reader *reader, Expressions *value) {
    value->a.some = false;
    postcard_get_option(reader, &value->a.some);
    if (value->a.some) {
        State_get(reader, &value->a.value);
    }
    forms_list_i16_get(reader, &value->b);
    forms_map_u8_str_get(reader, &value->c);
    Expressions_d_get(reader, &value->d);
    value->e.bytes = NULL, value->e.size = 0;
    postcard_get_bytes(reader, &value->e);
    return reader->status;
}

postcard_status Words_put(postcard_writer *writer, const Words *value) {
    postcard_put_u8(writer, value->int_);
    postcard_put_u8(writer, value->class_);
    postcard_put_u8(writer, value->new_);
    postcard_put_u8(writer, value->def);
    postcard_put_u8(writer, value->lambda);
    postcard_put_u8(writer, value->unix_);
    postcard_put_u8(writer, value->value);
    postcard_put_u8(writer, value->writer);
    postcard_put_u8(writer, value->encode);
    postcard_put_u8(writer, value->frame);
    postcard_put_u8(writer, value->name);
    postcard_put_u8(writer, value->errno_);
    if (value->None.some) {
        postcard_put_some(writer);
    } else {
        postcard_put_none(writer);
    }
    return writer->status;
}

postcard_status Words_get(postcard_reader *reader, Words *value) {
    value->int_ = 0;
    postcard_get_u8(reader, &value->int_);
    value->class_ = 0;
    postcard_get_u8(reader, &value->class_);
    value->new_ = 0;
    postcard_get_u8(reader, &value->new_);
    value->def = 0;
    postcard_get_u8(reader, &value->def);
    value->lambda = 0;
    postcard_get_u8(reader, &value->lambda);
    value->unix_ = 0;
    postcard_get_u8(reader, &value->unix_);
    value->value = 0;
    postcard_get_u8(reader, &value->value);
    value->writer = 0;
    postcard_get_u8(reader, &value->writer);
    value->encode = 0;
    postcard_get_u8(reader, &value->encode);
    value->frame = 0;
    postcard_get_u8(reader, &value->frame);
    value->name = 0;
    postcard_get_u8(reader, &value->name);
    value->errno_ = 0;
    postcard_get_u8(reader, &value->errno_);
    value->None.some = false;
    postcard_get_option(reader, &value->None.some);
    return reader->status;
}

postcard_status writer__put(postcard_writer *writer, const writer_ *value) {
    postcard_put_u8(writer, value->_0);
    return writer->status;
}

postcard_status writer__get(postcard_reader *reader, writer_ *value) {
    value->_0 = 0;
    postcard_get_u8(reader, &value->_0);
    return reader->status;
}

postcard_status Error_put(postcard_writer *writer, const Error *value) {
    if ((uint32_t)value->tag >= 3u) bad_value_(writer);
    postcard_put_variant(writer, (uint32_t)value->tag);
    switch (value->tag) {
        case Error_None:
            break;
        case Error_True:
            break;
        case Error_Default:
            postcard_put_u8(writer, value->as.default_);
            break;
    }
    return writer->status;
}

postcard_status Error_get(postcard_reader *reader, Error *value) {
    uint32_t index = 0;
    size_t start = reader->at;
    postcard_get_variant(reader, &index);
    if (index >= 3u) index = 0, bad_message_(reader, start);
    value->tag = (Error_tag)index;
    switch (value->tag) {
        case Error_None:
            break;
        case Error_True:
            break;
        case Error_Default:
            value->as.default_ = 0;
            postcard_get_u8(reader, &value->as.default_);
            break;
    }
    return reader->status;
}

postcard_status Option__put(postcard_writer *writer, const Option_ *value) {
    postcard_put_u8(writer, value->self_);
    return writer->status;
}

postcard_status Option__get(postcard_reader *reader, Option_ *value) {
    value->self_ = 0;
    postcard_get_u8(reader, &value->self_);
    return reader->status;
}

postcard_status Shadows_put(postcard_writer *writer, const Shadows *value) {
    Serial_put(writer, &value->Serial_);
    postcard_put_u8(writer, value->writer);
    if (value->Level_.some) {
        postcard_put_some(writer);
        Level_put(writer, &value->Level_.value);
    } else {
        postcard_put_none(writer);
    }
    return writer->status;
}

postcard_status Shadows_get(postcard_reader *reader, Shadows *value) {
    Serial_get(reader, &value->Serial_);
    value->writer = 0;
    postcard_get_u8(reader, &value->writer);
    value->Level_.some = false;
    postcard_get_option(reader, &value->Level_.some);
    if (value->Level_.some) {
        Level_get(reader, &value->Level_.value);
    }
    return reader->status;
}
