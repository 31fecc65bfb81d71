/* The bytes of bitmaps: a part of roaring.h. */
#ifndef ROARING_BYTES_H
#define ROARING_BYTES_H

/* ---- The portable form. */

static inline size_t roaring_bitmap_portable_size_in_bytes(const roaring_bitmap_t *ra) {
    return bit_roaring_serialized_size(ra->set);
}

static inline size_t roaring_bitmap_portable_serialize(const roaring_bitmap_t *ra, char *buf) {
    size_t size = bit_roaring_serialized_size(ra->set);
    roaring_require(bit_roaring_serialize(ra->set, (uint8_t *)buf, size) == BIT_ROARING_YES);
    return size;
}

static inline uint32_t roaring_number_at(const char *buf, size_t width) {
    uint32_t number = 0;
    for (size_t k = width; k > 0; k--)
        number = number << 8 | (uint8_t)buf[k - 1];
    return number;
}

/* As CRoaring does, it reads no more than says how many bytes there are, and tests little else. */
static inline size_t roaring_bitmap_portable_deserialize_size(const char *buf, size_t maxbytes) {
    size_t at = 4, count, heads, flags = 0;
    uint32_t cookie;
    if (maxbytes < at)
        return 0;
    cookie = roaring_number_at(buf, 4);
    if ((cookie & 0xffff) == 12347) {
        count = (cookie >> 16) + 1;
        flags = at;
        at += (count + 7) / 8;
    } else if (cookie == 12346 && maxbytes >= 8) {
        count = roaring_number_at(buf + 4, 4);
        at = 8;
    } else {
        return 0;
    }
    heads = at;
    at += 4 * count;
    if (count > 65536 || maxbytes < at)
        return 0;
    at += flags == 0 || count >= 4 ? 4 * count : 0;
    for (size_t k = 0; k < count; k++) {
        size_t members = roaring_number_at(buf + heads + 4 * k + 2, 2) + (size_t)1;
        if (flags > 0 && ((uint8_t)buf[flags + k / 8] >> k % 8 & 1)) {
            if (maxbytes < at + 2)
                return 0;
            at += 2 + 4 * (size_t)roaring_number_at(buf + at, 2);
        } else {
            at += members > 4096 ? 8192 : 2 * members;
        }
        if (maxbytes < at)
            return 0;
    }
    return at;
}

static inline roaring_bitmap_t *roaring_bitmap_portable_deserialize_safe(const char *buf, size_t maxbytes) {
    bit_roaring *set = NULL;
    size_t used;
    int32_t answer = bit_roaring_deserialize(&set, (const uint8_t *)buf, maxbytes, &used);
    roaring_require(answer != BIT_ROARING_NO_MEMORY);
    return answer == BIT_ROARING_YES ? roaring_of(set) : NULL;
}

static inline roaring_bitmap_t *roaring_bitmap_portable_deserialize(const char *buf) {
    return roaring_bitmap_portable_deserialize_safe(buf, roaring_bitmap_portable_deserialize_size(buf, SIZE_MAX));
}

/* ---- The form of CRoaring's own: a byte, and then the values, or the portable form if that is shorter. */

static inline size_t roaring_size_of_values(const roaring_bitmap_t *ra) {
    return 4 + 4 * (size_t)bit_roaring_len(ra->set);
}

static inline size_t roaring_bitmap_size_in_bytes(const roaring_bitmap_t *ra) {
    size_t portable = bit_roaring_serialized_size(ra->set), values = roaring_size_of_values(ra);
    return 1 + (portable < values ? portable : values);
}

static inline size_t roaring_bitmap_serialize(const roaring_bitmap_t *ra, char *buf) {
    size_t size = roaring_bitmap_size_in_bytes(ra);
    uint32_t count = (uint32_t)bit_roaring_len(ra->set), *values;
    if (bit_roaring_serialized_size(ra->set) < roaring_size_of_values(ra)) {
        buf[0] = 2;
        return 1 + roaring_bitmap_portable_serialize(ra, buf + 1);
    }
    buf[0] = 1;
    memcpy(buf + 1, &count, 4);
    values = (uint32_t *)malloc(size);
    roaring_require(values != NULL);
    roaring_bitmap_to_uint32_array(ra, values);
    memcpy(buf + 5, values, size - 5);
    free(values);
    return size;
}

static inline roaring_bitmap_t *roaring_bitmap_deserialize(const void *buf) {
    const char *bytes = (const char *)buf;
    roaring_bitmap_t *made;
    uint32_t count, value;
    if (bytes[0] == 2)
        return roaring_bitmap_portable_deserialize(bytes + 1);
    if (bytes[0] != 1)
        return NULL;
    made = roaring_bitmap_create();
    memcpy(&count, bytes + 1, 4);
    for (size_t k = 0; k < count; k++) {
        memcpy(&value, bytes + 5 + 4 * k, 4);
        roaring_bitmap_add(made, value);
    }
    return made;
}

#endif
