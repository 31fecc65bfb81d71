/* Iterators over bitmaps: a part of roaring.h. */
#ifndef ROARING_ITERATORS_H
#define ROARING_ITERATORS_H

/* `place` is -1 before the first value, 0 at a value, and 1 past the last. */
typedef struct roaring_uint32_iterator_s {
    const roaring_bitmap_t *parent;
    int place;
    uint32_t current_value;
    bool has_value;
} roaring_uint32_iterator_t;

static inline bool roaring_move(roaring_uint32_iterator_t *it, uint64_t member, int otherwise) {
    it->has_value = member != BIT_ROARING_NONE;
    it->place = it->has_value ? 0 : otherwise;
    it->current_value = it->has_value ? (uint32_t)member : UINT32_MAX;
    return it->has_value;
}

static inline void roaring_init_iterator(const roaring_bitmap_t *ra, roaring_uint32_iterator_t *newit) {
    newit->parent = ra;
    roaring_move(newit, bit_roaring_min(ra->set), 1);
}

static inline void roaring_init_iterator_last(const roaring_bitmap_t *ra, roaring_uint32_iterator_t *newit) {
    newit->parent = ra;
    roaring_move(newit, bit_roaring_max(ra->set), -1);
}

static inline roaring_uint32_iterator_t *roaring_create_iterator(const roaring_bitmap_t *ra) {
    roaring_uint32_iterator_t *made = (roaring_uint32_iterator_t *)malloc(sizeof *made);
    roaring_require(made != NULL);
    roaring_init_iterator(ra, made);
    return made;
}

static inline roaring_uint32_iterator_t *roaring_copy_uint32_iterator(const roaring_uint32_iterator_t *it) {
    roaring_uint32_iterator_t *made = (roaring_uint32_iterator_t *)malloc(sizeof *made);
    roaring_require(made != NULL);
    *made = *it;
    return made;
}

static inline void roaring_free_uint32_iterator(roaring_uint32_iterator_t *it) { free(it); }

static inline bool roaring_advance_uint32_iterator(roaring_uint32_iterator_t *it) {
    uint64_t from = it->place < 0 ? 0 : it->place > 0 ? ROARING_PAST : (uint64_t)it->current_value + 1;
    return roaring_move(it, bit_roaring_next(it->parent->set, from), 1);
}

static inline bool roaring_previous_uint32_iterator(roaring_uint32_iterator_t *it) {
    uint64_t end = it->place < 0 ? 0 : it->place > 0 ? ROARING_PAST : it->current_value;
    return roaring_move(it, bit_roaring_previous(it->parent->set, end), -1);
}

static inline bool roaring_move_uint32_iterator_equalorlarger(roaring_uint32_iterator_t *it, uint32_t val) {
    return roaring_move(it, bit_roaring_next(it->parent->set, val), 1);
}

static inline uint32_t roaring_read_uint32_iterator(roaring_uint32_iterator_t *it, uint32_t *buf, uint32_t count) {
    size_t read = 0;
    if (it->has_value && count > 0) {
        read = bit_roaring_copy_members(it->parent->set, it->current_value, buf, count);
        roaring_move(it, bit_roaring_next(it->parent->set, (uint64_t)buf[read - 1] + 1), 1);
    }
    return (uint32_t)read;
}

#endif
