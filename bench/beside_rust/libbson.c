// libbson in the rows that read: what its header declares, so its layouts and inline functions are its own.
#include <bson/bson.h>

// The storage that src/libbson.rs has for a bson_t.
_Static_assert(sizeof(bson_t) == 128 && _Alignof(bson_t) <= 128, "a bson_t");

// The sizes of a value's parts.
static uint64_t held_parts(const bson_iter_t *at)
{
    uint32_t size = 0, size2 = 0;
    const uint8_t *part;
    bson_decimal128_t decimal;
    bson_subtype_t subtype;
    const char *options;
    switch (bson_iter_type(at)) {
    case BSON_TYPE_UTF8:
        bson_iter_utf8(at, &size);
        return size;
    case BSON_TYPE_SYMBOL:
        bson_iter_symbol(at, &size);
        return size;
    case BSON_TYPE_DOCUMENT:
        bson_iter_document(at, &size, &part);
        return size;
    case BSON_TYPE_ARRAY:
        bson_iter_array(at, &size, &part);
        return size;
    case BSON_TYPE_BINARY:
        bson_iter_binary(at, &subtype, &size, &part);
        return (uint64_t)subtype + size;
    case BSON_TYPE_OID:
        return sizeof(*bson_iter_oid(at));
    case BSON_TYPE_DECIMAL128:
        bson_iter_decimal128(at, &decimal);
        return sizeof decimal;
    case BSON_TYPE_REGEX: {
        const char *pattern = bson_iter_regex(at, &options);
        return strlen(pattern) + strlen(options);
    }
    case BSON_TYPE_CODEWSCOPE:
        bson_iter_codewscope(at, &size, &size2, &part);
        return (uint64_t)size + size2;
    default:
        return 0;
    }
}

// What a value holds: a number, or the sizes of its parts.
static uint64_t held(const bson_iter_t *at)
{
    uint32_t seconds, increment;
    switch (bson_iter_type(at)) {
    case BSON_TYPE_BOOL:
        return bson_iter_bool(at);
    case BSON_TYPE_INT32:
        return (uint64_t)bson_iter_int32(at);
    case BSON_TYPE_INT64:
        return (uint64_t)bson_iter_int64(at);
    case BSON_TYPE_DATE_TIME:
        return (uint64_t)bson_iter_date_time(at);
    case BSON_TYPE_DOUBLE: {
        double number = bson_iter_double(at);
        uint64_t bits;
        memcpy(&bits, &number, sizeof bits);
        return bits;
    }
    case BSON_TYPE_TIMESTAMP:
        bson_iter_timestamp(at, &seconds, &increment);
        return increment + ((uint64_t)seconds << 32);
    case BSON_TYPE_NULL:
        return 0;
    default:
        return held_parts(at);
    }
}

static bool admitted(bson_t *document, const uint8_t *bytes, size_t length, bson_iter_t *iter)
{
    return bson_init_static(document, bytes, length) && bson_iter_init(iter, document);
}

// The sum of tags, sizes of keys, and what the values hold, of every element of the top; 0 where it is refused.
uint64_t beside_iterate(const uint8_t *bytes, size_t length)
{
    bson_t document;
    bson_iter_t iter;
    if (!admitted(&document, bytes, length, &iter))
        return 0;
    uint64_t sum = 0;
    while (bson_iter_next(&iter))
        sum += (uint64_t)bson_iter_type(&iter) + bson_iter_key_len(&iter) + held(&iter);
    return iter.err_off ? 0 : sum;
}

// 1 where the document passes, else 0.
uint64_t beside_check(const uint8_t *bytes, size_t length)
{
    bson_t document;
    return bson_init_static(&document, bytes, length) &&
           bson_validate(&document, BSON_VALIDATE_UTF8 | BSON_VALIDATE_UTF8_ALLOW_NULL, NULL);
}

// The tag and what the value holds, of the first element of the key; 0 where there is none.
uint64_t beside_lookup(const uint8_t *bytes, size_t length, const char *key, int key_length)
{
    bson_t document;
    bson_iter_t iter;
    if (!bson_init_static(&document, bytes, length) || !bson_iter_init_find_w_len(&iter, &document, key, key_length))
        return 0;
    return (uint64_t)bson_iter_type(&iter) + held(&iter);
}

// The same of what a path leads to, its keys with dots between them.
uint64_t beside_path(const uint8_t *bytes, size_t length, const char *dotted)
{
    bson_t document;
    bson_iter_t iter, found;
    if (!admitted(&document, bytes, length, &iter) || !bson_iter_find_descendant(&iter, dotted, &found))
        return 0;
    return (uint64_t)bson_iter_type(&found) + held(&found);
}
