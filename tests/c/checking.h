/* What the tests share: texts, keys, and a test that says where it failed. */
#ifndef CHECKING_H
#define CHECKING_H

#include "gix_config.h"
#include <stdio.h>
#include <stdlib.h>
#include <string.h>

#define CHECK(holds) \
    do { \
        if (!(holds)) { \
            fprintf(stderr, "%s:%d: %s\n", __FILE__, __LINE__, #holds); \
            exit(1); \
        } \
    } while (0)

static inline gix_config_text text_of(const char *words)
{
    gix_config_text text = { (const uint8_t *)words, strlen(words) };
    return text;
}

/* (no subsection for a null pointer) */
static inline gix_config_key key_of(const char *section, const char *subsection, const char *name)
{
    gix_config_key key = { text_of(section), subsection != NULL, text_of(subsection != NULL ? subsection : ""), text_of(name) };
    return key;
}

static inline gix_config_section section_of(const char *name, const char *subsection)
{
    gix_config_section section = { text_of(name), subsection != NULL, text_of(subsection != NULL ? subsection : "") };
    return section;
}

static inline bool is_text(const uint8_t *at, size_t len, const char *words)
{
    return len == strlen(words) && (len == 0 || memcmp(at, words, len) == 0);
}

static inline uint32_t parse(const char *words, bool lossy, gix_config_file *file, gix_config_place *place)
{
    return gix_config_file_parse((const uint8_t *)words, strlen(words), lossy, file, place);
}

static inline uint32_t parse_as(const char *words, const gix_config_metadata *meta, bool lossy, gix_config_file *file, gix_config_place *place)
{
    return gix_config_file_parse_as((const uint8_t *)words, strlen(words), meta, lossy, file, place);
}

static inline uint32_t key_parse(const char *words, gix_config_key *key)
{
    return gix_config_key_parse((const uint8_t *)words, strlen(words), key);
}

static inline uint32_t boolean_parse(const char *words, bool *value)
{
    return gix_config_boolean_parse((const uint8_t *)words, strlen(words), value);
}

static inline uint32_t integer_parse(const char *words, int64_t *value)
{
    return gix_config_integer_parse((const uint8_t *)words, strlen(words), value);
}

static inline uint32_t set(gix_config_file *file, const gix_config_key *key, const char *value, bool *had, gix_config_bytes *old)
{
    return gix_config_set_value(file, key, (const uint8_t *)value, strlen(value), had, old);
}

static inline uint32_t text_value(const char *words, const gix_config_key *key, gix_config_bytes *value, gix_config_place *place)
{
    return gix_config_text_value((const uint8_t *)words, strlen(words), key, value, place);
}

static inline uint32_t text_values(const char *words, const gix_config_key *key, gix_config_list *list, gix_config_place *place)
{
    return gix_config_text_values((const uint8_t *)words, strlen(words), key, list, place);
}

/* (no value for a null pointer) */
static inline uint32_t push(gix_config_file *file, const gix_config_key *key, const char *value)
{
    const char *words = value != NULL ? value : "";
    return gix_config_push_value(file, key, value != NULL, (const uint8_t *)words, strlen(words));
}

#endif
