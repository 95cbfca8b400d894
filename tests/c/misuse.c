/* Handles that are empty, closed twice, or hold something else; names that are not UTF-8; empty texts; places past the end. */
#include "checking.h"

/* What every call answers for a handle that has no file; nothing that it was given changes. */
static void without_file(gix_config_file *file)
{
    void *at = file->at;
    gix_config_key key = key_of("a", NULL, "k");
    gix_config_section section = section_of("a", NULL);
    gix_config_bytes bytes = { NULL, 0, NULL };
    gix_config_list list = { NULL };
    gix_config_file other_file = { NULL };
    bool boolean = true, had = true;
    int64_t integer = 5;
    CHECK(gix_config_file_text(file, &bytes) == GIX_CONFIG_WRONG_HANDLE);
    CHECK(gix_config_file_clone(file, &other_file) == GIX_CONFIG_WRONG_HANDLE);
    CHECK(gix_config_value(file, &key, &bytes) == GIX_CONFIG_WRONG_HANDLE);
    CHECK(gix_config_values(file, &key, &list) == GIX_CONFIG_WRONG_HANDLE);
    CHECK(gix_config_entries(file, &list) == GIX_CONFIG_WRONG_HANDLE);
    CHECK(gix_config_boolean(file, &key, &boolean) == GIX_CONFIG_WRONG_HANDLE && boolean);
    CHECK(gix_config_integer(file, &key, &integer) == GIX_CONFIG_WRONG_HANDLE && integer == 5);
    CHECK(set(file, &key, "v", &had, &bytes) == GIX_CONFIG_WRONG_HANDLE && had);
    CHECK(push(file, &key, "v") == GIX_CONFIG_WRONG_HANDLE);
    CHECK(gix_config_remove_value(file, &key, &bytes) == GIX_CONFIG_WRONG_HANDLE);
    CHECK(gix_config_section_new(file, &section) == GIX_CONFIG_WRONG_HANDLE);
    CHECK(gix_config_section_rename(file, &section, &section) == GIX_CONFIG_WRONG_HANDLE);
    CHECK(gix_config_section_remove(file, &section) == GIX_CONFIG_WRONG_HANDLE);
    CHECK(gix_config_file_append(file, &other_file) == GIX_CONFIG_WRONG_HANDLE);
    gix_config_filter filter = { GIX_CONFIG_SOURCES_ALL, GIX_CONFIG_TRUST_REDUCED };
    gix_config_folders folders = { false, text_of(""), false, text_of("") };
    CHECK(gix_config_sections(file, &list) == GIX_CONFIG_WRONG_HANDLE);
    CHECK(gix_config_section_entries(file, 0, &list) == GIX_CONFIG_WRONG_HANDLE);
    CHECK(gix_config_value_filter(file, &key, &filter, &bytes) == GIX_CONFIG_WRONG_HANDLE);
    CHECK(gix_config_values_filter(file, &key, &filter, &list) == GIX_CONFIG_WRONG_HANDLE);
    CHECK(gix_config_boolean_filter(file, &key, &filter, &boolean) == GIX_CONFIG_WRONG_HANDLE && boolean);
    CHECK(gix_config_integer_filter(file, &key, &filter, &integer) == GIX_CONFIG_WRONG_HANDLE && integer == 5);
    CHECK(gix_config_file_text_filter(file, &filter, &bytes) == GIX_CONFIG_WRONG_HANDLE);
    CHECK(gix_config_path(file, &key, &folders, &bytes) == GIX_CONFIG_WRONG_HANDLE);
    gix_config_assigned assigned = { text_of("k"), text_of("v") };
    gix_config_text values[] = { text_of("v") };
    gix_config_origin origin = { 5, 6, 7, true };
    size_t count = 7;
    CHECK(gix_config_push_below_last_at(file, 0, &assigned) == GIX_CONFIG_WRONG_HANDLE);
    CHECK(gix_config_push_newline_at(file, 0) == GIX_CONFIG_WRONG_HANDLE);
    CHECK(gix_config_remove_marked_at(file, 0, (const uint8_t *)"k", 1, &boolean, 1, &count) == GIX_CONFIG_WRONG_HANDLE && count == 7);
    CHECK(gix_config_set_existing_value(file, &key, (const uint8_t *)"v", 1) == GIX_CONFIG_WRONG_HANDLE);
    CHECK(gix_config_set_existing_values(file, &key, values, 1) == GIX_CONFIG_WRONG_HANDLE);
    CHECK(gix_config_set_nth_value(file, &key, 0, (const uint8_t *)"v", 1) == GIX_CONFIG_WRONG_HANDLE);
    CHECK(gix_config_delete_nth_value(file, &key, 0) == GIX_CONFIG_WRONG_HANDLE);
    CHECK(gix_config_section_text(file, 0, &bytes) == GIX_CONFIG_WRONG_HANDLE);
    CHECK(gix_config_file_origin(file, &origin, &bytes) == GIX_CONFIG_WRONG_HANDLE && origin.source == 5 && origin.has_path);
    CHECK(gix_config_file_equal(file, &other_file, &boolean) == GIX_CONFIG_WRONG_HANDLE && boolean);
    CHECK(gix_config_differences(file, &other_file, &list) == GIX_CONFIG_WRONG_HANDLE);
    CHECK(file->at == at && bytes.at == NULL && bytes.len == 0 && bytes.owner == NULL && list.at == NULL && other_file.at == NULL);
}

/* The same for a handle that has no list. */
static void without_list(gix_config_list *list)
{
    void *at = list->at;
    gix_config_text text = { NULL, 7 };
    gix_config_entry entry = { { NULL, 0 }, false, { NULL, 0 }, { NULL, 7 }, false, { NULL, 0 } };
    gix_config_listed_section section = { { NULL, 7 }, false, { NULL, 0 }, false, { NULL, 0 }, 5, 6, 7, 8 };
    gix_config_difference difference = { true, { { NULL, 7 }, false, { NULL, 0 }, { NULL, 0 }, false, { NULL, 0 } } };
    CHECK(gix_config_list_len(list) == 0);
    CHECK(gix_config_list_section(list, 0, &section) == GIX_CONFIG_WRONG_HANDLE && section.name.len == 7 && section.entries == 8);
    CHECK(gix_config_list_difference(list, 0, &difference) == GIX_CONFIG_WRONG_HANDLE && difference.is_other && difference.entry.section.len == 7);
    CHECK(gix_config_list_entry(list, 0, &entry) == GIX_CONFIG_WRONG_HANDLE && entry.name.at == NULL && entry.name.len == 7);
    CHECK(gix_config_list_at(list, 0, &text) == GIX_CONFIG_WRONG_HANDLE && text.at == NULL && text.len == 7);
    CHECK(list->at == at);
}

/* A handle as another kind: the same pointer, moved and not copied. */
static void other_kinds(void)
{
    gix_config_file file = { NULL };
    gix_config_list list = { NULL };
    gix_config_place place = { 0, 0, 0 };
    gix_config_key key = key_of("a", NULL, "k");
    CHECK(parse("[a]\n\tk = 1\n", false, &file, &place) == GIX_CONFIG_DONE);
    CHECK(gix_config_values(&file, &key, &list) == GIX_CONFIG_DONE);
    gix_config_file as_file = { list.at };
    list.at = file.at;
    file.at = NULL;
    without_file(&as_file);
    without_list(&list);
    gix_config_list_close(&list);
    gix_config_file_close(&as_file);
    gix_config_file_close(&as_file);
}

static void names_that_are_no_text(void)
{
    gix_config_file file = { NULL };
    gix_config_place place = { 0, 0, 0 };
    gix_config_bytes bytes = { NULL, 0, NULL };
    gix_config_key section = key_of("a\xff", NULL, "k"), name = key_of("a", NULL, "k\xff"), subsection = key_of("a", "\xff", "k");
    gix_config_section wrong = section_of("\xff", NULL), right = section_of("a", NULL);
    bool had = true;
    CHECK(parse("[a]\n\tk = 1\n[a \"\xff\"]\n\tk = 2\n", false, &file, &place) == GIX_CONFIG_DONE);
    CHECK(gix_config_value(&file, &section, &bytes) == GIX_CONFIG_NOT_UTF8);
    CHECK(gix_config_value(&file, &name, &bytes) == GIX_CONFIG_NOT_UTF8 && bytes.at == NULL);
    CHECK(gix_config_value(&file, &subsection, &bytes) == GIX_CONFIG_DONE && is_text(bytes.at, bytes.len, "2"));
    CHECK(set(&file, &name, "v", &had, &bytes) == GIX_CONFIG_NOT_UTF8 && had);
    CHECK(push(&file, &name, "v") == GIX_CONFIG_NOT_UTF8);
    CHECK(gix_config_remove_value(&file, &section, &bytes) == GIX_CONFIG_NOT_UTF8 && bytes.len == 1);
    CHECK(gix_config_section_new(&file, &wrong) == GIX_CONFIG_NOT_UTF8);
    CHECK(gix_config_section_remove(&file, &wrong) == GIX_CONFIG_NOT_UTF8);
    CHECK(gix_config_section_rename(&file, &right, &wrong) == GIX_CONFIG_NOT_UTF8);
    CHECK(gix_config_section_rename(&file, &wrong, &right) == GIX_CONFIG_NOT_UTF8);
    gix_config_file other_file = { NULL };
    gix_config_list list = { NULL };
    CHECK(gix_config_file_append(&file, &other_file) == GIX_CONFIG_WRONG_HANDLE);
    bool equal = true;
    CHECK(gix_config_file_equal(&file, &other_file, &equal) == GIX_CONFIG_WRONG_HANDLE && equal);
    CHECK(gix_config_differences(&file, &other_file, &list) == GIX_CONFIG_WRONG_HANDLE && list.at == NULL);
    gix_config_filter filter = { GIX_CONFIG_SOURCES_ALL, GIX_CONFIG_TRUST_REDUCED };
    gix_config_folders folders = { false, text_of("\xff"), false, text_of("") }, wrong_home = { false, text_of(""), true, text_of("\xff") };
    CHECK(gix_config_value_filter(&file, &section, &filter, &bytes) == GIX_CONFIG_NOT_UTF8);
    CHECK(gix_config_path(&file, &name, &folders, &bytes) == GIX_CONFIG_NOT_UTF8);
    CHECK(gix_config_path(&file, &subsection, &wrong_home, &bytes) == GIX_CONFIG_NOT_UTF8);
    CHECK(gix_config_path(&file, &subsection, &folders, &bytes) == GIX_CONFIG_DONE && is_text(bytes.at, bytes.len, "2"));
    CHECK(text_value("[a]", &section, &bytes, &place) == GIX_CONFIG_NOT_UTF8 && bytes.len == 1);
    CHECK(text_values("[a]", &name, &list, &place) == GIX_CONFIG_NOT_UTF8 && list.at == NULL);
    gix_config_metadata wrong_path = { true, text_of("\xff"), 3, GIX_CONFIG_TRUST_FULL }, no_source = { false, text_of(""), 3, GIX_CONFIG_TRUST_FULL };
    gix_config_metadata no_trust = { true, text_of("/a"), GIX_CONFIG_SOURCE_API, 2 };
    CHECK(parse_as("[b]", &wrong_path, false, &file, &place) == GIX_CONFIG_NOT_UTF8);
    CHECK(parse_as("[b]", &no_source, false, &file, &place) == GIX_CONFIG_NO_SUCH_NUMBER);
    CHECK(parse_as("[b]", &no_trust, false, &file, &place) == GIX_CONFIG_NO_SUCH_NUMBER);
    CHECK(gix_config_file_text(&file, &bytes) == GIX_CONFIG_DONE && is_text(bytes.at, bytes.len, "[a]\n\tk = 1\n[a \"\xff\"]\n\tk = 2\n"));
    gix_config_bytes_free(&bytes);
    gix_config_bytes_free(&bytes);
    gix_config_file_close(&file);
}

static void empty_texts(void)
{
    gix_config_file file = { NULL };
    gix_config_place place = { 0, 0, 0 };
    gix_config_bytes bytes = { NULL, 0, NULL };
    gix_config_key key = key_of("", "", "");
    CHECK(parse("", false, &file, &place) == GIX_CONFIG_DONE);
    CHECK(gix_config_file_text(&file, &bytes) == GIX_CONFIG_DONE && bytes.len == 0);
    CHECK(gix_config_value(&file, &key, &bytes) == GIX_CONFIG_SECTION_MISSING);
    gix_config_list list = { NULL };
    CHECK(gix_config_sections(&file, &list) == GIX_CONFIG_DONE && list.at != NULL && gix_config_list_len(&list) == 0);
    CHECK(gix_config_section_entries(&file, 0, &list) == GIX_CONFIG_NOTHING_THERE);
    gix_config_list_close(&list);
    gix_config_bytes_free(&bytes);
    gix_config_file_close(&file);
}

static void words_of_numbers(void)
{
    gix_config_text text = { NULL, 0 };
    gix_config_refusal_text(27, &text);
    CHECK(is_text(text.at, text.len, "out of memory"));
    gix_config_refusal_text(4000000000u, &text);
    CHECK(text.len == 0);
}

int main(void)
{
    gix_config_file file = { NULL };
    gix_config_list list = { NULL };
    without_file(&file);
    without_list(&list);
    gix_config_file_close(&file);
    gix_config_list_close(&list);
    other_kinds();
    names_that_are_no_text();
    empty_texts();
    words_of_numbers();
    return 0;
}
