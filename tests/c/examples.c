/* An example of each call that is used most. The reference of calls has them (tools/reference): of each function below the body. */
#include "gix_config.h"
#include <assert.h>
#include <string.h>

#ifdef NDEBUG
#error "the examples are checked by assert"
#endif

/* The file of a text. */
static void open_text(gix_config_file *file, const char *text)
{
    gix_config_place place = { 0, 0, 0 };
    uint32_t answer = gix_config_file_parse((const uint8_t *)text, strlen(text), false, file, &place);
    assert(answer == GIX_CONFIG_DONE);
    (void)answer;
}

/* A text as it is given to calls. */
static gix_config_text text_of(const char *words)
{
    gix_config_text text = { (const uint8_t *)words, strlen(words) };
    return text;
}

/* The key that is written so. */
static gix_config_key key_of(const char *words)
{
    gix_config_key key = { { NULL, 0 }, false, { NULL, 0 }, { NULL, 0 } };
    uint32_t answer = gix_config_key_parse((const uint8_t *)words, strlen(words), &key);
    assert(answer == GIX_CONFIG_DONE);
    (void)answer;
    return key;
}

/* Whether bytes are these words. */
static bool is(const char *words, const uint8_t *at, size_t len)
{
    return len == strlen(words) && (len == 0 || memcmp(at, words, len) == 0);
}

/* Whether the text of a file is this one. */
static bool has_text(const gix_config_file *file, const char *words)
{
    gix_config_bytes text = { NULL, 0, NULL };
    bool is_so = gix_config_file_text(file, &text) == GIX_CONFIG_DONE && is(words, text.at, text.len);
    gix_config_bytes_free(&text);
    return is_so;
}

static void gix_config_file_parse_example(void)
{
    const char *text = "[core]\n\teditor = \"vi\n";
    gix_config_file file = { NULL };
    gix_config_place place = { 0, 0, 0 };
    assert(gix_config_file_parse((const uint8_t *)text, strlen(text), false, &file, &place) != GIX_CONFIG_DONE);
    assert(place.line == 2);
    gix_config_file_close(&file);
}

static void gix_config_key_parse_example(void)
{
    gix_config_key key = { { NULL, 0 }, false, { NULL, 0 }, { NULL, 0 } };
    assert(gix_config_key_parse((const uint8_t *)"remote.origin.url", 17, &key) == GIX_CONFIG_DONE);
    assert(is("remote", key.section.at, key.section.len));
    assert(key.has_subsection && is("origin", key.subsection.at, key.subsection.len));
    assert(is("url", key.name.at, key.name.len));
}

static void gix_config_boolean_parse_example(void)
{
    bool value = false;
    assert(gix_config_boolean_parse((const uint8_t *)"on", 2, &value) == GIX_CONFIG_DONE && value);
}

static void gix_config_integer_parse_example(void)
{
    int64_t value = 0;
    assert(gix_config_integer_parse((const uint8_t *)"2k", 2, &value) == GIX_CONFIG_DONE && value == 2048);
}

static void gix_config_value_example(void)
{
    gix_config_file file = { NULL };
    gix_config_bytes value = { NULL, 0, NULL };
    gix_config_key editor = key_of("core.editor"), pager = key_of("core.pager");
    open_text(&file, "[core]\n\teditor = \"vi -n\" # mine\n");
    assert(gix_config_value(&file, &editor, &value) == GIX_CONFIG_DONE);
    assert(is("vi -n", value.at, value.len));
    assert(gix_config_value(&file, &pager, &value) != GIX_CONFIG_DONE);
    gix_config_bytes_free(&value);
    gix_config_file_close(&file);
}

static void gix_config_values_example(void)
{
    gix_config_file file = { NULL };
    gix_config_list values = { NULL };
    gix_config_text second = { NULL, 0 };
    gix_config_key key = key_of("remote.o.fetch");
    open_text(&file, "[remote \"o\"]\n\tfetch = a\n\tfetch = b\n");
    assert(gix_config_values(&file, &key, &values) == GIX_CONFIG_DONE && gix_config_list_len(&values) == 2);
    assert(gix_config_list_at(&values, 1, &second) == GIX_CONFIG_DONE && is("b", second.at, second.len));
    gix_config_list_close(&values);
    gix_config_file_close(&file);
}

static void gix_config_value_filter_example(void)
{
    gix_config_file file = { NULL };
    gix_config_bytes value = { NULL, 0, NULL };
    gix_config_key key = key_of("a.k");
    gix_config_filter of_users = { GIX_CONFIG_SOURCE_USER, GIX_CONFIG_TRUST_FULL };
    gix_config_filter all = { GIX_CONFIG_SOURCES_ALL, GIX_CONFIG_TRUST_FULL };
    open_text(&file, "[a]\n\tk = 1\n");
    assert(gix_config_value_filter(&file, &key, &of_users, &value) != GIX_CONFIG_DONE);
    assert(gix_config_value_filter(&file, &key, &all, &value) == GIX_CONFIG_DONE && is("1", value.at, value.len));
    gix_config_bytes_free(&value);
    gix_config_file_close(&file);
}

static void gix_config_boolean_example(void)
{
    gix_config_file file = { NULL };
    gix_config_key key = key_of("core.bare");
    bool value = false;
    open_text(&file, "[core]\n\tbare = yes\n");
    assert(gix_config_boolean(&file, &key, &value) == GIX_CONFIG_DONE && value);
    gix_config_file_close(&file);
}

static void gix_config_integer_example(void)
{
    gix_config_file file = { NULL };
    gix_config_key key = key_of("core.bigFileThreshold");
    int64_t value = 0;
    open_text(&file, "[core]\n\tbigFileThreshold = 2k\n");
    assert(gix_config_integer(&file, &key, &value) == GIX_CONFIG_DONE && value == 2048);
    gix_config_file_close(&file);
}

static void gix_config_path_example(void)
{
    gix_config_file file = { NULL };
    gix_config_bytes path = { NULL, 0, NULL };
    gix_config_key key = key_of("core.excludesFile");
    gix_config_folders folders = { false, text_of(""), true, text_of("/home/ada") };
    open_text(&file, "[core]\n\texcludesFile = ~/.ignore\n");
    assert(gix_config_path(&file, &key, &folders, &path) == GIX_CONFIG_DONE);
    assert(is("/home/ada/.ignore", path.at, path.len));
    gix_config_bytes_free(&path);
    gix_config_file_close(&file);
}

static void gix_config_text_value_example(void)
{
    const char *text = "[core]\n\teditor = vi\n";
    gix_config_bytes value = { NULL, 0, NULL };
    gix_config_place place = { 0, 0, 0 };
    gix_config_key key = key_of("core.editor");
    assert(gix_config_text_value((const uint8_t *)text, strlen(text), &key, &value, &place) == GIX_CONFIG_DONE);
    assert(is("vi", value.at, value.len));
    gix_config_bytes_free(&value);
}

static void gix_config_file_text_example(void)
{
    gix_config_file file = { NULL };
    gix_config_bytes text = { NULL, 0, NULL };
    open_text(&file, "# mine\n[a]\n\tk = 1\n");
    assert(gix_config_file_text(&file, &text) == GIX_CONFIG_DONE);
    assert(is("# mine\n[a]\n\tk = 1\n", text.at, text.len));
    gix_config_bytes_free(&text);
    gix_config_file_close(&file);
}

static void gix_config_entries_example(void)
{
    gix_config_file file = { NULL };
    gix_config_list entries = { NULL };
    open_text(&file, "[a]\n\tk = 1\n\tk = 2\n[b]\n\tj\n");
    assert(gix_config_entries(&file, &entries) == GIX_CONFIG_DONE && gix_config_list_len(&entries) == 3);
    gix_config_list_close(&entries);
    gix_config_file_close(&file);
}

static void gix_config_list_entry_example(void)
{
    gix_config_file file = { NULL };
    gix_config_list entries = { NULL };
    gix_config_entry entry;
    open_text(&file, "[A \"s\"]\n\tK = 1\n");
    assert(gix_config_entries(&file, &entries) == GIX_CONFIG_DONE);
    assert(gix_config_list_entry(&entries, 0, &entry) == GIX_CONFIG_DONE);
    assert(is("a", entry.section.at, entry.section.len) && is("k", entry.name.at, entry.name.len));
    assert(entry.has_value && is("1", entry.value.at, entry.value.len));
    gix_config_list_close(&entries);
    gix_config_file_close(&file);
}

static void gix_config_sections_example(void)
{
    gix_config_file file = { NULL };
    gix_config_list sections = { NULL };
    gix_config_listed_section second;
    open_text(&file, "[a]\n\tk = 1\n[a \"s\"]\n\tk = 2\n\tj = 3\n");
    assert(gix_config_sections(&file, &sections) == GIX_CONFIG_DONE && gix_config_list_len(&sections) == 2);
    assert(gix_config_list_section(&sections, 1, &second) == GIX_CONFIG_DONE);
    assert(second.has_subsection && second.entries == 2);
    gix_config_list_close(&sections);
    gix_config_file_close(&file);
}

static void gix_config_differences_example(void)
{
    gix_config_file one = { NULL }, other = { NULL };
    gix_config_list differences = { NULL };
    gix_config_difference second;
    open_text(&one, "[a]\n\tk = 1\n");
    open_text(&other, "[A]\n\tK = 2 # two\n");
    assert(gix_config_differences(&one, &other, &differences) == GIX_CONFIG_DONE);
    assert(gix_config_list_len(&differences) == 2);
    assert(gix_config_list_difference(&differences, 1, &second) == GIX_CONFIG_DONE);
    assert(second.is_other && is("2", second.entry.value.at, second.entry.value.len));
    gix_config_list_close(&differences);
    gix_config_file_close(&one);
    gix_config_file_close(&other);
}

static void gix_config_file_equal_example(void)
{
    gix_config_file one = { NULL }, other = { NULL };
    bool equal = false;
    open_text(&one, "[a]\n\tk = 1\n");
    open_text(&other, "[A]\nK = 1 # one\n");
    assert(gix_config_file_equal(&one, &other, &equal) == GIX_CONFIG_DONE && equal);
    gix_config_file_close(&one);
    gix_config_file_close(&other);
}

static void gix_config_file_append_example(void)
{
    gix_config_file one = { NULL }, other = { NULL };
    open_text(&one, "[a]\n\tk = 1\n");
    open_text(&other, "[a]\n\tk = 2\n");
    assert(gix_config_file_append(&one, &other) == GIX_CONFIG_DONE);
    assert(has_text(&one, "[a]\n\tk = 1\n[a]\n\tk = 2\n"));
    gix_config_file_close(&one);
    gix_config_file_close(&other);
}

static void gix_config_file_clone_example(void)
{
    gix_config_file file = { NULL }, copy = { NULL };
    open_text(&file, "[a]\n\tk = 1\n");
    assert(gix_config_file_clone(&file, &copy) == GIX_CONFIG_DONE);
    gix_config_file_close(&file);
    assert(has_text(&copy, "[a]\n\tk = 1\n"));
    gix_config_file_close(&copy);
}

static void gix_config_set_value_example(void)
{
    gix_config_file file = { NULL };
    gix_config_bytes old = { NULL, 0, NULL };
    gix_config_key key = key_of("a.k");
    bool had = false;
    open_text(&file, "[a]\n\tk = 1\n");
    assert(gix_config_set_value(&file, &key, (const uint8_t *)"2", 1, &had, &old) == GIX_CONFIG_DONE);
    assert(had && is("1", old.at, old.len) && has_text(&file, "[a]\n\tk = 2\n"));
    gix_config_bytes_free(&old);
    gix_config_file_close(&file);
}

static void gix_config_set_existing_value_example(void)
{
    gix_config_file file = { NULL };
    gix_config_key key = key_of("a.k"), other = key_of("a.j");
    open_text(&file, "[a]\n\tk = 1\n");
    assert(gix_config_set_existing_value(&file, &key, (const uint8_t *)"2", 1) == GIX_CONFIG_DONE);
    assert(gix_config_set_existing_value(&file, &other, (const uint8_t *)"2", 1) != GIX_CONFIG_DONE);
    assert(has_text(&file, "[a]\n\tk = 2\n"));
    gix_config_file_close(&file);
}

static void gix_config_set_existing_values_example(void)
{
    gix_config_file file = { NULL };
    gix_config_key key = key_of("a.k");
    gix_config_text values[2];
    values[0] = text_of("3");
    values[1] = text_of("4");
    open_text(&file, "[a]\n\tk = 1\n\tk = 2\n");
    assert(gix_config_set_existing_values(&file, &key, values, 2) == GIX_CONFIG_DONE);
    assert(has_text(&file, "[a]\n\tk = 3\n\tk = 4\n"));
    gix_config_file_close(&file);
}

static void gix_config_push_value_example(void)
{
    gix_config_file file = { NULL };
    gix_config_key key = key_of("a.k");
    open_text(&file, "[a]\n\tk = 1\n");
    assert(gix_config_push_value(&file, &key, true, (const uint8_t *)"2", 1) == GIX_CONFIG_DONE);
    assert(has_text(&file, "[a]\n\tk = 1\n\tk = 2\n"));
    gix_config_file_close(&file);
}

static void gix_config_remove_value_example(void)
{
    gix_config_file file = { NULL };
    gix_config_bytes old = { NULL, 0, NULL };
    gix_config_key key = key_of("a.k");
    open_text(&file, "[a]\n\tk = 1\n\tk = 2\n");
    assert(gix_config_remove_value(&file, &key, &old) == GIX_CONFIG_DONE && is("2", old.at, old.len));
    assert(has_text(&file, "[a]\n\tk = 1\n"));
    gix_config_bytes_free(&old);
    gix_config_file_close(&file);
}

static void gix_config_section_new_example(void)
{
    gix_config_file file = { NULL };
    gix_config_section section = { text_of("remote"), true, text_of("origin") };
    open_text(&file, "[a]\n\tk = 1\n");
    assert(gix_config_section_new(&file, &section) == GIX_CONFIG_DONE);
    assert(has_text(&file, "[a]\n\tk = 1\n[remote \"origin\"]\n"));
    gix_config_file_close(&file);
}

static void gix_config_section_rename_example(void)
{
    gix_config_file file = { NULL };
    gix_config_section section = { text_of("branch"), true, text_of("old") }, renamed = { text_of("branch"), true, text_of("new") };
    open_text(&file, "[branch \"old\"]\n\tremote = o\n");
    assert(gix_config_section_rename(&file, &section, &renamed) == GIX_CONFIG_DONE);
    assert(has_text(&file, "[branch \"new\"]\n\tremote = o\n"));
    gix_config_file_close(&file);
}

static void gix_config_section_remove_at_example(void)
{
    gix_config_file file = { NULL };
    open_text(&file, "[a]\n\tk = 1\n[b]\n");
    assert(gix_config_section_remove_at(&file, 0) == GIX_CONFIG_DONE && has_text(&file, "[b]\n"));
    gix_config_file_close(&file);
}

static void gix_config_push_line_at_example(void)
{
    gix_config_file file = { NULL };
    gix_config_line line = { text_of("j"), true, text_of("2"), true, text_of("why") };
    open_text(&file, "[a]\n\tk = 1\n");
    assert(gix_config_push_line_at(&file, 0, &line) == GIX_CONFIG_DONE);
    assert(has_text(&file, "[a]\n\tk = 1\n\tj = 2 # why\n"));
    gix_config_file_close(&file);
}

static void gix_config_push_below_last_at_example(void)
{
    gix_config_file file = { NULL };
    gix_config_assigned assigned = { text_of("j"), text_of("2") };
    open_text(&file, "[a]\n\tk = 1\n\n# of b\n[b]\n");
    assert(gix_config_push_below_last_at(&file, 0, &assigned) == GIX_CONFIG_DONE);
    assert(has_text(&file, "[a]\n\tk = 1\n\tj = 2\n\n# of b\n[b]\n"));
    gix_config_file_close(&file);
}

static void gix_config_normalize_example(void)
{
    const char *text = "[a]\nk=1";
    gix_config_bytes laid_out = { NULL, 0, NULL };
    gix_config_place place = { 0, 0, 0 };
    gix_config_layout layout;
    gix_config_layout_default(&layout);
    assert(gix_config_normalize((const uint8_t *)text, strlen(text), &layout, &laid_out, &place) == GIX_CONFIG_DONE);
    assert(is("[a]\n\tk = 1\n", laid_out.at, laid_out.len));
    gix_config_bytes_free(&laid_out);
}

static void gix_config_wildmatch_example(void)
{
    bool is_match = false;
    assert(gix_config_wildmatch((const uint8_t *)"/a/**/x", 7, (const uint8_t *)"/a/b/c/x", 8, false, &is_match) == GIX_CONFIG_DONE);
    assert(is_match);
}

static void gix_config_refusal_text_example(void)
{
    gix_config_text words = { NULL, 0 };
    gix_config_refusal_text(GIX_CONFIG_OUT_OF_MEMORY, &words);
    assert(is("out of memory", words.at, words.len));
}

int main(void)
{
    gix_config_file_parse_example();
    gix_config_key_parse_example();
    gix_config_boolean_parse_example();
    gix_config_integer_parse_example();
    gix_config_value_example();
    gix_config_values_example();
    gix_config_value_filter_example();
    gix_config_boolean_example();
    gix_config_integer_example();
    gix_config_path_example();
    gix_config_text_value_example();
    gix_config_file_text_example();
    gix_config_entries_example();
    gix_config_list_entry_example();
    gix_config_sections_example();
    gix_config_differences_example();
    gix_config_file_equal_example();
    gix_config_file_append_example();
    gix_config_file_clone_example();
    gix_config_set_value_example();
    gix_config_set_existing_value_example();
    gix_config_set_existing_values_example();
    gix_config_push_value_example();
    gix_config_remove_value_example();
    gix_config_section_new_example();
    gix_config_section_rename_example();
    gix_config_section_remove_at_example();
    gix_config_push_line_at_example();
    gix_config_push_below_last_at_example();
    gix_config_normalize_example();
    gix_config_wildmatch_example();
    gix_config_refusal_text_example();
    return 0;
}
