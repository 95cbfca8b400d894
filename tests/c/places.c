/* Sections by their places in the list of a file, edited: also two of one name. */
#include "checking.h"

static const char *const TEXT = "[a]\n\tk = 1\n[b]\n  x = 1 ; one\n  x = 2\n[a]\n\tk = 3\n";

static gix_config_line line_of(const char *name, const char *value, const char *comment)
{
    gix_config_line line = { text_of(name), value != NULL, text_of(value != NULL ? value : ""), comment != NULL, text_of(comment != NULL ? comment : "") };
    return line;
}

static bool has_text(const gix_config_file *file, const char *words)
{
    gix_config_bytes text = { NULL, 0, NULL };
    bool has = gix_config_file_text(file, &text) == GIX_CONFIG_DONE && is_text(text.at, text.len, words);
    gix_config_bytes_free(&text);
    return has;
}

static uint32_t remove_at(gix_config_file *file, size_t place, const char *name, gix_config_bytes *old)
{
    return gix_config_remove_value_at(file, place, (const uint8_t *)name, strlen(name), old);
}

static void lines(gix_config_file *file)
{
    gix_config_bytes old = { NULL, 0, NULL };
    bool had = false;
    gix_config_line plain = line_of("n", "new", NULL), said = line_of("c", "v", "why"), bare = line_of("bare", NULL, NULL), wrong = line_of("a b", "v", NULL), latin = line_of("\xff", "v", NULL);
    CHECK(gix_config_push_line_at(file, 0, &plain) == GIX_CONFIG_DONE && gix_config_push_line_at(file, 1, &said) == GIX_CONFIG_DONE);
    CHECK(gix_config_push_line_at(file, 1, &bare) == GIX_CONFIG_DONE);
    CHECK(has_text(file, "[a]\n\tk = 1\n\tn = new\n[b]\n  x = 1 ; one\n  x = 2\n  c = v # why\n  bare\n[a]\n\tk = 3\n"));
    CHECK(gix_config_push_line_at(file, 0, &wrong) == GIX_CONFIG_INVALID_VALUE_NAME && gix_config_push_line_at(file, 0, &latin) == GIX_CONFIG_NOT_UTF8);
    CHECK(gix_config_push_line_at(file, 3, &plain) == GIX_CONFIG_NOTHING_THERE);

    gix_config_assigned first = { text_of("K"), text_of("9") }, other = { text_of("new"), text_of(" s") }, refused = { text_of("a b"), text_of("") }, no_text = { text_of("\xff"), text_of("") };
    CHECK(gix_config_set_value_at(file, 0, &first, &had, &old) == GIX_CONFIG_DONE && had && is_text(old.at, old.len, "1"));
    CHECK(gix_config_set_value_at(file, 2, &other, &had, &old) == GIX_CONFIG_DONE && !had && is_text(old.at, old.len, "1"));
    CHECK(has_text(file, "[a]\n\tk = 9\n\tn = new\n[b]\n  x = 1 ; one\n  x = 2\n  c = v # why\n  bare\n[a]\n\tk = 3\n\tnew = \" s\"\n"));
    CHECK(gix_config_set_value_at(file, 0, &refused, &had, &old) == GIX_CONFIG_INVALID_VALUE_NAME && gix_config_set_value_at(file, 0, &no_text, &had, &old) == GIX_CONFIG_NOT_UTF8);
    CHECK(gix_config_set_value_at(file, 3, &first, &had, &old) == GIX_CONFIG_NOTHING_THERE && !had);

    CHECK(remove_at(file, 1, "X", &old) == GIX_CONFIG_DONE && is_text(old.at, old.len, "2"));
    CHECK(remove_at(file, 1, "none", &old) == GIX_CONFIG_NOTHING_THERE && remove_at(file, 3, "x", &old) == GIX_CONFIG_NOTHING_THERE);
    CHECK(remove_at(file, 1, "\xff", &old) == GIX_CONFIG_NOT_UTF8 && is_text(old.at, old.len, "2"));

    gix_config_bytes name = { NULL, 0, NULL };
    CHECK(gix_config_pop_value_at(file, 1, &name, &old) == GIX_CONFIG_DONE && is_text(name.at, name.len, "bare") && old.len == 0);
    CHECK(gix_config_pop_value_at(file, 1, &name, &old) == GIX_CONFIG_DONE && is_text(name.at, name.len, "c") && is_text(old.at, old.len, "v"));
    CHECK(gix_config_pop_value_at(file, 3, &name, &old) == GIX_CONFIG_NOTHING_THERE && is_text(name.at, name.len, "c"));
    CHECK(gix_config_pop_value_at(file, 1, &name, &old) == GIX_CONFIG_DONE && is_text(name.at, name.len, "x") && is_text(old.at, old.len, "1"));
    CHECK(gix_config_pop_value_at(file, 1, &name, &old) == GIX_CONFIG_NOTHING_THERE && is_text(name.at, name.len, "x"));
    gix_config_bytes_free(&name);
    gix_config_bytes_free(&old);
}

static void whole(gix_config_file *file)
{
    gix_config_list list = { NULL };
    gix_config_listed_section section;
    gix_config_section other = section_of("c", "s"), bad = section_of("a b", NULL), line = section_of("c", "s\n"), latin = section_of("\xff", NULL);
    CHECK(gix_config_section_rename_at(file, 2, &other) == GIX_CONFIG_DONE && has_text(file, "[a]\n\tk = 1\n[b]\n  x = 1 ; one\n  x = 2\n[c \"s\"]\n\tk = 3\n"));
    CHECK(gix_config_section_rename_at(file, 0, &bad) == GIX_CONFIG_INVALID_SECTION_NAME && gix_config_section_rename_at(file, 0, &line) == GIX_CONFIG_INVALID_SUBSECTION);
    CHECK(gix_config_section_rename_at(file, 0, &latin) == GIX_CONFIG_NOT_UTF8 && gix_config_section_rename_at(file, 3, &other) == GIX_CONFIG_NOTHING_THERE);
    CHECK(gix_config_section_set_trust_at(file, 1, GIX_CONFIG_TRUST_REDUCED) == GIX_CONFIG_DONE);
    CHECK(gix_config_section_set_trust_at(file, 1, 2) == GIX_CONFIG_NO_SUCH_NUMBER && gix_config_section_set_trust_at(file, 3, 1) == GIX_CONFIG_NOTHING_THERE);
    CHECK(gix_config_sections(file, &list) == GIX_CONFIG_DONE);
    CHECK(gix_config_list_section(&list, 1, &section) == GIX_CONFIG_DONE && section.trust == GIX_CONFIG_TRUST_REDUCED);
    CHECK(gix_config_list_section(&list, 0, &section) == GIX_CONFIG_DONE && section.trust == GIX_CONFIG_TRUST_FULL);
    CHECK(gix_config_section_remove_at(file, 0) == GIX_CONFIG_DONE && has_text(file, "[b]\n  x = 1 ; one\n  x = 2\n[c \"s\"]\n\tk = 3\n"));
    CHECK(gix_config_section_remove_at(file, 2) == GIX_CONFIG_NOTHING_THERE);
    gix_config_list_close(&list);
}

static void misused(gix_config_file *file)
{
    gix_config_bytes old = { NULL, 0, NULL }, name = { NULL, 0, NULL };
    bool had = true;
    gix_config_line line = line_of("n", NULL, NULL);
    gix_config_assigned assigned = { text_of("n"), text_of("v") };
    gix_config_section section = section_of("a", NULL);
    CHECK(gix_config_push_line_at(file, 0, &line) == GIX_CONFIG_WRONG_HANDLE && gix_config_set_value_at(file, 0, &assigned, &had, &old) == GIX_CONFIG_WRONG_HANDLE);
    CHECK(remove_at(file, 0, "n", &old) == GIX_CONFIG_WRONG_HANDLE && gix_config_pop_value_at(file, 0, &name, &old) == GIX_CONFIG_WRONG_HANDLE);
    CHECK(gix_config_section_rename_at(file, 0, &section) == GIX_CONFIG_WRONG_HANDLE && gix_config_section_remove_at(file, 0) == GIX_CONFIG_WRONG_HANDLE);
    CHECK(gix_config_section_set_trust_at(file, 0, 1) == GIX_CONFIG_WRONG_HANDLE && had && old.at == NULL && name.at == NULL);
}

int main(void)
{
    gix_config_file file = { NULL };
    gix_config_place place = { 0, 0, 0 };
    misused(&file);
    CHECK(parse(TEXT, false, &file, &place) == GIX_CONFIG_DONE);
    lines(&file);
    CHECK(parse(TEXT, false, &file, &place) == GIX_CONFIG_DONE);
    whole(&file);
    gix_config_file_close(&file);
    misused(&file);
    return 0;
}
