/* Each call, as it is meant to be called. */
#include "checking.h"

static const char *const TEXT = "# mine\n[core]\n\teditor = vi ; was ed\n\tbare\n\tn = 2k\n[remote \"or.igin\"]\n\turl = \"a b\" c\n\turl = d\n";

static void look_ups(const gix_config_file *file)
{
    gix_config_bytes value = { NULL, 0, NULL };
    gix_config_key editor = key_of("core", NULL, "editor"), url = key_of("REMOTE", "or.igin", "URL");
    CHECK(gix_config_value(file, &editor, &value) == GIX_CONFIG_DONE && is_text(value.at, value.len, "vi"));
    CHECK(gix_config_value(file, &url, &value) == GIX_CONFIG_DONE && is_text(value.at, value.len, "d"));
    gix_config_key no_section = key_of("nope", NULL, "x"), no_subsection = key_of("remote", "x", "url"), no_name = key_of("core", NULL, "x");
    CHECK(gix_config_value(file, &no_section, &value) == GIX_CONFIG_SECTION_MISSING);
    CHECK(gix_config_value(file, &no_subsection, &value) == GIX_CONFIG_SUBSECTION_MISSING);
    CHECK(gix_config_value(file, &no_name, &value) == GIX_CONFIG_KEY_MISSING && is_text(value.at, value.len, "d"));

    gix_config_list list = { NULL };
    gix_config_text text = { NULL, 0 };
    CHECK(gix_config_values(file, &url, &list) == GIX_CONFIG_DONE && gix_config_list_len(&list) == 2);
    CHECK(gix_config_list_at(&list, 0, &text) == GIX_CONFIG_DONE && is_text(text.at, text.len, "a b c"));
    CHECK(gix_config_list_at(&list, 1, &text) == GIX_CONFIG_DONE && is_text(text.at, text.len, "d"));
    CHECK(gix_config_list_at(&list, 2, &text) == GIX_CONFIG_NOTHING_THERE && is_text(text.at, text.len, "d"));
    gix_config_list_close(&list);

    bool boolean = false;
    int64_t integer = 0;
    gix_config_key bare = key_of("core", NULL, "bare"), n = key_of("core", NULL, "n");
    CHECK(gix_config_boolean(file, &bare, &boolean) == GIX_CONFIG_DONE && boolean);
    CHECK(gix_config_boolean(file, &editor, &boolean) == GIX_CONFIG_BAD_VALUE && boolean);
    CHECK(gix_config_boolean(file, &no_name, &boolean) == GIX_CONFIG_NOTHING_THERE);
    CHECK(gix_config_integer(file, &n, &integer) == GIX_CONFIG_DONE && integer == 2048);
    CHECK(gix_config_integer(file, &editor, &integer) == GIX_CONFIG_BAD_VALUE && integer == 2048);
    CHECK(gix_config_integer(file, &no_name, &integer) == GIX_CONFIG_NOTHING_THERE);
    gix_config_bytes_free(&value);
}

static void entries(const gix_config_file *file)
{
    gix_config_list list = { NULL };
    gix_config_entry entry;
    gix_config_text text = { NULL, 7 };
    CHECK(gix_config_entries(file, &list) == GIX_CONFIG_DONE && gix_config_list_len(&list) == 5);
    CHECK(gix_config_list_entry(&list, 0, &entry) == GIX_CONFIG_DONE);
    CHECK(is_text(entry.section.at, entry.section.len, "core") && is_text(entry.name.at, entry.name.len, "editor"));
    CHECK(!entry.has_subsection && entry.has_value && is_text(entry.value.at, entry.value.len, "vi"));
    CHECK(gix_config_list_entry(&list, 1, &entry) == GIX_CONFIG_DONE);
    CHECK(is_text(entry.name.at, entry.name.len, "bare") && !entry.has_value && entry.value.at == NULL && entry.value.len == 0);
    CHECK(gix_config_list_entry(&list, 3, &entry) == GIX_CONFIG_DONE);
    CHECK(entry.has_subsection && is_text(entry.subsection.at, entry.subsection.len, "or.igin"));
    CHECK(is_text(entry.section.at, entry.section.len, "remote") && is_text(entry.value.at, entry.value.len, "a b c"));
    CHECK(gix_config_list_entry(&list, 4, &entry) == GIX_CONFIG_DONE && is_text(entry.value.at, entry.value.len, "d"));
    CHECK(gix_config_list_entry(&list, 5, &entry) == GIX_CONFIG_NOTHING_THERE && is_text(entry.value.at, entry.value.len, "d"));
    CHECK(gix_config_list_at(&list, 0, &text) == GIX_CONFIG_WRONG_HANDLE && text.at == NULL && text.len == 7);
    gix_config_list_close(&list);
}

static void sections(const gix_config_file *file)
{
    gix_config_list list = { NULL }, of_section = { NULL };
    gix_config_listed_section section;
    gix_config_entry entry;
    CHECK(gix_config_sections(file, &list) == GIX_CONFIG_DONE && gix_config_list_len(&list) == 2);
    CHECK(gix_config_list_section(&list, 0, &section) == GIX_CONFIG_DONE);
    CHECK(is_text(section.name.at, section.name.len, "core") && !section.has_subsection && section.subsection.at == NULL);
    CHECK(section.source == GIX_CONFIG_SOURCE_API && section.trust == GIX_CONFIG_TRUST_FULL && section.level == 0 && !section.has_path && section.entries == 3);
    CHECK(gix_config_list_section(&list, 1, &section) == GIX_CONFIG_DONE && section.has_subsection && section.entries == 2);
    CHECK(is_text(section.name.at, section.name.len, "remote") && is_text(section.subsection.at, section.subsection.len, "or.igin"));
    CHECK(gix_config_list_section(&list, 2, &section) == GIX_CONFIG_NOTHING_THERE && is_text(section.name.at, section.name.len, "remote"));
    CHECK(gix_config_list_entry(&list, 0, &entry) == GIX_CONFIG_WRONG_HANDLE);

    CHECK(gix_config_section_entries(file, 0, &of_section) == GIX_CONFIG_DONE && gix_config_list_len(&of_section) == 3);
    CHECK(gix_config_list_entry(&of_section, 2, &entry) == GIX_CONFIG_DONE && is_text(entry.value.at, entry.value.len, "2k"));
    CHECK(gix_config_section_entries(file, 1, &of_section) == GIX_CONFIG_DONE && gix_config_list_len(&of_section) == 2);
    CHECK(gix_config_list_entry(&of_section, 0, &entry) == GIX_CONFIG_DONE && is_text(entry.value.at, entry.value.len, "a b c"));
    CHECK(is_text(entry.subsection.at, entry.subsection.len, "or.igin") && is_text(entry.name.at, entry.name.len, "url"));
    CHECK(gix_config_section_entries(file, 2, &of_section) == GIX_CONFIG_NOTHING_THERE && gix_config_list_len(&of_section) == 2);
    CHECK(gix_config_list_section(&of_section, 0, &section) == GIX_CONFIG_WRONG_HANDLE);
    gix_config_list_close(&list);
    gix_config_list_close(&of_section);
}

/* Filters that keep all, and that keep nothing for its source and for its trust. */
static void filters(const gix_config_file *file)
{
    gix_config_filter all = { GIX_CONFIG_SOURCES_ALL, GIX_CONFIG_TRUST_REDUCED }, api = { GIX_CONFIG_SOURCE_API, GIX_CONFIG_TRUST_FULL };
    gix_config_filter others = { GIX_CONFIG_SOURCES_ALL - GIX_CONFIG_SOURCE_API, GIX_CONFIG_TRUST_REDUCED }, untrusted = { GIX_CONFIG_SOURCE_API, 2 };
    gix_config_key url = key_of("remote", "or.igin", "url"), bare = key_of("core", NULL, "bare"), n = key_of("core", NULL, "n"), no_section = key_of("nope", NULL, "x");
    gix_config_bytes bytes = { NULL, 0, NULL };
    gix_config_list list = { NULL };
    bool boolean = false;
    int64_t integer = 0;
    CHECK(gix_config_value_filter(file, &url, &all, &bytes) == GIX_CONFIG_DONE && is_text(bytes.at, bytes.len, "d"));
    CHECK(gix_config_value_filter(file, &url, &api, &bytes) == GIX_CONFIG_DONE && is_text(bytes.at, bytes.len, "d"));
    CHECK(gix_config_value_filter(file, &url, &others, &bytes) == GIX_CONFIG_KEY_MISSING && gix_config_value_filter(file, &url, &untrusted, &bytes) == GIX_CONFIG_KEY_MISSING);
    CHECK(gix_config_value_filter(file, &no_section, &others, &bytes) == GIX_CONFIG_SECTION_MISSING);
    CHECK(gix_config_values_filter(file, &url, &api, &list) == GIX_CONFIG_DONE && gix_config_list_len(&list) == 2);
    CHECK(gix_config_values_filter(file, &url, &others, &list) == GIX_CONFIG_KEY_MISSING && gix_config_list_len(&list) == 2);
    CHECK(gix_config_boolean_filter(file, &bare, &api, &boolean) == GIX_CONFIG_DONE && boolean);
    CHECK(gix_config_boolean_filter(file, &bare, &untrusted, &boolean) == GIX_CONFIG_NOTHING_THERE);
    CHECK(gix_config_integer_filter(file, &n, &all, &integer) == GIX_CONFIG_DONE && integer == 2048);
    CHECK(gix_config_integer_filter(file, &n, &others, &integer) == GIX_CONFIG_NOTHING_THERE && integer == 2048);
    CHECK(gix_config_file_text_filter(file, &api, &bytes) == GIX_CONFIG_DONE && is_text(bytes.at, bytes.len, TEXT));
    CHECK(gix_config_file_text_filter(file, &others, &bytes) == GIX_CONFIG_DONE && is_text(bytes.at, bytes.len, "# mine\n"));
    gix_config_list_close(&list);
    gix_config_bytes_free(&bytes);
}

static void paths(void)
{
    gix_config_file file = { NULL };
    gix_config_bytes path = { NULL, 0, NULL };
    gix_config_place place = { 0, 0, 0 };
    gix_config_folders none = { false, text_of(""), false, text_of("") }, both = { true, text_of("/git"), true, text_of("/home/ada") };
    gix_config_key home = key_of("a", NULL, "home"), git = key_of("a", NULL, "git"), plain = key_of("a", NULL, "plain"), user = key_of("a", NULL, "user");
    gix_config_key empty = key_of("a", NULL, "empty"), latin = key_of("a", NULL, "latin"), missing = key_of("a", NULL, "missing");
    CHECK(parse("[a]\nhome = ~/x\ngit = %(prefix)/etc\nplain = /y\nuser = ~bob/z\nempty =\nlatin = /\xff\n", false, &file, &place) == GIX_CONFIG_DONE);
    CHECK(gix_config_path(&file, &home, &both, &path) == GIX_CONFIG_DONE && is_text(path.at, path.len, "/home/ada/x"));
    CHECK(gix_config_path(&file, &git, &both, &path) == GIX_CONFIG_DONE && is_text(path.at, path.len, "/git/etc"));
    CHECK(gix_config_path(&file, &plain, &none, &path) == GIX_CONFIG_DONE && is_text(path.at, path.len, "/y"));
    CHECK(gix_config_path(&file, &home, &none, &path) == GIX_CONFIG_MISSING_FOLDER && gix_config_path(&file, &git, &none, &path) == GIX_CONFIG_MISSING_FOLDER);
    CHECK(gix_config_path(&file, &user, &both, &path) == GIX_CONFIG_MISSING_FOLDER && gix_config_path(&file, &empty, &both, &path) == GIX_CONFIG_MISSING_FOLDER);
    CHECK(gix_config_path(&file, &latin, &both, &path) == GIX_CONFIG_PATH_NOT_UTF8 && is_text(path.at, path.len, "/y"));
    CHECK(gix_config_path(&file, &missing, &both, &path) == GIX_CONFIG_NOTHING_THERE);
    gix_config_bytes_free(&path);
    gix_config_file_close(&file);
}

static void compared(void)
{
    gix_config_file file = { NULL }, other_file = { NULL };
    gix_config_list list = { NULL };
    gix_config_place place = { 0, 0, 0 };
    gix_config_difference difference;
    bool equal = false;
    CHECK(parse("# one\n[A]\n\tk = 1\n\tbare\n", false, &file, &place) == GIX_CONFIG_DONE);
    CHECK(parse("[a]\nK = \"1\"\nbare\n", false, &other_file, &place) == GIX_CONFIG_DONE);
    CHECK(gix_config_file_equal(&file, &other_file, &equal) == GIX_CONFIG_DONE && equal);
    CHECK(gix_config_differences(&file, &other_file, &list) == GIX_CONFIG_DONE && gix_config_list_len(&list) == 0);
    CHECK(parse("[a]\nk = 2\n[b \"s\"]\nbare\n", false, &other_file, &place) == GIX_CONFIG_DONE);
    CHECK(gix_config_file_equal(&file, &other_file, &equal) == GIX_CONFIG_DONE && !equal);
    CHECK(gix_config_differences(&file, &other_file, &list) == GIX_CONFIG_DONE && gix_config_list_len(&list) == 4);
    CHECK(gix_config_list_difference(&list, 0, &difference) == GIX_CONFIG_DONE && !difference.is_other);
    CHECK(is_text(difference.entry.name.at, difference.entry.name.len, "bare") && !difference.entry.has_value);
    CHECK(gix_config_list_difference(&list, 1, &difference) == GIX_CONFIG_DONE && !difference.is_other);
    CHECK(is_text(difference.entry.name.at, difference.entry.name.len, "k") && is_text(difference.entry.value.at, difference.entry.value.len, "1"));
    CHECK(gix_config_list_difference(&list, 2, &difference) == GIX_CONFIG_DONE && difference.is_other);
    CHECK(is_text(difference.entry.section.at, difference.entry.section.len, "a") && is_text(difference.entry.value.at, difference.entry.value.len, "2"));
    CHECK(gix_config_list_difference(&list, 3, &difference) == GIX_CONFIG_DONE && difference.is_other && difference.entry.has_subsection);
    CHECK(gix_config_list_difference(&list, 4, &difference) == GIX_CONFIG_NOTHING_THERE && difference.entry.has_subsection);
    gix_config_list_close(&list);
    gix_config_file_close(&file);
    gix_config_file_close(&other_file);
}

static uint32_t normalize(const char *words, const gix_config_layout *layout, gix_config_bytes *laid_out, gix_config_place *place)
{
    return gix_config_normalize((const uint8_t *)words, strlen(words), layout, laid_out, place);
}

static void layouts(void)
{
    gix_config_layout layout;
    gix_config_bytes laid_out = { NULL, 0, NULL };
    gix_config_place place = { 7, 8, 9 };
    gix_config_layout_default(&layout);
    CHECK(normalize("  # c\n[a]\nk=v\n\n\n\nb", &layout, &laid_out, &place) == GIX_CONFIG_DONE);
    CHECK(is_text(laid_out.at, laid_out.len, "# c\n[a]\n\tk = v\n\n\n\n\tb\n"));
    layout.has_tabs = false;
    layout.indent = 2;
    layout.spaces_around_separator = false;
    layout.detects_newline = false;
    layout.is_crlf = true;
    layout.limits_blank_lines = true;
    layout.max_blank_lines = 1;
    layout.keeps_root_blanks = true;
    CHECK(normalize("  # c\n[a]\nk = v\n\n\n\nb", &layout, &laid_out, &place) == GIX_CONFIG_DONE);
    CHECK(is_text(laid_out.at, laid_out.len, "  # c\r\n[a]\r\n  k=v\r\n\r\n  b\r\n"));
    CHECK(place.line == 7 && place.column == 8 && place.offset == 9);
    CHECK(normalize("[a]\n  = 1\n", &layout, &laid_out, &place) == GIX_CONFIG_UNEXPECTED_TOKEN && place.line == 2 && place.column == 3 && place.offset == 6);
    CHECK(is_text(laid_out.at, laid_out.len, "  # c\r\n[a]\r\n  k=v\r\n\r\n  b\r\n"));
    gix_config_bytes_free(&laid_out);
}

static bool matches(const char *pattern, const char *words, bool ignore_case)
{
    bool is_match = false;
    CHECK(gix_config_wildmatch((const uint8_t *)pattern, strlen(pattern), (const uint8_t *)words, strlen(words), ignore_case, &is_match) == GIX_CONFIG_DONE);
    return is_match;
}

static void patterns(void)
{
    CHECK(matches("/a/**/x", "/a/b/c/x", false) && matches("/a/*/x", "/a/b/x", false));
    CHECK(!matches("/a/*/x", "/a/b/c/x", false) && !matches("/A", "/a", false) && matches("/A", "/a", true));
    CHECK(matches("", "", false) && !matches("[b-d]", "a", false) && matches("[b-d]", "c", false));
}

static bool is_key(const gix_config_key *key, const char *section, const char *subsection, const char *name)
{
    return is_text(key->section.at, key->section.len, section) && is_text(key->name.at, key->name.len, name) && key->has_subsection == (subsection != NULL)
        && is_text(key->subsection.at, key->subsection.len, subsection != NULL ? subsection : "");
}

static void keys(const gix_config_file *file)
{
    gix_config_key key = key_of("a", "b", "c");
    gix_config_bytes value = { NULL, 0, NULL };
    CHECK(key_parse("core", &key) == GIX_CONFIG_NOTHING_THERE && key_parse("", &key) == GIX_CONFIG_NOTHING_THERE && is_key(&key, "a", "b", "c"));
    CHECK(key_parse("a\xff.k", &key) == GIX_CONFIG_NOT_UTF8 && key_parse("a.b.k\xff", &key) == GIX_CONFIG_NOT_UTF8 && is_key(&key, "a", "b", "c"));
    CHECK(key_parse("core.editor", &key) == GIX_CONFIG_DONE && is_key(&key, "core", NULL, "editor"));
    CHECK(gix_config_value(file, &key, &value) == GIX_CONFIG_DONE && is_text(value.at, value.len, "vi"));
    CHECK(key_parse("REMOTE.or.igin.url", &key) == GIX_CONFIG_DONE && is_key(&key, "REMOTE", "or.igin", "url"));
    CHECK(gix_config_value(file, &key, &value) == GIX_CONFIG_DONE && is_text(value.at, value.len, "d"));
    CHECK(key_parse("a..b", &key) == GIX_CONFIG_DONE && is_key(&key, "a", "", "b"));
    CHECK(key_parse("a.\xff.b", &key) == GIX_CONFIG_DONE && is_key(&key, "a", "\xff", "b"));
    CHECK(key_parse(".", &key) == GIX_CONFIG_DONE && is_key(&key, "", NULL, "") && key.subsection.at != NULL);
    gix_config_bytes_free(&value);
}

static void typed(void)
{
    static const char *const truths[] = { "true", "YES", "on", "1", "-7" }, *const untruths[] = { "false", "No", "OFF", "0", "" };
    bool boolean = false;
    int64_t integer = 7;
    for (size_t i = 0; i < sizeof truths / sizeof *truths; i++) {
        CHECK(boolean_parse(truths[i], &boolean) == GIX_CONFIG_DONE && boolean);
        CHECK(boolean_parse(untruths[i], &boolean) == GIX_CONFIG_DONE && !boolean);
    }
    CHECK(boolean_parse("tru", &boolean) == GIX_CONFIG_BAD_VALUE && !boolean);
    CHECK(integer_parse("", &integer) == GIX_CONFIG_BAD_VALUE && integer_parse("1 k", &integer) == GIX_CONFIG_BAD_VALUE && integer == 7);
    CHECK(integer_parse("-3M", &integer) == GIX_CONFIG_DONE && integer == -3 * 1024 * 1024);
    CHECK(integer_parse("9223372036854775807", &integer) == GIX_CONFIG_DONE && integer == INT64_MAX);
    CHECK(integer_parse("9007199254740992k", &integer) == GIX_CONFIG_BAD_VALUE && integer == INT64_MAX);
}

/* A text that comes from a file of the user, and one of an untrusted place without a path. */
static void parsed_as(void)
{
    gix_config_file file = { NULL };
    gix_config_list list = { NULL };
    gix_config_place place = { 0, 0, 0 };
    gix_config_origin origin = { 7, 7, 7, false };
    gix_config_bytes bytes = { NULL, 0, NULL };
    gix_config_listed_section section;
    gix_config_metadata user = { true, text_of("/home/ada/.gitconfig"), GIX_CONFIG_SOURCE_USER, GIX_CONFIG_TRUST_FULL };
    gix_config_metadata option = { false, text_of("\xff"), GIX_CONFIG_SOURCE_CLI, GIX_CONFIG_TRUST_REDUCED };
    CHECK(parse_as("# c\n[include]\n\tpath = x\n", &user, false, &file, &place) == GIX_CONFIG_DONE);
    CHECK(gix_config_file_origin(&file, &origin, &bytes) == GIX_CONFIG_DONE && is_text(bytes.at, bytes.len, "/home/ada/.gitconfig"));
    CHECK(origin.source == GIX_CONFIG_SOURCE_USER && origin.level == 0 && origin.trust == GIX_CONFIG_TRUST_FULL && origin.has_path);
    CHECK(gix_config_file_text(&file, &bytes) == GIX_CONFIG_DONE && is_text(bytes.at, bytes.len, "# c\n[include]\n\tpath = x\n"));
    CHECK(parse_as("# c\n[a]\n\tk = v\n", &option, true, &file, &place) == GIX_CONFIG_DONE);
    CHECK(gix_config_sections(&file, &list) == GIX_CONFIG_DONE && gix_config_list_section(&list, 0, &section) == GIX_CONFIG_DONE);
    CHECK(section.source == GIX_CONFIG_SOURCE_CLI && section.trust == GIX_CONFIG_TRUST_REDUCED && section.level == 0 && !section.has_path);
    CHECK(gix_config_file_text(&file, &bytes) == GIX_CONFIG_DONE && bytes.len != 0 && memchr(bytes.at, '#', bytes.len) == NULL);
    CHECK(parse_as("[a]\n\tk = \"\n", &user, false, &file, &place) == GIX_CONFIG_UNEXPECTED_TOKEN && place.line == 2);
    CHECK(gix_config_file_origin(&file, &origin, &bytes) == GIX_CONFIG_DONE && origin.source == GIX_CONFIG_SOURCE_CLI);
    gix_config_list_close(&list);
    gix_config_bytes_free(&bytes);
    gix_config_file_close(&file);
}

static void version(void)
{
    gix_config_text text = { NULL, 0 };
    char parts[64];
    gix_config_version(&text);
    CHECK(is_text(text.at, text.len, GIX_CONFIG_VERSION));
    snprintf(parts, sizeof parts, "%d.%d.%d", GIX_CONFIG_VERSION_MAJOR, GIX_CONFIG_VERSION_MINOR, GIX_CONFIG_VERSION_PATCH);
    CHECK(strcmp(parts, GIX_CONFIG_VERSION) == 0);
}

static bool ends_with(const gix_config_bytes *text, const char *words)
{
    size_t len = strlen(words);
    return text->len >= len && memcmp(text->at + (text->len - len), words, len) == 0;
}

static void edits(gix_config_file *file)
{
    gix_config_bytes old = { NULL, 0, NULL }, text = { NULL, 0, NULL };
    gix_config_key editor = key_of("core", NULL, "editor"), name = key_of("user", NULL, "name"), wrong = key_of("user", NULL, "na_me");
    bool had = false;
    CHECK(set(file, &editor, "emacs", &had, &old) == GIX_CONFIG_DONE && had && is_text(old.at, old.len, "vi"));
    CHECK(set(file, &name, " x", &had, &old) == GIX_CONFIG_DONE && !had);
    CHECK(set(file, &wrong, "x", &had, &old) == GIX_CONFIG_INVALID_VALUE_NAME);

    gix_config_key url = key_of("remote", "or.igin", "url"), none = key_of("remote", "or.igin", "none"), nowhere = key_of("nope", NULL, "x");
    CHECK(push(file, &url, "e f") == GIX_CONFIG_DONE && push(file, &none, NULL) == GIX_CONFIG_DONE);
    CHECK(gix_config_file_text(file, &text) == GIX_CONFIG_DONE);
    CHECK(ends_with(&text, "\turl = d\n\turl = e f\n\tnone\n[user]\n\tname = \" x\"\n"));
    CHECK(push(file, &nowhere, "v") == GIX_CONFIG_SECTION_MISSING && push(file, &wrong, "v") == GIX_CONFIG_INVALID_VALUE_NAME);
    CHECK(gix_config_remove_value(file, &url, &old) == GIX_CONFIG_DONE && is_text(old.at, old.len, "e f"));
    CHECK(gix_config_remove_value(file, &none, &old) == GIX_CONFIG_DONE && old.len == 0);
    CHECK(gix_config_remove_value(file, &none, &old) == GIX_CONFIG_NOTHING_THERE && old.len == 0);
    CHECK(gix_config_file_text(file, &text) == GIX_CONFIG_DONE && ends_with(&text, "\turl = d\n[user]\n\tname = \" x\"\n"));
    CHECK(gix_config_remove_value(file, &nowhere, &old) == GIX_CONFIG_SECTION_MISSING);

    gix_config_section remote = section_of("remote", "or.igin"), user = section_of("user", NULL), me = section_of("me", "a\"b"), bad = section_of("a b", NULL);
    CHECK(gix_config_section_remove(file, &remote) == GIX_CONFIG_DONE);
    CHECK(gix_config_section_remove(file, &remote) == GIX_CONFIG_NOTHING_THERE);
    CHECK(gix_config_section_rename(file, &user, &me) == GIX_CONFIG_DONE);
    CHECK(gix_config_section_rename(file, &user, &me) == GIX_CONFIG_SECTION_MISSING);
    CHECK(gix_config_section_rename(file, &me, &bad) == GIX_CONFIG_INVALID_SECTION_NAME);
    CHECK(gix_config_section_new(file, &user) == GIX_CONFIG_DONE);
    CHECK(gix_config_section_new(file, &bad) == GIX_CONFIG_INVALID_SECTION_NAME);

    CHECK(gix_config_file_text(file, &text) == GIX_CONFIG_DONE);
    CHECK(is_text(text.at, text.len, "# mine\n[core]\n\teditor = emacs ; was ed\n\tbare\n\tn = 2k\n[me \"a\\\"b\"]\n\tname = \" x\"\n[user]\n"));
    gix_config_bytes_free(&text);
    gix_config_bytes_free(&old);
}

static void texts_alone(void)
{
    gix_config_bytes value = { NULL, 0, NULL };
    gix_config_list list = { NULL };
    gix_config_text text = { NULL, 0 };
    gix_config_place place = { 7, 8, 9 };
    gix_config_key url = key_of("REMOTE", "or.igin", "URL"), none = key_of("core", NULL, "none");
    CHECK(text_value(TEXT, &url, &value, &place) == GIX_CONFIG_DONE && is_text(value.at, value.len, "d"));
    CHECK(text_value(TEXT, &none, &value, &place) == GIX_CONFIG_NOTHING_THERE && is_text(value.at, value.len, "d"));
    CHECK(text_values(TEXT, &url, &list, &place) == GIX_CONFIG_DONE && gix_config_list_len(&list) == 2);
    CHECK(gix_config_list_at(&list, 0, &text) == GIX_CONFIG_DONE && is_text(text.at, text.len, "a b c"));
    CHECK(gix_config_list_at(&list, 1, &text) == GIX_CONFIG_DONE && is_text(text.at, text.len, "d"));
    CHECK(text_values(TEXT, &none, &list, &place) == GIX_CONFIG_NOTHING_THERE && gix_config_list_len(&list) == 2);
    CHECK(place.line == 7 && place.column == 8 && place.offset == 9);
    CHECK(text_value("[core]\n  = 1\n", &url, &value, &place) == GIX_CONFIG_UNEXPECTED_TOKEN);
    CHECK(place.line == 2 && place.column == 3 && place.offset == 9);
    CHECK(text_values("[core]\n\tk = \"\n", &url, &list, &place) == GIX_CONFIG_UNEXPECTED_TOKEN && place.line == 2);
    gix_config_list_close(&list);
    gix_config_bytes_free(&value);
}

static void appended(void)
{
    gix_config_file file = { NULL }, other_file = { NULL };
    gix_config_bytes text = { NULL, 0, NULL };
    gix_config_place place = { 0, 0, 0 };
    CHECK(parse("[a]\n\tk = 1\n", false, &file, &place) == GIX_CONFIG_DONE);
    CHECK(parse("# c\n[b]\n\tk = 2\n", false, &other_file, &place) == GIX_CONFIG_DONE);
    CHECK(gix_config_file_append(&file, &other_file) == GIX_CONFIG_DONE);
    CHECK(gix_config_file_text(&file, &text) == GIX_CONFIG_DONE && is_text(text.at, text.len, "[a]\n\tk = 1\n# c\n[b]\n\tk = 2\n"));
    CHECK(gix_config_file_text(&other_file, &text) == GIX_CONFIG_DONE && is_text(text.at, text.len, "# c\n[b]\n\tk = 2\n"));
    gix_config_bytes_free(&text);
    gix_config_file_close(&file);
    gix_config_file_close(&other_file);
}

static void refused_text(gix_config_file *file)
{
    gix_config_place place = { 0, 0, 0 };
    gix_config_bytes text = { NULL, 0, NULL };
    CHECK(parse("[a]\n\tk = v\n  = 1\n", false, file, &place) == GIX_CONFIG_UNEXPECTED_TOKEN);
    CHECK(place.line == 3 && place.offset == 13 && place.column == 3);
    CHECK(gix_config_file_text(file, &text) == GIX_CONFIG_DONE && text.len != 0);
    gix_config_bytes_free(&text);
}

int main(void)
{
    gix_config_file file = { NULL }, other_file = { NULL };
    gix_config_place place = { 0, 0, 0 };
    gix_config_bytes text = { NULL, 0, NULL };
    CHECK(parse(TEXT, false, &file, &place) == GIX_CONFIG_DONE);
    CHECK(gix_config_file_text(&file, &text) == GIX_CONFIG_DONE && is_text(text.at, text.len, TEXT));
    CHECK(gix_config_file_clone(&file, &other_file) == GIX_CONFIG_DONE);
    look_ups(&file);
    entries(&file);
    sections(&file);
    filters(&file);
    keys(&file);
    edits(&file);
    CHECK(gix_config_file_text(&other_file, &text) == GIX_CONFIG_DONE && is_text(text.at, text.len, TEXT));
    look_ups(&other_file);
    refused_text(&file);
    CHECK(parse(TEXT, true, &file, &place) == GIX_CONFIG_DONE);
    look_ups(&file);
    texts_alone();
    appended();
    paths();
    compared();
    layouts();
    patterns();
    typed();
    parsed_as();
    version();
    gix_config_bytes_free(&text);
    gix_config_file_close(&file);
    gix_config_file_close(&other_file);
    return 0;
}
