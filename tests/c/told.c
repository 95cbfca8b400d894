/* Files that are loaded with what they include, and includes of a file that is there, by what a program tells. */
#include "checking.h"

static gix_config_includes in_repository(void)
{
    gix_config_includes includes = { false, false, { false, text_of(""), true, text_of("/home/ada") }, true, text_of("/repo/.git"), text_of("/repo/.git"), true, text_of("refs/heads/main") };
    return includes;
}

static uint32_t tell(gix_config_told *told, const char *path, const char *text)
{
    return gix_config_told_text(told, (const uint8_t *)path, strlen(path), (const uint8_t *)text, strlen(text));
}

static uint32_t tell_missing(gix_config_told *told, const char *path)
{
    return gix_config_told_missing(told, (const uint8_t *)path, strlen(path));
}

static uint32_t tell_fault(gix_config_told *told, const char *path, bool opens)
{
    return gix_config_told_fault(told, (const uint8_t *)path, strlen(path), opens);
}

/* Each file that is needed is asked for, one a call; then the sections stand where they were included. */
static void loaded(void)
{
    gix_config_told told = { NULL };
    gix_config_file file = { NULL };
    gix_config_list list = { NULL };
    gix_config_bytes path = { NULL, 0, NULL }, value = { NULL, 0, NULL };
    gix_config_listed_section section;
    gix_config_load load = { text_of("/a"), GIX_CONFIG_SOURCE_LOCAL, GIX_CONFIG_TRUST_FULL, in_repository() };
    gix_config_key x = key_of("x", NULL, "k"), y = key_of("y", NULL, "k");
    CHECK(gix_config_told_new(&told) == GIX_CONFIG_DONE);
    CHECK(gix_config_load_told(&told, &load, &file, &path) == GIX_CONFIG_NOT_TOLD && is_text(path.at, path.len, "/a") && file.at == NULL);
    CHECK(tell(&told, "/a", "[include]\n\tpath = b\n\tpath = ~/c\n[includeIf \"gitdir:/repo/\"]\n\tpath = /d\n[includeIf \"onbranch:other\"]\n\tpath = /e\n[x]\n\tk = a\n") == GIX_CONFIG_DONE);
    CHECK(gix_config_load_told(&told, &load, &file, &path) == GIX_CONFIG_NOT_TOLD && is_text(path.at, path.len, "/b"));
    CHECK(tell(&told, "/b", "[x]\n\tk = b\n") == GIX_CONFIG_DONE);
    CHECK(gix_config_load_told(&told, &load, &file, &path) == GIX_CONFIG_NOT_TOLD && is_text(path.at, path.len, "/home/ada/c"));
    CHECK(tell_missing(&told, "/home/ada/c") == GIX_CONFIG_DONE);
    CHECK(gix_config_load_told(&told, &load, &file, &path) == GIX_CONFIG_NOT_TOLD && is_text(path.at, path.len, "/d") && file.at == NULL);
    CHECK(tell(&told, "/d", "[y]\n\tk = d\n") == GIX_CONFIG_DONE);
    CHECK(gix_config_load_told(&told, &load, &file, &path) == GIX_CONFIG_DONE && is_text(path.at, path.len, "/d"));
    CHECK(gix_config_value(&file, &x, &value) == GIX_CONFIG_DONE && is_text(value.at, value.len, "a"));
    CHECK(gix_config_value(&file, &y, &value) == GIX_CONFIG_DONE && is_text(value.at, value.len, "d"));
    CHECK(gix_config_sections(&file, &list) == GIX_CONFIG_DONE && gix_config_list_len(&list) == 6);
    CHECK(gix_config_list_section(&list, 1, &section) == GIX_CONFIG_DONE && is_text(section.name.at, section.name.len, "x"));
    CHECK(section.level == 1 && section.source == GIX_CONFIG_SOURCE_LOCAL && section.has_path && is_text(section.path.at, section.path.len, "/b"));
    CHECK(gix_config_list_section(&list, 5, &section) == GIX_CONFIG_DONE && section.level == 0 && is_text(section.path.at, section.path.len, "/a"));

    /* What is told last counts. */
    CHECK(tell(&told, "/b", "[z]\n") == GIX_CONFIG_DONE);
    CHECK(gix_config_load_told(&told, &load, &file, &path) == GIX_CONFIG_DONE && gix_config_sections(&file, &list) == GIX_CONFIG_DONE);
    CHECK(gix_config_list_section(&list, 1, &section) == GIX_CONFIG_DONE && is_text(section.name.at, section.name.len, "z"));
    gix_config_list_close(&list);
    gix_config_bytes_free(&value);
    gix_config_bytes_free(&path);
    gix_config_file_close(&file);
    gix_config_told_close(&told);
    gix_config_told_close(&told);
}

/* Faults that are told, and files that are refused; the file that was there stays. */
static void refused(void)
{
    gix_config_told told = { NULL };
    gix_config_file file = { NULL };
    gix_config_bytes path = { NULL, 0, NULL }, text = { NULL, 0, NULL };
    gix_config_place place = { 0, 0, 0 };
    gix_config_load load = { text_of("/a"), GIX_CONFIG_SOURCE_USER, GIX_CONFIG_TRUST_REDUCED, in_repository() };
    CHECK(parse("[kept]\n", false, &file, &place) == GIX_CONFIG_DONE);
    CHECK(gix_config_told_new(&told) == GIX_CONFIG_DONE && tell_missing(&told, "/a") == GIX_CONFIG_DONE);
    CHECK(gix_config_load_told(&told, &load, &file, &path) == GIX_CONFIG_FILE_NOT_READ && is_text(path.at, path.len, "/a"));
    CHECK(tell(&told, "/a", "[include]\n\tpath = /b\n") == GIX_CONFIG_DONE && tell_fault(&told, "/b", false) == GIX_CONFIG_DONE);
    CHECK(gix_config_load_told(&told, &load, &file, &path) == GIX_CONFIG_INCLUDE_NOT_OPENED && is_text(path.at, path.len, "/b"));
    CHECK(tell_fault(&told, "/b", true) == GIX_CONFIG_DONE && gix_config_load_told(&told, &load, &file, &path) == GIX_CONFIG_INCLUDE_NOT_READ && is_text(path.at, path.len, "/b"));
    CHECK(tell(&told, "/b", "[x\n") == GIX_CONFIG_DONE && gix_config_load_told(&told, &load, &file, &path) == GIX_CONFIG_UNEXPECTED_TOKEN);
    CHECK(tell(&told, "/b", "[include]\n\tpath = a\n") == GIX_CONFIG_DONE && gix_config_load_told(&told, &load, &file, &path) == GIX_CONFIG_INCLUDE_DEPTH_EXCEEDED);
    CHECK(tell(&told, "/b", "[include]\n\tpath = ~bob/x\n") == GIX_CONFIG_DONE && gix_config_load_told(&told, &load, &file, &path) == GIX_CONFIG_DONE);
    CHECK(parse("[kept]\n", false, &file, &place) == GIX_CONFIG_DONE);
    load.includes.strict = true;
    CHECK(gix_config_load_told(&told, &load, &file, &path) == GIX_CONFIG_MISSING_FOLDER);
    CHECK(tell(&told, "/b", "[c] ; said\n") == GIX_CONFIG_DONE);
    load.includes.lossy = true;
    CHECK(gix_config_load_told(&told, &load, &file, &path) == GIX_CONFIG_DONE && gix_config_file_text(&file, &text) == GIX_CONFIG_DONE);
    CHECK(text.len != 0 && memchr(text.at, ';', text.len) == NULL);
    CHECK(parse("[kept]\n", false, &file, &place) == GIX_CONFIG_DONE);
    load.source = 3;
    CHECK(gix_config_load_told(&told, &load, &file, &path) == GIX_CONFIG_NO_SUCH_NUMBER);
    load.source = GIX_CONFIG_SOURCE_USER;
    load.trust = 2;
    CHECK(gix_config_load_told(&told, &load, &file, &path) == GIX_CONFIG_NO_SUCH_NUMBER);
    load.includes.branch = text_of("\xff");
    CHECK(gix_config_load_told(&told, &load, &file, &path) == GIX_CONFIG_NOT_UTF8);
    load.includes.has_branch = false;
    load.path = text_of("\xff");
    CHECK(gix_config_load_told(&told, &load, &file, &path) == GIX_CONFIG_NOT_UTF8 && is_text(path.at, path.len, "/b"));
    CHECK(tell(&told, "\xff", "") == GIX_CONFIG_NOT_UTF8 && tell_missing(&told, "\xff") == GIX_CONFIG_NOT_UTF8 && tell_fault(&told, "\xff", true) == GIX_CONFIG_NOT_UTF8);
    CHECK(gix_config_file_text(&file, &text) == GIX_CONFIG_DONE && is_text(text.at, text.len, "[kept]\n"));
    gix_config_bytes_free(&text);
    gix_config_bytes_free(&path);
    gix_config_file_close(&file);
    gix_config_told_close(&told);
}

/* A file that is there gets what it includes, or stays as it was. */
static void resolved(void)
{
    gix_config_told told = { NULL };
    gix_config_file file = { NULL };
    gix_config_bytes path = { NULL, 0, NULL }, text = { NULL, 0, NULL };
    gix_config_place place = { 0, 0, 0 };
    gix_config_includes includes = in_repository();
    CHECK(gix_config_told_new(&told) == GIX_CONFIG_DONE);
    CHECK(parse("[include]\n\tpath = /b\n\tpath = /c\n[x]\n\tk = 1\n", false, &file, &place) == GIX_CONFIG_DONE);
    CHECK(gix_config_resolve_includes_told(&told, &file, &includes, &path) == GIX_CONFIG_NOT_TOLD && is_text(path.at, path.len, "/b"));
    CHECK(tell(&told, "/b", "[y]\n\tk = 2 ; two\n") == GIX_CONFIG_DONE);
    CHECK(gix_config_resolve_includes_told(&told, &file, &includes, &path) == GIX_CONFIG_NOT_TOLD && is_text(path.at, path.len, "/c"));
    CHECK(gix_config_file_text(&file, &text) == GIX_CONFIG_DONE && is_text(text.at, text.len, "[include]\n\tpath = /b\n\tpath = /c\n[x]\n\tk = 1\n"));
    CHECK(tell(&told, "/c", "[z]\n") == GIX_CONFIG_DONE);
    CHECK(gix_config_resolve_includes_told(&told, &file, &includes, &path) == GIX_CONFIG_DONE && is_text(path.at, path.len, "/c"));
    CHECK(gix_config_file_text(&file, &text) == GIX_CONFIG_DONE);
    CHECK(is_text(text.at, text.len, "[include]\n\tpath = /b\n\tpath = /c\n[y]\n\tk = 2 ; two\n[z]\n[x]\n\tk = 1\n"));

    CHECK(parse("[include]\n\tpath = b\n", false, &file, &place) == GIX_CONFIG_DONE);
    CHECK(gix_config_resolve_includes_told(&told, &file, &includes, &path) == GIX_CONFIG_MISSING_CONFIG_PATH);
    CHECK(parse("[include]\n\tpath = /b\n", false, &file, &place) == GIX_CONFIG_DONE);
    includes.branch = text_of("\xff");
    CHECK(gix_config_resolve_includes_told(&told, &file, &includes, &path) == GIX_CONFIG_NOT_UTF8);
    includes.has_branch = false;
    includes.lossy = true;
    CHECK(gix_config_resolve_includes_told(&told, &file, &includes, &path) == GIX_CONFIG_DONE);
    CHECK(gix_config_file_text(&file, &text) == GIX_CONFIG_DONE && text.len != 0 && memchr(text.at, ';', text.len) == NULL);
    gix_config_bytes_free(&text);
    gix_config_bytes_free(&path);
    gix_config_file_close(&file);
    gix_config_told_close(&told);
}

/* Handles that are empty or hold something else. */
static void misused(void)
{
    gix_config_told told = { NULL };
    gix_config_file file = { NULL };
    gix_config_bytes path = { NULL, 0, NULL };
    gix_config_place place = { 0, 0, 0 };
    gix_config_load load = { text_of("/a"), GIX_CONFIG_SOURCE_LOCAL, GIX_CONFIG_TRUST_FULL, in_repository() };
    CHECK(tell(&told, "/a", "") == GIX_CONFIG_WRONG_HANDLE && tell_missing(&told, "/a") == GIX_CONFIG_WRONG_HANDLE);
    CHECK(tell_fault(&told, "/a", true) == GIX_CONFIG_WRONG_HANDLE && gix_config_load_told(&told, &load, &file, &path) == GIX_CONFIG_WRONG_HANDLE);
    gix_config_includes includes = in_repository();
    CHECK(gix_config_resolve_includes_told(&told, &file, &includes, &path) == GIX_CONFIG_WRONG_HANDLE);
    CHECK(parse("[kept]\n", false, &file, &place) == GIX_CONFIG_DONE);
    CHECK(gix_config_resolve_includes_told(&told, &file, &includes, &path) == GIX_CONFIG_WRONG_HANDLE);
    /* (moved, and not copied) */
    told.at = file.at;
    file.at = NULL;
    CHECK(tell(&told, "/a", "") == GIX_CONFIG_WRONG_HANDLE && gix_config_load_told(&told, &load, &file, &path) == GIX_CONFIG_WRONG_HANDLE);
    file.at = told.at;
    told.at = NULL;
    CHECK(path.at == NULL && path.owner == NULL);
    gix_config_file_close(&file);
}

int main(void)
{
    loaded();
    refused();
    resolved();
    misused();
    return 0;
}
