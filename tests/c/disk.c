/* Configuration on a disk: host/gix_config_disk.c, in a directory of its own. */
#ifndef _XOPEN_SOURCE
#define _XOPEN_SOURCE 700
#endif
#include "checking.h"
#include "gix_config_disk.h"
#include <errno.h>
#include <signal.h>
#include <sys/resource.h>
#include <sys/stat.h>
#include <unistd.h>

static void put_file(const char *path, const char *words)
{
    FILE *file = fopen(path, "w");
    CHECK(file != NULL && fputs(words, file) >= 0 && fclose(file) == 0);
}

static bool has_text(const char *path, const char *words)
{
    char text[256];
    FILE *file = fopen(path, "r");
    CHECK(file != NULL);
    size_t len = fread(text, 1, sizeof text, file);
    fclose(file);
    return is_text((const uint8_t *)text, len, words);
}

static bool is_there(const char *path)
{
    struct stat found;
    return lstat(path, &found) == 0;
}

static bool is_link(const char *path)
{
    struct stat found;
    return lstat(path, &found) == 0 && S_ISLNK(found.st_mode);
}

static mode_t mode_of(const char *path)
{
    struct stat found;
    CHECK(stat(path, &found) == 0);
    return found.st_mode & 07777;
}

static const gix_config_includes *no_conditions(void)
{
    static gix_config_includes includes;
    gix_config_text none = text_of("");
    gix_config_folders folders = { false, none, false, none };
    includes.folders = folders;
    includes.git_folder = includes.real_git_folder = includes.branch = none;
    return &includes;
}

static uint32_t load(const char *path, gix_config_file *file, gix_config_bytes *about, gix_config_place *place)
{
    gix_config_load wanted = { text_of(path), GIX_CONFIG_SOURCE_LOCAL, GIX_CONFIG_TRUST_FULL, *no_conditions() };
    return gix_config_disk_load(&wanted, file, about, place);
}

static bool has_value(const gix_config_file *file, const char *section, const char *name, const char *words)
{
    gix_config_bytes value = { NULL, 0, NULL };
    gix_config_key key = key_of(section, NULL, name);
    bool has = gix_config_value(file, &key, &value) == GIX_CONFIG_DONE && is_text(value.at, value.len, words);
    gix_config_bytes_free(&value);
    return has;
}

static void loads(void)
{
    gix_config_file file = { NULL };
    gix_config_bytes about = { NULL, 0, NULL };
    gix_config_place place = { 0, 0, 0 };
    put_file("main.conf", "[a]\n\tk = 1\n[include]\n\tpath = inner.conf\n\tpath = nowhere.conf\n\tpath = folder\n");
    put_file("inner.conf", "[a]\n\tk = 2\n");
    CHECK(mkdir("folder", 0777) == 0);
    CHECK(load("main.conf", &file, &about, &place) == GIX_CONFIG_DONE && has_value(&file, "a", "k", "2"));
    put_file("inner.conf", "[a]\n\tk = \"2\n");
    CHECK(load("main.conf", &file, &about, &place) == GIX_CONFIG_UNEXPECTED_TOKEN && place.line == 2);
    CHECK(is_text(about.at, about.len, "inner.conf") && has_value(&file, "a", "k", "2"));
    CHECK(load("nowhere.conf", &file, &about, &place) != GIX_CONFIG_DONE);
    put_file("inner.conf", "[a]\n\tk = 3\n");
    gix_config_metadata meta = { true, text_of("main.conf"), GIX_CONFIG_SOURCE_LOCAL, GIX_CONFIG_TRUST_FULL };
    CHECK(parse_as("[include]\n\tpath = inner.conf\n", &meta, false, &file, &place) == GIX_CONFIG_DONE);
    CHECK(gix_config_disk_resolve_includes(&file, no_conditions(), &about, &place) == GIX_CONFIG_DONE && has_value(&file, "a", "k", "3"));
    gix_config_bytes_free(&about);
    gix_config_file_close(&file);
}

static void loads_of_variables(void)
{
    gix_config_file file = { NULL };
    gix_config_bytes about = { NULL, 0, NULL };
    gix_config_place place = { 0, 0, 0 };
    CHECK(unsetenv("GIT_CONFIG_COUNT") == 0);
    CHECK(gix_config_disk_load_env(no_conditions(), &file, &about, &place) == GIX_CONFIG_NOTHING_THERE);
    CHECK(setenv("GIT_CONFIG_COUNT", "1", 1) == 0 && setenv("GIT_CONFIG_KEY_0", "v.k", 1) == 0);
    CHECK(gix_config_disk_load_env(no_conditions(), &file, &about, &place) == GIX_CONFIG_INVALID_VALUE_ID);
    CHECK(is_text(about.at, about.len, "GIT_CONFIG_VALUE_0"));
    CHECK(setenv("GIT_CONFIG_VALUE_0", "of a variable", 1) == 0);
    CHECK(gix_config_disk_load_env(no_conditions(), &file, &about, &place) == GIX_CONFIG_DONE && has_value(&file, "v", "k", "of a variable"));
    put_file("global.conf", "[g]\n\tk = global\n");
    CHECK(setenv("GIT_CONFIG_NOSYSTEM", "1", 1) == 0 && setenv("GIT_CONFIG_GLOBAL", "global.conf", 1) == 0);
    gix_config_places places = { false, text_of(""), text_of("/"), false, text_of("") };
    CHECK(gix_config_disk_load_globals(&places, &file, &about, &place) == GIX_CONFIG_DONE && has_value(&file, "g", "k", "global"));
    CHECK(mkdir("git", 0777) == 0);
    put_file("git/config", "[a]\n\tk = own\n");
    gix_config_repository repository = { text_of("git"), text_of("git"), places };
    CHECK(gix_config_disk_load_repository(&repository, &file, &about, &place) == GIX_CONFIG_DONE);
    CHECK(has_value(&file, "a", "k", "own") && has_value(&file, "g", "k", "global") && has_value(&file, "v", "k", "of a variable"));
    gix_config_bytes_free(&about);
    gix_config_file_close(&file);
}

static uint32_t set_in(gix_config_edit *edit, const char *value)
{
    gix_config_bytes old = { NULL, 0, NULL };
    gix_config_key key = key_of("core", NULL, "editor");
    bool had = false;
    uint32_t answer = set(&edit->file, &key, value, &had, &old);
    gix_config_bytes_free(&old);
    return answer;
}

static void edits(void)
{
    gix_config_edit edit = { { NULL }, NULL, NULL, 0, false }, other = { { NULL }, NULL, NULL, 0, false };
    gix_config_place place = { 0, 0, 0 };
    put_file("edited.conf", "# mine\n[core]\n\teditor = vi ; was ed\n");
    CHECK(chmod("edited.conf", 0640) == 0 && symlink("edited.conf", "link.conf") == 0);
    CHECK(gix_config_edit_begin("link.conf", &edit, &place) == GIX_CONFIG_DONE && is_there("edited.conf.lock"));
    CHECK(gix_config_edit_begin("edited.conf", &other, &place) == GIX_CONFIG_LOCKED && is_there("edited.conf.lock"));
    CHECK(set_in(&edit, "emacs") == GIX_CONFIG_DONE && gix_config_edit_save(&edit) == GIX_CONFIG_DONE);
    CHECK(has_text("edited.conf", "# mine\n[core]\n\teditor = emacs ; was ed\n") && mode_of("edited.conf") == 0640);
    CHECK(!is_there("edited.conf.lock") && is_link("link.conf"));
    CHECK(gix_config_edit_save(&edit) == GIX_CONFIG_SYSTEM_FAULT && errno == EBADF);
    gix_config_edit_end(&edit);
    /* an edit that isn't saved leaves nothing */
    CHECK(gix_config_edit_begin("edited.conf", &edit, &place) == GIX_CONFIG_DONE && set_in(&edit, "ed") == GIX_CONFIG_DONE);
    gix_config_edit_end(&edit);
    gix_config_edit_end(&edit);
    CHECK(has_text("edited.conf", "# mine\n[core]\n\teditor = emacs ; was ed\n") && !is_there("edited.conf.lock"));
    /* a file that is made */
    CHECK(gix_config_edit_begin("made.conf", &edit, &place) == GIX_CONFIG_DONE && set_in(&edit, "vi") == GIX_CONFIG_DONE);
    CHECK(gix_config_edit_save(&edit) == GIX_CONFIG_DONE && has_text("made.conf", "[core]\n\teditor = vi\n"));
    gix_config_edit_end(&edit);
}

static void refused_edits(void)
{
    gix_config_edit edit = { { NULL }, NULL, NULL, 0, false };
    gix_config_place place = { 0, 0, 0 };
    struct rlimit limit, small;
    put_file("bad.conf", "[a]\n\tk = \"v\n");
    CHECK(gix_config_edit_begin("bad.conf", &edit, &place) == GIX_CONFIG_UNEXPECTED_TOKEN && place.line == 2 && !is_there("bad.conf.lock"));
    CHECK(symlink("nowhere", "dangling.conf") == 0);
    CHECK(gix_config_edit_begin("dangling.conf", &edit, &place) == GIX_CONFIG_SYSTEM_FAULT && errno == ENOENT && !is_there("dangling.conf.lock"));
    CHECK(gix_config_edit_begin("folder", &edit, &place) == GIX_CONFIG_SYSTEM_FAULT && errno == EISDIR && !is_there("folder.lock"));
    CHECK(gix_config_edit_begin("nowhere/a.conf", &edit, &place) == GIX_CONFIG_SYSTEM_FAULT && errno == ENOENT);
    /* a disk that takes no more */
    CHECK(gix_config_edit_begin("edited.conf", &edit, &place) == GIX_CONFIG_DONE && set_in(&edit, "ed") == GIX_CONFIG_DONE);
    CHECK(signal(SIGXFSZ, SIG_IGN) != SIG_ERR && getrlimit(RLIMIT_FSIZE, &limit) == 0);
    small = limit;
    small.rlim_cur = 4;
    CHECK(setrlimit(RLIMIT_FSIZE, &small) == 0);
    CHECK(gix_config_edit_save(&edit) == GIX_CONFIG_SYSTEM_FAULT && errno == EFBIG);
    CHECK(setrlimit(RLIMIT_FSIZE, &limit) == 0);
    gix_config_edit_end(&edit);
    CHECK(has_text("edited.conf", "# mine\n[core]\n\teditor = emacs ; was ed\n") && !is_there("edited.conf.lock"));
}

int main(void)
{
    char directory[] = "disk-XXXXXX";
    CHECK(mkdtemp(directory) != NULL && chdir(directory) == 0);
    loads();
    loads_of_variables();
    edits();
    refused_edits();
    return 0;
}
