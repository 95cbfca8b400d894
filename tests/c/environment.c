/* The configuration of the machine and of the user, of variables and of a repository, by what a program tells. */
#include "checking.h"

static uint32_t tell(gix_config_told *told, const char *path, const char *text)
{
    return gix_config_told_text(told, (const uint8_t *)path, strlen(path), (const uint8_t *)text, strlen(text));
}

static uint32_t tell_missing(gix_config_told *told, const char *path)
{
    return gix_config_told_missing(told, (const uint8_t *)path, strlen(path));
}

/* (not set for a null pointer) */
static uint32_t tell_variable(gix_config_told *told, const char *name, const char *value)
{
    const uint8_t *at = (const uint8_t *)name;
    if (value == NULL)
        return gix_config_told_no_variable(told, at, strlen(name));
    return gix_config_told_variable(told, at, strlen(name), (const uint8_t *)value, strlen(value));
}

static gix_config_places of_ada(void)
{
    gix_config_places places = { true, text_of("/usr/etc/gitconfig"), text_of("/"), true, text_of("/home/ada") };
    return places;
}

static gix_config_includes follow(void)
{
    gix_config_includes includes = { false, false, { false, text_of(""), true, text_of("/home/ada") }, false, text_of(""), text_of(""), false, text_of("") };
    return includes;
}

/* Tells all that a call asks for: the files and the variables of a table, and that others aren't there. Returns the last answer. */
typedef struct machine {
    const char *const *files, *const *variables;
} machine;

static const char *in_table(const char *const *table, const gix_config_bytes *name)
{
    for (; *table != NULL; table += 2)
        if (is_text(name->at, name->len, table[0]))
            return table[1];
    return NULL;
}

static uint32_t tell_asked(gix_config_told *told, const machine *of, uint32_t answer, const gix_config_bytes *asked)
{
    const char *found = in_table(answer == GIX_CONFIG_NOT_TOLD ? of->files : of->variables, asked);
    const uint8_t *at = (const uint8_t *)found;
    if (answer == GIX_CONFIG_NOT_TOLD)
        return found != NULL ? gix_config_told_text(told, asked->at, asked->len, at, strlen(found)) : gix_config_told_missing(told, asked->at, asked->len);
    return found != NULL ? gix_config_told_variable(told, asked->at, asked->len, at, strlen(found)) : gix_config_told_no_variable(told, asked->at, asked->len);
}

static bool asks(uint32_t answer)
{
    return answer == GIX_CONFIG_NOT_TOLD || answer == GIX_CONFIG_VARIABLE_NOT_TOLD;
}

static bool is_value(const gix_config_file *file, const char *section, const char *subsection, const char *name, const char *wanted)
{
    gix_config_bytes value = { NULL, 0, NULL };
    gix_config_key key = key_of(section, subsection, name);
    bool same = gix_config_value(file, &key, &value) == GIX_CONFIG_DONE && is_text(value.at, value.len, wanted);
    gix_config_bytes_free(&value);
    return same;
}

/* Variables are asked for first, in their order; then files, as they are needed. */
static void globals(void)
{
    static const char *const names[] = { "GIT_CONFIG_NOSYSTEM", "GIT_CONFIG_SYSTEM", "GIT_CONFIG_GLOBAL", "XDG_CONFIG_HOME", "HOME" };
    gix_config_told told = { NULL };
    gix_config_file file = { NULL };
    gix_config_list list = { NULL };
    gix_config_listed_section section;
    gix_config_bytes asked = { NULL, 0, NULL }, text = { NULL, 0, NULL };
    gix_config_places places = of_ada();
    CHECK(gix_config_told_new(&told) == GIX_CONFIG_DONE);
    for (size_t i = 0; i < 5; i++) {
        CHECK(gix_config_load_globals_told(&told, &places, &file, &asked) == GIX_CONFIG_VARIABLE_NOT_TOLD && is_text(asked.at, asked.len, names[i]));
        CHECK(tell_variable(&told, names[i], strcmp(names[i], "HOME") == 0 ? "/home/ada" : NULL) == GIX_CONFIG_DONE);
    }
    CHECK(gix_config_load_globals_told(&told, &places, &file, &asked) == GIX_CONFIG_NOT_TOLD && is_text(asked.at, asked.len, "/usr/etc/gitconfig"));
    CHECK(tell(&told, "/usr/etc/gitconfig", "[a]\n\tk = installed\n") == GIX_CONFIG_DONE);
    CHECK(gix_config_load_globals_told(&told, &places, &file, &asked) == GIX_CONFIG_NOT_TOLD && is_text(asked.at, asked.len, "/etc/gitconfig"));
    CHECK(tell(&told, "/etc/gitconfig", "[a]\n\tk = machine\n[b]\n\tk = machine\n") == GIX_CONFIG_DONE);
    CHECK(gix_config_load_globals_told(&told, &places, &file, &asked) == GIX_CONFIG_NOT_TOLD && is_text(asked.at, asked.len, "/home/ada/.config/git/config"));
    CHECK(tell_missing(&told, "/home/ada/.config/git/config") == GIX_CONFIG_DONE);
    CHECK(gix_config_load_globals_told(&told, &places, &file, &asked) == GIX_CONFIG_NOT_TOLD && is_text(asked.at, asked.len, "/home/ada/.gitconfig"));
    CHECK(tell(&told, "/home/ada/.gitconfig", "[include]\n\tpath = ~/more\n[a]\n\tk = ada\n") == GIX_CONFIG_DONE && file.at == NULL);
    CHECK(gix_config_load_globals_told(&told, &places, &file, &asked) == GIX_CONFIG_NOT_TOLD && is_text(asked.at, asked.len, "/home/ada/more"));
    CHECK(tell(&told, "/home/ada/more", "[c]\n\tk = more\n") == GIX_CONFIG_DONE);
    CHECK(gix_config_load_globals_told(&told, &places, &file, &asked) == GIX_CONFIG_DONE && is_text(asked.at, asked.len, "/home/ada/more"));
    CHECK(is_value(&file, "a", NULL, "k", "ada") && is_value(&file, "b", NULL, "k", "machine") && is_value(&file, "c", NULL, "k", "more"));
    CHECK(gix_config_sections(&file, &list) == GIX_CONFIG_DONE && gix_config_list_len(&list) == 6);
    CHECK(gix_config_list_section(&list, 0, &section) == GIX_CONFIG_DONE && section.source == GIX_CONFIG_SOURCE_GIT_INSTALLATION);
    CHECK(gix_config_list_section(&list, 1, &section) == GIX_CONFIG_DONE && section.source == GIX_CONFIG_SOURCE_SYSTEM);
    CHECK(is_text(section.path.at, section.path.len, "/etc/gitconfig"));
    CHECK(gix_config_list_section(&list, 4, &section) == GIX_CONFIG_DONE && section.source == GIX_CONFIG_SOURCE_USER && section.level == 1);

    /* A variable that is set counts, also one that was told otherwise before. */
    CHECK(tell_variable(&told, "GIT_CONFIG_NOSYSTEM", "1") == GIX_CONFIG_DONE && tell_variable(&told, "GIT_CONFIG_GLOBAL", "/other") == GIX_CONFIG_DONE);
    CHECK(gix_config_load_globals_told(&told, &places, &file, &asked) == GIX_CONFIG_NOT_TOLD && is_text(asked.at, asked.len, "/other"));
    CHECK(tell_missing(&told, "/other") == GIX_CONFIG_DONE);
    CHECK(gix_config_load_globals_told(&told, &places, &file, &asked) == GIX_CONFIG_DONE);
    CHECK(gix_config_file_text(&file, &text) == GIX_CONFIG_DONE && text.len == 0);
    CHECK(tell_variable(&told, "GIT_CONFIG_NOSYSTEM", "no") == GIX_CONFIG_DONE && tell_variable(&told, "GIT_CONFIG_SYSTEM", "/sys") == GIX_CONFIG_DONE);
    CHECK(gix_config_load_globals_told(&told, &places, &file, &asked) == GIX_CONFIG_NOT_TOLD && is_text(asked.at, asked.len, "/sys"));
    CHECK(gix_config_told_fault(&told, (const uint8_t *)"/sys", 4, false) == GIX_CONFIG_DONE);
    CHECK(gix_config_load_globals_told(&told, &places, &file, &asked) == GIX_CONFIG_FILE_NOT_READ && is_text(asked.at, asked.len, "/sys"));
    CHECK(tell(&told, "/sys", "[x\n") == GIX_CONFIG_DONE && gix_config_load_globals_told(&told, &places, &file, &asked) == GIX_CONFIG_UNEXPECTED_TOKEN);
    places.home = text_of("\xff");
    CHECK(gix_config_load_globals_told(&told, &places, &file, &asked) == GIX_CONFIG_NOT_UTF8);
    places.has_home = false;
    places.system_prefix = text_of("\xff");
    CHECK(gix_config_load_globals_told(&told, &places, &file, &asked) == GIX_CONFIG_NOT_UTF8);
    places.has_installation = false;
    places.system_prefix = text_of("/");
    CHECK(tell(&told, "/sys", "[include]\n\tpath = ~/more\n[x]\n\tk = 1\n") == GIX_CONFIG_DONE);
    CHECK(gix_config_load_globals_told(&told, &places, &file, &asked) == GIX_CONFIG_DONE && is_value(&file, "x", NULL, "k", "1"));
    gix_config_bytes_free(&text);
    gix_config_bytes_free(&asked);
    gix_config_list_close(&list);
    gix_config_file_close(&file);
    gix_config_told_close(&told);
}

/* Entries that variables set, and how each that is refused is told. */
static void variables(void)
{
    gix_config_told told = { NULL };
    gix_config_file file = { NULL };
    gix_config_list list = { NULL };
    gix_config_bytes asked = { NULL, 0, NULL };
    gix_config_includes includes = follow();
    CHECK(gix_config_told_new(&told) == GIX_CONFIG_DONE);
    CHECK(gix_config_load_env_told(&told, &includes, &file, &asked) == GIX_CONFIG_VARIABLE_NOT_TOLD && is_text(asked.at, asked.len, "GIT_CONFIG_COUNT"));
    CHECK(tell_variable(&told, "GIT_CONFIG_COUNT", NULL) == GIX_CONFIG_DONE);
    CHECK(gix_config_load_env_told(&told, &includes, &file, &asked) == GIX_CONFIG_NOTHING_THERE && file.at == NULL);
    CHECK(tell_variable(&told, "GIT_CONFIG_COUNT", "0") == GIX_CONFIG_DONE);
    CHECK(gix_config_load_env_told(&told, &includes, &file, &asked) == GIX_CONFIG_NOTHING_THERE);
    CHECK(tell_variable(&told, "GIT_CONFIG_COUNT", "two") == GIX_CONFIG_DONE);
    CHECK(gix_config_load_env_told(&told, &includes, &file, &asked) == GIX_CONFIG_INVALID_CONFIG_COUNT && is_text(asked.at, asked.len, "GIT_CONFIG_COUNT"));
    CHECK(tell_variable(&told, "GIT_CONFIG_COUNT", "2") == GIX_CONFIG_DONE);
    CHECK(gix_config_load_env_told(&told, &includes, &file, &asked) == GIX_CONFIG_VARIABLE_NOT_TOLD && is_text(asked.at, asked.len, "GIT_CONFIG_KEY_0"));
    CHECK(tell_variable(&told, "GIT_CONFIG_KEY_0", NULL) == GIX_CONFIG_DONE);
    CHECK(gix_config_load_env_told(&told, &includes, &file, &asked) == GIX_CONFIG_INVALID_KEY_ID && is_text(asked.at, asked.len, "GIT_CONFIG_KEY_0"));
    CHECK(tell_variable(&told, "GIT_CONFIG_KEY_0", "\xff") == GIX_CONFIG_DONE);
    CHECK(gix_config_load_env_told(&told, &includes, &file, &asked) == GIX_CONFIG_ILLFORMED_VARIABLE && is_text(asked.at, asked.len, "GIT_CONFIG_KEY_0"));
    CHECK(tell_variable(&told, "GIT_CONFIG_KEY_0", "nodot") == GIX_CONFIG_DONE);
    CHECK(gix_config_load_env_told(&told, &includes, &file, &asked) == GIX_CONFIG_VARIABLE_NOT_TOLD && is_text(asked.at, asked.len, "GIT_CONFIG_VALUE_0"));
    CHECK(tell_variable(&told, "GIT_CONFIG_VALUE_0", NULL) == GIX_CONFIG_DONE);
    CHECK(gix_config_load_env_told(&told, &includes, &file, &asked) == GIX_CONFIG_INVALID_VALUE_ID && is_text(asked.at, asked.len, "GIT_CONFIG_VALUE_0"));
    CHECK(tell_variable(&told, "GIT_CONFIG_VALUE_0", "vi") == GIX_CONFIG_DONE);
    CHECK(gix_config_load_env_told(&told, &includes, &file, &asked) == GIX_CONFIG_INVALID_KEY_VALUE && is_text(asked.at, asked.len, "GIT_CONFIG_KEY_0"));
    CHECK(tell_variable(&told, "GIT_CONFIG_KEY_0", "core.editor") == GIX_CONFIG_DONE);
    CHECK(tell_variable(&told, "GIT_CONFIG_VALUE_0", "\xff") == GIX_CONFIG_DONE);
    CHECK(gix_config_load_env_told(&told, &includes, &file, &asked) == GIX_CONFIG_ILLFORMED_VARIABLE && is_text(asked.at, asked.len, "GIT_CONFIG_VALUE_0"));
    CHECK(tell_variable(&told, "GIT_CONFIG_VALUE_0", "vi") == GIX_CONFIG_DONE);
    CHECK(tell_variable(&told, "GIT_CONFIG_KEY_1", "include.path") == GIX_CONFIG_DONE && tell_variable(&told, "GIT_CONFIG_VALUE_1", "~/more") == GIX_CONFIG_DONE);
    CHECK(gix_config_load_env_told(&told, &includes, &file, &asked) == GIX_CONFIG_NOT_TOLD && is_text(asked.at, asked.len, "/home/ada/more") && file.at == NULL);
    CHECK(tell(&told, "/home/ada/more", "[core]\n\teditor = emacs\n") == GIX_CONFIG_DONE);
    CHECK(gix_config_load_env_told(&told, &includes, &file, &asked) == GIX_CONFIG_DONE && is_value(&file, "core", NULL, "editor", "emacs"));
    gix_config_listed_section section;
    CHECK(gix_config_sections(&file, &list) == GIX_CONFIG_DONE && gix_config_list_len(&list) == 3);
    CHECK(gix_config_list_section(&list, 0, &section) == GIX_CONFIG_DONE && section.source == GIX_CONFIG_SOURCE_ENV && !section.has_path);
    CHECK(tell_variable(&told, "GIT_CONFIG_KEY_1", "core.e ditor") == GIX_CONFIG_DONE);
    CHECK(gix_config_load_env_told(&told, &includes, &file, &asked) == GIX_CONFIG_INVALID_VALUE_NAME);
    includes.branch = text_of("\xff");
    includes.has_branch = true;
    CHECK(gix_config_load_env_told(&told, &includes, &file, &asked) == GIX_CONFIG_NOT_UTF8);
    CHECK(tell_variable(&told, "\xff", "") == GIX_CONFIG_NOT_UTF8 && tell_variable(&told, "\xff", NULL) == GIX_CONFIG_NOT_UTF8);
    gix_config_bytes_free(&asked);
    gix_config_list_close(&list);
    gix_config_file_close(&file);
    gix_config_told_close(&told);
}

/* A repository: its files come after those of the machine and of the user, and the variables' entries last. */
static void repository(void)
{
    static const char *const files[] = {
        "/etc/gitconfig", "[a]\n\tk = machine\n\tmachine = 1\n", "/home/ada/.gitconfig", "[a]\n\tk = ada\n\tada = 1\n",
        "/repo/.git/config", "[a]\n\tk = repo\n\trepo = 1\n[extensions]\n\tworktreeConfig = true\n[includeIf \"gitdir:/repo/\"]\n\tpath = /more\n",
        "/repo/.git/config.worktree", "[a]\n\tworktree = 1\n\tk = worktree\n", "/more", "[a]\n\tmore = 1\n", NULL,
    };
    static const char *const set[] = { "HOME", "/home/ada", "GIT_CONFIG_COUNT", "1", "GIT_CONFIG_KEY_0", "a.K", "GIT_CONFIG_VALUE_0", "env", NULL };
    static const char *const names[] = { "machine", "ada", "repo", "worktree", "more" };
    const machine of = { files, set };
    gix_config_told told = { NULL };
    gix_config_file file = { NULL };
    gix_config_bytes asked = { NULL, 0, NULL };
    gix_config_repository repository = { text_of("/repo/.git"), text_of("/repo/.git"), of_ada() };
    repository.places.has_installation = false;
    uint32_t answer;
    CHECK(gix_config_told_new(&told) == GIX_CONFIG_DONE);
    while (asks(answer = gix_config_load_repository_told(&told, &repository, &file, &asked)))
        CHECK(tell_asked(&told, &of, answer, &asked) == GIX_CONFIG_DONE && file.at == NULL);
    CHECK(answer == GIX_CONFIG_DONE && is_value(&file, "a", NULL, "k", "env"));
    for (size_t i = 0; i < 5; i++)
        CHECK(is_value(&file, "a", NULL, names[i], "1"));
    gix_config_list list = { NULL };
    gix_config_listed_section section;
    CHECK(gix_config_sections(&file, &list) == GIX_CONFIG_DONE && gix_config_list_len(&list) == 8);
    CHECK(gix_config_list_section(&list, 2, &section) == GIX_CONFIG_DONE && section.source == GIX_CONFIG_SOURCE_LOCAL);
    CHECK(gix_config_list_section(&list, 6, &section) == GIX_CONFIG_DONE && section.source == GIX_CONFIG_SOURCE_WORKTREE);
    CHECK(gix_config_list_section(&list, 7, &section) == GIX_CONFIG_DONE && section.source == GIX_CONFIG_SOURCE_ENV);

    CHECK(tell_missing(&told, "/repo/.git/config") == GIX_CONFIG_DONE);
    CHECK(gix_config_load_repository_told(&told, &repository, &file, &asked) == GIX_CONFIG_FILE_NOT_READ && is_text(asked.at, asked.len, "/repo/.git/config"));
    CHECK(tell(&told, "/repo/.git/config", "[a]\n\tk = repo\n") == GIX_CONFIG_DONE);
    CHECK(tell_variable(&told, "GIT_CONFIG_KEY_0", "nodot") == GIX_CONFIG_DONE);
    CHECK(gix_config_load_repository_told(&told, &repository, &file, &asked) == GIX_CONFIG_INVALID_KEY_VALUE && is_text(asked.at, asked.len, "GIT_CONFIG_KEY_0"));
    CHECK(is_value(&file, "a", NULL, "k", "env"));
    repository.real_git_folder = text_of("\xff");
    CHECK(gix_config_load_repository_told(&told, &repository, &file, &asked) == GIX_CONFIG_NOT_UTF8);
    gix_config_bytes_free(&asked);
    gix_config_list_close(&list);
    gix_config_file_close(&file);
    gix_config_told_close(&told);
}

/* Handles that are empty or hold something else. */
static void misused(void)
{
    gix_config_told told = { NULL };
    gix_config_file file = { NULL };
    gix_config_bytes asked = { NULL, 0, NULL };
    gix_config_place place = { 0, 0, 0 };
    gix_config_includes includes = follow();
    gix_config_places places = of_ada();
    gix_config_repository repository = { text_of("/repo/.git"), text_of("/repo/.git"), of_ada() };
    for (int kind = 0; kind < 2; kind++) {
        CHECK(tell_variable(&told, "HOME", "") == GIX_CONFIG_WRONG_HANDLE && tell_variable(&told, "HOME", NULL) == GIX_CONFIG_WRONG_HANDLE);
        CHECK(gix_config_load_globals_told(&told, &places, &file, &asked) == GIX_CONFIG_WRONG_HANDLE);
        CHECK(gix_config_load_env_told(&told, &includes, &file, &asked) == GIX_CONFIG_WRONG_HANDLE);
        CHECK(gix_config_load_repository_told(&told, &repository, &file, &asked) == GIX_CONFIG_WRONG_HANDLE);
        CHECK(file.at == NULL && asked.at == NULL && asked.owner == NULL);
        if (kind == 0) {
            /* (moved, and not copied) */
            CHECK(parse("[kept]\n", false, &file, &place) == GIX_CONFIG_DONE);
            told.at = file.at;
            file.at = NULL;
        }
    }
    file.at = told.at;
    CHECK(is_value(&file, "kept", NULL, "k", "") == false);
    gix_config_file_close(&file);
}

int main(void)
{
    globals();
    variables();
    repository();
    misused();
    return 0;
}
