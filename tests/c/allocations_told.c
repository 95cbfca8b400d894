/* Each allocation that telling and loading ask for is refused in turn: the call then answers 27, and its handles and blocks are as they were. */
#include "checking.h"
#include "refusing_heap.h"

/* What the calls get, and what each of them does with it. */
typedef struct state {
    gix_config_told told;
    gix_config_file file;
    gix_config_bytes asked;
} state;

typedef uint32_t (*calling)(state *of);

static const uint8_t *bytes_of(const char *words)
{
    return (const uint8_t *)words;
}

static gix_config_includes follow(void)
{
    gix_config_includes includes = { false, false, { false, text_of(""), true, text_of("/home/ada") }, true, text_of("/repo/.git"), text_of("/repo/.git"), false, text_of("") };
    return includes;
}

static gix_config_places places(void)
{
    gix_config_places places = { true, text_of("/usr/etc/gitconfig"), text_of("/"), true, text_of("/home/ada") };
    return places;
}

static uint32_t make(state *of)
{
    return gix_config_told_new(&of->told);
}

static uint32_t tell_text(state *of)
{
    return gix_config_told_text(&of->told, bytes_of("/new"), 4, bytes_of("[x]\n"), 4);
}

static uint32_t tell_missing(state *of)
{
    return gix_config_told_missing(&of->told, bytes_of("/new"), 4);
}

static uint32_t tell_fault(state *of)
{
    return gix_config_told_fault(&of->told, bytes_of("/new"), 4, true);
}

static uint32_t tell_variable(state *of)
{
    return gix_config_told_variable(&of->told, bytes_of("NEW"), 3, bytes_of("v"), 1);
}

static uint32_t tell_no_variable(state *of)
{
    return gix_config_told_no_variable(&of->told, bytes_of("NEW"), 3);
}

static uint32_t load(state *of)
{
    gix_config_load load = { text_of("/a"), GIX_CONFIG_SOURCE_LOCAL, GIX_CONFIG_TRUST_FULL, follow() };
    return gix_config_load_told(&of->told, &load, &of->file, &of->asked);
}

static uint32_t load_untold(state *of)
{
    gix_config_load load = { text_of("/untold"), GIX_CONFIG_SOURCE_LOCAL, GIX_CONFIG_TRUST_FULL, follow() };
    return gix_config_load_told(&of->told, &load, &of->file, &of->asked);
}

static uint32_t resolve(state *of)
{
    gix_config_includes includes = follow();
    return gix_config_resolve_includes_told(&of->told, &of->file, &includes, &of->asked);
}

static uint32_t load_globals(state *of)
{
    gix_config_places known = places();
    return gix_config_load_globals_told(&of->told, &known, &of->file, &of->asked);
}

static uint32_t load_env(state *of)
{
    gix_config_includes includes = follow();
    return gix_config_load_env_told(&of->told, &includes, &of->file, &of->asked);
}

static uint32_t load_repository(state *of)
{
    gix_config_repository repository = { text_of("/repo/.git"), text_of("/repo/.git"), places() };
    return gix_config_load_repository_told(&of->told, &repository, &of->file, &of->asked);
}

/* All that the loads need, but for a file and a variable that a test leaves out. */
static void told(state *of, const char *but)
{
    static const char *const files[] = {
        "/a", "[include]\n\tpath = b\n[a]\n\tk = 1\n", "/b", "[b]\n\tk = 2\n", "/usr/etc/gitconfig", "[installed]\n", "/etc/gitconfig", "[machine]\n\tk\n",
        "/home/ada/.config/git/config", "", "/home/ada/.gitconfig", "[include]\n\tpath = /b\n", "/repo/.git/config", "[extensions]\n\tworktreeConfig\n",
        "/repo/.git/config.worktree", "[includeIf \"gitdir:/repo/\"]\n\tpath = /b\n",
    };
    static const char *const variables[] = {
        "GIT_CONFIG_SYSTEM", "", "GIT_CONFIG_GLOBAL", "", "GIT_CONFIG_NOSYSTEM", "", "XDG_CONFIG_HOME", "", "HOME", "/home/ada",
        "GIT_CONFIG_COUNT", "1", "GIT_CONFIG_KEY_0", "c.d.k", "GIT_CONFIG_VALUE_0", "v",
    };
    static const char text[] = "[include]\n\tpath = /a\n[x]\n\tk = 1\n";
    gix_config_place place = { 0, 0, 0 };
    refused_allocation = -1;
    CHECK(gix_config_told_new(&of->told) == GIX_CONFIG_DONE && parse(text, false, &of->file, &place) == GIX_CONFIG_DONE);
    for (size_t i = 0; i < sizeof files / sizeof *files; i += 2)
        CHECK(gix_config_told_text(&of->told, bytes_of(files[i]), strlen(files[i]), bytes_of(files[i + 1]), strlen(files[i + 1])) == GIX_CONFIG_DONE);
    for (size_t i = 0; i < sizeof variables / sizeof *variables; i += 2) {
        const uint8_t *name = bytes_of(variables[i]);
        size_t len = strlen(variables[i]);
        if (strcmp(variables[i], but) == 0)
            continue;
        if (i < 4)
            CHECK(gix_config_told_no_variable(&of->told, name, len) == GIX_CONFIG_DONE);
        else
            CHECK(gix_config_told_variable(&of->told, name, len, bytes_of(variables[i + 1]), strlen(variables[i + 1])) == GIX_CONFIG_DONE);
    }
}

static uint32_t call_refused(calling call, const char *but, uint32_t wanted, long allocation, bool *used)
{
    state of = { { NULL }, { NULL }, { NULL, 0, NULL } };
    told(&of, but);
    void *file = of.file.at, *at = of.told.at;
    allocations = 0;
    refused_allocation = allocation;
    uint32_t answer = call(&of);
    refused_allocation = -1;
    *used = allocations > allocation;
    if (answer == GIX_CONFIG_OUT_OF_MEMORY) {
        CHECK(of.file.at == file && of.told.at == at && of.asked.at == NULL && of.asked.owner == NULL);
        /* (all that was told is there, so that the same call is done) */
        CHECK(call(&of) == wanted);
    }
    gix_config_bytes_free(&of.asked);
    gix_config_file_close(&of.file);
    gix_config_told_close(&of.told);
    return answer;
}

static void each_refused(calling call, const char *but, uint32_t wanted)
{
    bool used = true;
    CHECK(call_refused(call, but, wanted, -1, &used) == wanted);
    for (long allocation = 0;; allocation++) {
        uint32_t answer = call_refused(call, but, wanted, allocation, &used);
        if (!used) {
            CHECK(answer == wanted && allocation > 0);
            return;
        }
        CHECK(answer == GIX_CONFIG_OUT_OF_MEMORY);
    }
}

int main(void)
{
    each_refused(make, "", GIX_CONFIG_DONE);
    each_refused(tell_text, "", GIX_CONFIG_DONE);
    each_refused(tell_missing, "", GIX_CONFIG_DONE);
    each_refused(tell_fault, "", GIX_CONFIG_DONE);
    each_refused(tell_variable, "", GIX_CONFIG_DONE);
    each_refused(tell_no_variable, "", GIX_CONFIG_DONE);
    each_refused(load, "", GIX_CONFIG_DONE);
    each_refused(load_untold, "", GIX_CONFIG_NOT_TOLD);
    each_refused(resolve, "", GIX_CONFIG_DONE);
    each_refused(load_globals, "", GIX_CONFIG_DONE);
    each_refused(load_globals, "HOME", GIX_CONFIG_VARIABLE_NOT_TOLD);
    each_refused(load_env, "", GIX_CONFIG_DONE);
    each_refused(load_env, "GIT_CONFIG_VALUE_0", GIX_CONFIG_VARIABLE_NOT_TOLD);
    each_refused(load_repository, "", GIX_CONFIG_DONE);
    return 0;
}
