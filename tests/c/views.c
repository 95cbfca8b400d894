/* Views of files: all sections and entries as arrays. */
#include "checking.h"

static const char *const TEXT = "front = 1\n# mine\n[Core]\n\tEditor = vi ; was ed\n\tbare\n\tnone =\n[remote \"or\\\"igin\"]\n\turl = \"a b\" c\\\n d\n\tURL = e\n[core]\n[a.B]\n\tk = 1\n";

/* (each text is one of C, too: a zero byte is behind it) */
static bool has(const gix_config_view *view, gix_config_part part, const char *words)
{
    return part.at + part.len < view->text_len && is_text(view->text + part.at, part.len, words)
        && strcmp((const char *)view->text + part.at, words) == 0;
}

/* (no value for a null pointer) */
static bool is_entry(const gix_config_view *view, size_t index, const char *name, const char *value)
{
    const gix_config_entry_row *row = &view->entries[index];
    return has(view, row->name, name) && row->has_value == (value != NULL) && (value == NULL || has(view, row->value, value));
}

/* (no subsection for a null pointer) */
static bool is_section(const gix_config_view *view, size_t index, const char *name, const char *subsection, size_t entries_at, size_t entries_len)
{
    const gix_config_section_row *row = &view->sections[index];
    return has(view, row->name, name) && row->has_subsection == (subsection != NULL) && (subsection == NULL || has(view, row->subsection, subsection))
        && row->entries_at == entries_at && row->entries_len == entries_len && row->origin < view->origins_len;
}

static void rows(const gix_config_file *file, gix_config_view *view)
{
    CHECK(gix_config_view_file(file, view) == GIX_CONFIG_DONE && view->sections_len == 4 && view->entries_len == 6 && view->origins_len == 1);
    CHECK(is_section(view, 0, "Core", NULL, 0, 3) && is_section(view, 1, "remote", "or\"igin", 3, 2));
    CHECK(is_section(view, 2, "core", NULL, 5, 0) && is_section(view, 3, "a", "b", 5, 1));
    CHECK(is_entry(view, 0, "Editor", "vi") && is_entry(view, 1, "bare", NULL) && is_entry(view, 2, "none", ""));
    CHECK(is_entry(view, 3, "url", "a b c d") && is_entry(view, 4, "URL", "e") && is_entry(view, 5, "k", "1"));
    const gix_config_origin_row *origin = view->origins;
    CHECK(!origin->has_path && origin->source == GIX_CONFIG_SOURCE_API && origin->level == 0 && origin->trust == GIX_CONFIG_TRUST_FULL);
}

/* The view stays as it is whatever becomes of the file; a call that is refused leaves it, too. */
static void edits(gix_config_file *file, gix_config_view *view)
{
    gix_config_key editor = key_of("core", NULL, "k");
    gix_config_bytes old = { NULL, 0, NULL };
    bool had = true;
    CHECK(set(file, &editor, "new", &had, &old) == GIX_CONFIG_DONE && !had);
    CHECK(view->sections_len == 4 && view->entries_len == 6 && is_entry(view, 5, "k", "1"));
    gix_config_view now = { NULL, 0, NULL, 0, NULL, 0, NULL, 0, NULL };
    CHECK(gix_config_view_file(file, &now) == GIX_CONFIG_DONE && now.entries_len == 7);
    CHECK(is_section(&now, 2, "core", NULL, 5, 1) && is_entry(&now, 5, "k", "new") && is_section(&now, 3, "a", "b", 6, 1));
    gix_config_view_free(&now);
    CHECK(now.sections == NULL && now.sections_len == 0 && now.text == NULL && now.text_len == 0 && now.owner == NULL);
    gix_config_view_free(&now);
    gix_config_bytes_free(&old);
}

/* Sections of several files: one origin for those that stand together. */
static void origins(gix_config_file *file, gix_config_view *view)
{
    gix_config_file other_file = { NULL };
    gix_config_place place = { 0, 0, 0 };
    gix_config_metadata user = { true, text_of("/home/ada/.gitconfig"), GIX_CONFIG_SOURCE_USER, GIX_CONFIG_TRUST_REDUCED };
    CHECK(parse_as("[u]\n\tk = 1\n[v]\n", &user, false, &other_file, &place) == GIX_CONFIG_DONE);
    CHECK(gix_config_file_append(file, &other_file) == GIX_CONFIG_DONE);
    CHECK(gix_config_section_set_trust_at(file, 5, GIX_CONFIG_TRUST_FULL) == GIX_CONFIG_DONE);
    CHECK(gix_config_view_file(file, view) == GIX_CONFIG_DONE && view->sections_len == 6 && view->origins_len == 3);
    CHECK(view->sections[0].origin == 0 && view->sections[3].origin == 0 && view->sections[4].origin == 1 && view->sections[5].origin == 2);
    const gix_config_origin_row *origin = &view->origins[1];
    CHECK(origin->has_path && has(view, origin->path, "/home/ada/.gitconfig") && origin->source == GIX_CONFIG_SOURCE_USER && origin->trust == GIX_CONFIG_TRUST_REDUCED);
    CHECK(view->origins[2].trust == GIX_CONFIG_TRUST_FULL && has(view, view->origins[2].path, "/home/ada/.gitconfig"));
    gix_config_file_close(&other_file);
}

/* A section's number stays, and is not given again. */
static void numbers(void)
{
    gix_config_file file = { NULL };
    gix_config_place place = { 0, 0, 0 };
    gix_config_view view = { NULL, 0, NULL, 0, NULL, 0, NULL, 0, NULL };
    gix_config_section made = section_of("new", NULL);
    CHECK(parse("[a]\n[b]\n[c]\n", false, &file, &place) == GIX_CONFIG_DONE);
    CHECK(gix_config_view_file(&file, &view) == GIX_CONFIG_DONE && view.sections_len == 3);
    CHECK(view.sections[0].number == 0 && view.sections[1].number == 1 && view.sections[2].number == 2);
    CHECK(gix_config_section_remove_at(&file, 2) == GIX_CONFIG_DONE && gix_config_section_remove_at(&file, 0) == GIX_CONFIG_DONE);
    CHECK(gix_config_section_new(&file, &made) == GIX_CONFIG_DONE);
    CHECK(gix_config_view_file(&file, &view) == GIX_CONFIG_DONE && view.sections_len == 2);
    CHECK(has(&view, view.sections[0].name, "b") && view.sections[0].number == 1);
    CHECK(has(&view, view.sections[1].name, "new") && view.sections[1].number == 3);
    gix_config_file_close(&file);
    gix_config_view_free(&view);
}

static void nothing(void)
{
    gix_config_file file = { NULL };
    gix_config_place place = { 0, 0, 0 };
    gix_config_view view = { NULL, 0, NULL, 0, NULL, 0, NULL, 0, NULL };
    CHECK(gix_config_view_file(&file, &view) == GIX_CONFIG_WRONG_HANDLE && view.owner == NULL);
    CHECK(parse("k = 1\n", false, &file, &place) == GIX_CONFIG_DONE);
    CHECK(gix_config_view_file(&file, &view) == GIX_CONFIG_DONE && view.owner != NULL);
    CHECK(view.sections_len == 0 && view.entries_len == 0 && view.origins_len == 0 && view.text_len == 0);
    gix_config_file_close(&file);
    CHECK(gix_config_view_file(&file, &view) == GIX_CONFIG_WRONG_HANDLE && view.owner != NULL);
    gix_config_view_free(&view);
}

int main(void)
{
    gix_config_file file = { NULL };
    gix_config_place place = { 0, 0, 0 };
    gix_config_view view = { NULL, 0, NULL, 0, NULL, 0, NULL, 0, NULL };
    CHECK(parse(TEXT, false, &file, &place) == GIX_CONFIG_DONE);
    rows(&file, &view);
    edits(&file, &view);
    origins(&file, &view);
    gix_config_file_close(&file);
    CHECK(view.sections_len == 6 && is_section(&view, 4, "u", NULL, 7, 1));
    gix_config_view_free(&view);
    numbers();
    nothing();
    return 0;
}
