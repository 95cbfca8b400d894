/* Lines put into sections by their places, several entries removed, where a file comes from, and where a text that was told is refused. */
#include "checking.h"

static bool has_text(const gix_config_file *file, const char *wanted)
{
    gix_config_bytes text = { NULL, 0, NULL };
    bool same = gix_config_file_text(file, &text) == GIX_CONFIG_DONE && is_text(text.at, text.len, wanted);
    gix_config_bytes_free(&text);
    return same;
}

static gix_config_assigned assigned(const char *name, const char *value)
{
    gix_config_assigned made = { text_of(name), text_of(value) };
    return made;
}

static void lines(void)
{
    gix_config_file file = { NULL };
    gix_config_place place = { 0, 0, 0 };
    gix_config_assigned n = assigned("n", "a # b"), bad = assigned("n n", "x"), no_text = assigned("\xff", "x");
    CHECK(gix_config_push_below_last_at(&file, 0, &n) == GIX_CONFIG_WRONG_HANDLE && gix_config_push_newline_at(&file, 0) == GIX_CONFIG_WRONG_HANDLE);
    CHECK(parse("[a]\n\tk = 1\n# of b\n[b]\n# alone\n", false, &file, &place) == GIX_CONFIG_DONE);
    CHECK(gix_config_push_below_last_at(&file, 0, &n) == GIX_CONFIG_DONE);
    CHECK(has_text(&file, "[a]\n\tk = 1\n\tn = \"a # b\"\n# of b\n[b]\n# alone\n"));
    CHECK(gix_config_push_below_last_at(&file, 1, &n) == GIX_CONFIG_DONE && gix_config_push_newline_at(&file, 1) == GIX_CONFIG_DONE);
    CHECK(has_text(&file, "[a]\n\tk = 1\n\tn = \"a # b\"\n# of b\n[b]\n\tn = \"a # b\"\n# alone\n\n"));
    CHECK(gix_config_push_below_last_at(&file, 2, &n) == GIX_CONFIG_NOTHING_THERE && gix_config_push_newline_at(&file, 2) == GIX_CONFIG_NOTHING_THERE);
    CHECK(gix_config_push_below_last_at(&file, 0, &bad) == GIX_CONFIG_INVALID_VALUE_NAME && gix_config_push_below_last_at(&file, 0, &no_text) == GIX_CONFIG_NOT_UTF8);
    CHECK(has_text(&file, "[a]\n\tk = 1\n\tn = \"a # b\"\n# of b\n[b]\n\tn = \"a # b\"\n# alone\n\n"));
    CHECK(parse("[a]\r\n", false, &file, &place) == GIX_CONFIG_DONE && gix_config_push_newline_at(&file, 0) == GIX_CONFIG_DONE);
    CHECK(has_text(&file, "[a]\r\n\r\n"));
    gix_config_file_close(&file);
}

static void several(void)
{
    static const bool marks[] = { true, false, true };
    gix_config_file file = { NULL };
    gix_config_place place = { 0, 0, 0 };
    const uint8_t *k = (const uint8_t *)"k";
    size_t count = 7;
    CHECK(gix_config_remove_marked_at(&file, 0, k, 1, marks, 3, &count) == GIX_CONFIG_WRONG_HANDLE && count == 7);
    CHECK(parse("[a]\n\tk = 1\n\tj = x\n\tK = 2\n\tk = 3\n\tk = 4\n[a]\n\tk = 5\n", false, &file, &place) == GIX_CONFIG_DONE);
    CHECK(gix_config_remove_marked_at(&file, 2, k, 1, marks, 3, &count) == GIX_CONFIG_NOTHING_THERE && count == 7);
    CHECK(gix_config_remove_marked_at(&file, 0, (const uint8_t *)"\xff", 1, marks, 3, &count) == GIX_CONFIG_NOT_UTF8 && count == 7);
    CHECK(gix_config_remove_marked_at(&file, 0, k, 1, marks, 3, &count) == GIX_CONFIG_DONE && count == 2);
    CHECK(has_text(&file, "[a]\n\tj = x\n\tK = 2\n\tk = 4\n[a]\n\tk = 5\n"));
    CHECK(gix_config_remove_marked_at(&file, 0, k, 1, marks, 0, &count) == GIX_CONFIG_DONE && count == 0);
    CHECK(gix_config_remove_marked_at(&file, 1, k, 1, marks, 3, &count) == GIX_CONFIG_DONE && count == 1);
    CHECK(has_text(&file, "[a]\n\tj = x\n\tK = 2\n\tk = 4\n[a]\n"));
    gix_config_file_close(&file);
}

static void existing(void)
{
    gix_config_file file = { NULL };
    gix_config_place place = { 0, 0, 0 };
    gix_config_key k = key_of("a", NULL, "k"), none = key_of("a", NULL, "j"), other = key_of("b", NULL, "k"), sub = key_of("a", "s", "k");
    gix_config_key bad = key_of("a", NULL, "k k"), no_text = key_of("\xff", NULL, "k");
    gix_config_text values[] = { text_of("x"), text_of(" y"), text_of("z") };
    const uint8_t *v = (const uint8_t *)"v";
    CHECK(parse("[a]\n\tk = 1\n\tk = 2 ; two\n[a]\n", false, &file, &place) == GIX_CONFIG_DONE);
    CHECK(gix_config_set_existing_value(&file, &k, v, 1) == GIX_CONFIG_DONE && has_text(&file, "[a]\n\tk = 1\n\tk = v ; two\n[a]\n"));
    CHECK(gix_config_set_existing_value(&file, &none, v, 1) == GIX_CONFIG_KEY_MISSING && gix_config_set_existing_value(&file, &other, v, 1) == GIX_CONFIG_SECTION_MISSING);
    CHECK(gix_config_set_existing_value(&file, &sub, v, 1) == GIX_CONFIG_SUBSECTION_MISSING && gix_config_set_existing_value(&file, &bad, v, 1) == GIX_CONFIG_INVALID_VALUE_NAME);
    CHECK(gix_config_set_existing_value(&file, &no_text, v, 1) == GIX_CONFIG_NOT_UTF8);
    CHECK(gix_config_set_existing_values(&file, &none, values, 3) == GIX_CONFIG_KEY_MISSING && gix_config_set_existing_values(&file, &other, values, 3) == GIX_CONFIG_SECTION_MISSING);
    CHECK(gix_config_set_existing_values(&file, &sub, values, 3) == GIX_CONFIG_SUBSECTION_MISSING && gix_config_set_existing_values(&file, &bad, values, 3) == GIX_CONFIG_INVALID_VALUE_NAME);
    CHECK(gix_config_set_existing_values(&file, &no_text, values, 3) == GIX_CONFIG_NOT_UTF8);
    CHECK(has_text(&file, "[a]\n\tk = 1\n\tk = v ; two\n[a]\n"));
    CHECK(gix_config_set_existing_values(&file, &k, values, 3) == GIX_CONFIG_DONE && has_text(&file, "[a]\n\tk = x\n\tk = \" y\" ; two\n[a]\n"));
    CHECK(gix_config_set_existing_values(&file, &k, values, 0) == GIX_CONFIG_DONE && has_text(&file, "[a]\n\tk = x\n\tk = \" y\" ; two\n[a]\n"));
    CHECK(gix_config_set_existing_values(&file, &k, &values[2], 1) == GIX_CONFIG_DONE && has_text(&file, "[a]\n\tk = z\n\tk = \" y\" ; two\n[a]\n"));
    gix_config_file_close(&file);
}

static gix_config_includes plain(void)
{
    gix_config_includes includes = { false, false, { false, text_of(""), false, text_of("") }, false, text_of(""), text_of(""), false, text_of("") };
    return includes;
}

static uint32_t tell(gix_config_told *told, const char *path, const char *text)
{
    return gix_config_told_text(told, (const uint8_t *)path, strlen(path), (const uint8_t *)text, strlen(text));
}

static uint32_t place_in(gix_config_told *told, const char *path, gix_config_place *place)
{
    return gix_config_told_place(told, (const uint8_t *)path, strlen(path), place);
}

static void origins(void)
{
    gix_config_told told = { NULL };
    gix_config_file file = { NULL };
    gix_config_bytes path = { NULL, 0, NULL }, asked = { NULL, 0, NULL };
    gix_config_place place = { 0, 0, 0 };
    gix_config_origin origin = { 5, 6, 7, true };
    gix_config_load load = { text_of("/a"), GIX_CONFIG_SOURCE_WORKTREE, GIX_CONFIG_TRUST_REDUCED, plain() };
    CHECK(gix_config_file_origin(&file, &origin, &path) == GIX_CONFIG_WRONG_HANDLE);
    CHECK(origin.source == 5 && origin.level == 6 && origin.trust == 7 && origin.has_path && path.at == NULL);
    CHECK(gix_config_told_new(&told) == GIX_CONFIG_DONE && tell(&told, "/a", "[include]\n\tpath = b\n") == GIX_CONFIG_DONE);
    CHECK(tell(&told, "/b", "[x]\n") == GIX_CONFIG_DONE && gix_config_load_told(&told, &load, &file, &asked) == GIX_CONFIG_DONE);
    CHECK(gix_config_file_origin(&file, &origin, &path) == GIX_CONFIG_DONE && origin.has_path && is_text(path.at, path.len, "/a"));
    CHECK(origin.source == GIX_CONFIG_SOURCE_WORKTREE && origin.level == 0 && origin.trust == GIX_CONFIG_TRUST_REDUCED);
    CHECK(parse("[a]\n", false, &file, &place) == GIX_CONFIG_DONE && gix_config_file_origin(&file, &origin, &path) == GIX_CONFIG_DONE);
    CHECK(origin.source == GIX_CONFIG_SOURCE_API && origin.trust == GIX_CONFIG_TRUST_FULL && !origin.has_path && is_text(path.at, path.len, "/a"));

    /* Where a text that was told is refused: the load hands its path out. */
    CHECK(gix_config_told_new(&told) == GIX_CONFIG_DONE && tell(&told, "/a", "[include]\n\tpath = b\n") == GIX_CONFIG_DONE);
    CHECK(gix_config_load_told(&told, &load, &file, &asked) == GIX_CONFIG_NOT_TOLD && tell(&told, "/b", "[x]\n\tk = \"v\n") == GIX_CONFIG_DONE);
    CHECK(gix_config_load_told(&told, &load, &file, &asked) == GIX_CONFIG_UNEXPECTED_TOKEN && is_text(asked.at, asked.len, "/b"));
    CHECK(gix_config_told_place(&told, asked.at, asked.len, &place) == GIX_CONFIG_UNEXPECTED_TOKEN && place.line == 2 && place.column == 6 && place.offset == 9);
    CHECK(place_in(&told, "/a", &place) == GIX_CONFIG_DONE && place.line == 2 && place.column == 6 && place.offset == 9);
    CHECK(place_in(&told, "/c", &place) == GIX_CONFIG_NOTHING_THERE && place_in(&told, "\xff", &place) == GIX_CONFIG_NOT_UTF8);
    CHECK(gix_config_told_missing(&told, (const uint8_t *)"/b", 2) == GIX_CONFIG_DONE && place_in(&told, "/b", &place) == GIX_CONFIG_NOTHING_THERE);
    CHECK(place.line == 2 && place.column == 6 && place.offset == 9);

    /* Also where another file was asked for last. */
    CHECK(tell(&told, "/a", "[include]\n\tpath = c\n\tpath = b\n") == GIX_CONFIG_DONE && tell(&told, "/b", "[x]\n\tk = \"v\n") == GIX_CONFIG_DONE);
    CHECK(gix_config_load_told(&told, &load, &file, &asked) == GIX_CONFIG_NOT_TOLD && is_text(asked.at, asked.len, "/c"));
    CHECK(tell(&told, "/c", "[y]\n") == GIX_CONFIG_DONE && gix_config_load_told(&told, &load, &file, &asked) == GIX_CONFIG_UNEXPECTED_TOKEN && is_text(asked.at, asked.len, "/b"));
    CHECK(tell(&told, "/a", "[x]\n\tk = \"v\n") == GIX_CONFIG_DONE && gix_config_load_told(&told, &load, &file, &asked) == GIX_CONFIG_UNEXPECTED_TOKEN && is_text(asked.at, asked.len, "/a"));
    gix_config_told_close(&told);
    CHECK(place_in(&told, "/a", &place) == GIX_CONFIG_WRONG_HANDLE);
    gix_config_bytes_free(&asked);
    gix_config_bytes_free(&path);
    gix_config_file_close(&file);
}

/* One of a key's entries by its index, among those of all sections of its names. */
static void one_of_several(void)
{
    static const char changed[] = "[a]\n\tk = 1 ; one\n\tk = two\n[b]\n[A]\n\tk = x y\n";
    gix_config_file file = { NULL };
    gix_config_place place = { 0, 0, 0 };
    gix_config_key k = key_of("a", NULL, "k"), none = key_of("a", NULL, "j"), other = key_of("c", NULL, "k"), sub = key_of("a", "s", "k");
    gix_config_key bad = key_of("a", NULL, "k k"), no_text = key_of("a", NULL, "\xff");
    const uint8_t *v = (const uint8_t *)"v";
    CHECK(gix_config_set_nth_value(&file, &k, 0, v, 1) == GIX_CONFIG_WRONG_HANDLE && gix_config_delete_nth_value(&file, &k, 0) == GIX_CONFIG_WRONG_HANDLE);
    CHECK(parse("[a]\n\tk = 1 ; one\n\tK\n[b]\n[A]\n\tk = 3\n", false, &file, &place) == GIX_CONFIG_DONE);
    CHECK(gix_config_set_nth_value(&file, &k, 1, (const uint8_t *)"two", 3) == GIX_CONFIG_DONE);
    CHECK(gix_config_set_nth_value(&file, &k, 2, (const uint8_t *)"x y", 3) == GIX_CONFIG_DONE && has_text(&file, changed));
    CHECK(gix_config_set_nth_value(&file, &k, 3, v, 1) == GIX_CONFIG_NOTHING_THERE && gix_config_delete_nth_value(&file, &k, 3) == GIX_CONFIG_NOTHING_THERE);
    CHECK(gix_config_set_nth_value(&file, &none, 0, v, 1) == GIX_CONFIG_KEY_MISSING && gix_config_delete_nth_value(&file, &none, 0) == GIX_CONFIG_KEY_MISSING);
    CHECK(gix_config_set_nth_value(&file, &other, 0, v, 1) == GIX_CONFIG_SECTION_MISSING && gix_config_delete_nth_value(&file, &other, 0) == GIX_CONFIG_SECTION_MISSING);
    CHECK(gix_config_set_nth_value(&file, &sub, 0, v, 1) == GIX_CONFIG_SUBSECTION_MISSING && gix_config_delete_nth_value(&file, &sub, 0) == GIX_CONFIG_SUBSECTION_MISSING);
    CHECK(gix_config_set_nth_value(&file, &bad, 0, v, 1) == GIX_CONFIG_INVALID_VALUE_NAME && gix_config_delete_nth_value(&file, &bad, 0) == GIX_CONFIG_INVALID_VALUE_NAME);
    CHECK(gix_config_set_nth_value(&file, &no_text, 0, v, 1) == GIX_CONFIG_NOT_UTF8 && gix_config_delete_nth_value(&file, &no_text, 0) == GIX_CONFIG_NOT_UTF8);
    CHECK(has_text(&file, changed));
    CHECK(gix_config_delete_nth_value(&file, &k, 0) == GIX_CONFIG_DONE && has_text(&file, "[a]\n\t ; one\n\tk = two\n[b]\n[A]\n\tk = x y\n"));
    CHECK(gix_config_delete_nth_value(&file, &k, 1) == GIX_CONFIG_DONE && has_text(&file, "[a]\n\t ; one\n\tk = two\n[b]\n[A]\n\t\n"));
    gix_config_file_close(&file);
}

/* The text of a section: all that stands up to the next header. */
static void texts_of_sections(void)
{
    gix_config_file file = { NULL };
    gix_config_place place = { 0, 0, 0 };
    gix_config_bytes text = { NULL, 0, NULL };
    CHECK(gix_config_section_text(&file, 0, &text) == GIX_CONFIG_WRONG_HANDLE && text.owner == NULL);
    CHECK(parse("# front\n[a]\n\tk = 1\n\n# c\n[b \"x\"]", false, &file, &place) == GIX_CONFIG_DONE);
    CHECK(gix_config_section_text(&file, 0, &text) == GIX_CONFIG_DONE && is_text(text.at, text.len, "[a]\n\tk = 1\n\n# c\n"));
    CHECK(gix_config_section_text(&file, 1, &text) == GIX_CONFIG_DONE && is_text(text.at, text.len, "[b \"x\"]"));
    CHECK(gix_config_section_text(&file, 2, &text) == GIX_CONFIG_NOTHING_THERE && is_text(text.at, text.len, "[b \"x\"]"));
    gix_config_bytes_free(&text);
    gix_config_file_close(&file);
}

int main(void)
{
    lines();
    several();
    existing();
    one_of_several();
    texts_of_sections();
    origins();
    return 0;
}
