/* Each allocation that the calls ask for is refused in turn: just one call then answers 27, the others do what they do, and nothing leaks. */
#include "checking.h"
#include "refusing_heap.h"

static const char *const TEXT = "# mine\n[core]\n\teditor = vi ; was ed\n[remote \"or\\\"igin\"]\n\turl = \"a b\" c\n\turl = d\n";

/* How many of the calls were refused for want of memory. Any other error fails the test, but of calls on a handle that is empty then. */
static int refused(uint32_t answer)
{
    CHECK(answer == GIX_CONFIG_DONE || answer == GIX_CONFIG_OUT_OF_MEMORY);
    return answer == GIX_CONFIG_OUT_OF_MEMORY;
}

static int calls(bool lossy)
{
    gix_config_file file = { NULL }, other_file = { NULL };
    gix_config_list list = { NULL };
    gix_config_view view = { NULL, 0, NULL, 0, NULL, 0, NULL, 0, NULL };
    gix_config_bytes bytes = { NULL, 0, NULL }, name = { NULL, 0, NULL };
    gix_config_place place = { 0, 0, 0 };
    gix_config_key editor = key_of("core", NULL, "editor"), url = key_of("remote", "or\"igin", "url"), made = key_of("made", "x", "k");
    gix_config_section core = section_of("core", NULL), more = section_of("more", "sub"), made_section = section_of("made", "x");
    gix_config_filter all = { GIX_CONFIG_SOURCES_ALL, GIX_CONFIG_TRUST_REDUCED };
    gix_config_folders folders = { false, text_of(""), false, text_of("") };
    gix_config_layout layout;
    bool had = false;
    gix_config_layout_default(&layout);
    int count = refused(text_value(TEXT, &url, &bytes, &place)) + refused(text_values(TEXT, &url, &list, &place));
    bool boolean = false;
    int64_t integer = 0;
    gix_config_metadata user = { true, text_of("/home/ada/.gitconfig"), GIX_CONFIG_SOURCE_USER, GIX_CONFIG_TRUST_FULL };
    count += refused(boolean_parse("yes", &boolean)) + refused(integer_parse("2k", &integer));
    count += refused(parse_as(TEXT, &user, lossy, &other_file, &place));
    count += refused(parse(TEXT, lossy, &file, &place));
    if (file.at != NULL) {
        count += refused(gix_config_value(&file, &editor, &bytes));
        count += refused(gix_config_values(&file, &url, &list));
        count += refused(gix_config_values_filter(&file, &url, &all, &list));
        count += refused(gix_config_value_filter(&file, &editor, &all, &bytes));
        count += refused(gix_config_file_text_filter(&file, &all, &bytes));
        count += refused(gix_config_path(&file, &editor, &folders, &bytes));
        count += refused(gix_config_sections(&file, &list));
        count += refused(gix_config_view_file(&file, &view));
        count += refused(gix_config_normalize((const uint8_t *)TEXT, strlen(TEXT), &layout, &bytes, &place));
        count += refused(gix_config_wildmatch((const uint8_t *)"/a/**/x", 7, (const uint8_t *)"/a/b/x", 6, false, &had));
        count += refused(gix_config_file_clone(&file, &other_file));
        if (other_file.at != NULL)
            count += refused(gix_config_file_append(&other_file, &file));
        count += refused(set(&file, &editor, "emacs -nw; x", &had, &bytes));
        /* (twice, so that there is a section whether or not the first was refused) */
        count += refused(set(&file, &made, "1", &had, &bytes));
        count += refused(set(&file, &made, "2", &had, &bytes));
        count += refused(push(&file, &url, "e"));
        count += refused(gix_config_remove_value(&file, &url, &bytes));
        count += refused(gix_config_section_rename(&file, &made_section, &more));
        gix_config_line line = { text_of("n"), true, text_of("1"), true, text_of("c") };
        gix_config_assigned assigned = { text_of("n"), text_of("2") };
        count += refused(gix_config_push_line_at(&file, 0, &line));
        count += refused(gix_config_set_value_at(&file, 0, &assigned, &had, &bytes));
        static const bool marks[] = { false, true };
        gix_config_text values[] = { text_of("1 #"), text_of("2") };
        gix_config_origin origin = { 0, 0, 0, false };
        size_t removed = 0;
        count += refused(gix_config_push_below_last_at(&file, 0, &assigned));
        count += refused(gix_config_push_newline_at(&file, 0));
        count += refused(gix_config_remove_marked_at(&file, 0, (const uint8_t *)"n", 1, marks, 2, &removed));
        count += refused(gix_config_set_existing_value(&file, &editor, (const uint8_t *)"; x", 3));
        count += refused(gix_config_set_existing_values(&file, &url, values, 2));
        count += refused(gix_config_set_nth_value(&file, &url, 0, (const uint8_t *)"3;", 2));
        count += refused(gix_config_section_text(&file, 0, &bytes));
        count += refused(gix_config_delete_nth_value(&file, &url, 0));
        count += refused(gix_config_file_origin(&file, &origin, &name));
        count += refused(gix_config_remove_value_at(&file, 0, (const uint8_t *)"n", 1, &bytes));
        count += refused(gix_config_pop_value_at(&file, 0, &name, &bytes));
        count += refused(gix_config_section_set_trust_at(&file, 0, GIX_CONFIG_TRUST_REDUCED));
        count += refused(gix_config_section_rename_at(&file, 0, &core));
        count += refused(gix_config_section_new(&file, &more));
        count += refused(gix_config_section_remove(&file, &core));
        count += refused(gix_config_file_text(&file, &bytes));
    }
    gix_config_bytes_free(&name);
    gix_config_bytes_free(&bytes);
    gix_config_list_close(&list);
    gix_config_view_free(&view);
    gix_config_file_close(&file);
    gix_config_file_close(&other_file);
    return count;
}

/* A call that returns a list of entries. */
typedef uint32_t (*listing)(const gix_config_file *file, const gix_config_file *other_file, gix_config_list *list);

static uint32_t all_entries(const gix_config_file *file, const gix_config_file *other_file, gix_config_list *list)
{
    (void)other_file;
    return gix_config_entries(file, list);
}

static uint32_t entries_of_second(const gix_config_file *file, const gix_config_file *other_file, gix_config_list *list)
{
    (void)other_file;
    return gix_config_section_entries(file, 1, list);
}

/* The lists are whole, or not there. */
static int refused_list(listing call, const gix_config_file *file, const gix_config_file *other_file, size_t len, long allocation)
{
    gix_config_list list = { NULL };
    allocations = 0;
    refused_allocation = allocation;
    int count = refused(call(file, other_file, &list));
    refused_allocation = -1;
    CHECK(count == 0 ? gix_config_list_len(&list) == len : list.at == NULL);
    gix_config_list_close(&list);
    return count;
}

/* Each refused allocation is told, but those of room that is asked for ahead, without which a list is made all the same. */
static void listed(listing call, const gix_config_file *file, const gix_config_file *other_file, size_t len, long asked_ahead)
{
    CHECK(refused_list(call, file, other_file, len, -1) == 0);
    long all = allocations, count = 0;
    for (long allocation = 0; allocation < all; allocation++)
        count += refused_list(call, file, other_file, len, allocation);
    CHECK(count == all - asked_ahead);
}

/* The room for a name with capitals is asked for ahead: of each entry both names, of a difference as a name is compared, so the section's
   once for all of its entries. */
static void lists(bool lossy)
{
    gix_config_file file = { NULL }, other_file = { NULL }, capitals = { NULL };
    gix_config_place place = { 0, 0, 0 };
    CHECK(parse(TEXT, lossy, &file, &place) == GIX_CONFIG_DONE && parse("", lossy, &other_file, &place) == GIX_CONFIG_DONE);
    CHECK(parse("[Core]\n\tEditor = vi\n\tPager = less\n", lossy, &capitals, &place) == GIX_CONFIG_DONE);
    listed(all_entries, &file, &other_file, 3, 0);
    listed(entries_of_second, &file, &other_file, 2, 0);
    listed(gix_config_differences, &file, &other_file, 3, 0);
    listed(all_entries, &capitals, &other_file, 2, 4);
    listed(gix_config_differences, &capitals, &other_file, 2, 3);
    gix_config_file_close(&file);
    gix_config_file_close(&other_file);
    gix_config_file_close(&capitals);
}

int main(void)
{
    for (int lossy = 0; lossy < 2; lossy++) {
        allocations = 0;
        refused_allocation = -1;
        CHECK(calls(lossy != 0) == 0);
        long all = allocations;
        CHECK(all > 20);
        lists(lossy != 0);
        for (long allocation = 0; allocation < all; allocation++) {
            allocations = 0;
            refused_allocation = allocation;
            if (calls(lossy != 0) != 1) {
                fprintf(stderr, "allocation %ld of %ld: not just one error\n", allocation, all);
                return 1;
            }
        }
    }
    return 0;
}
