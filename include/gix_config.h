/* Git's configuration files for programs in C.
 *
 * Each call answers a number: 0 when it is done, that of an error (docs/refusals.md), or another of those below.
 * What a call does is said by its contract for every content of every handle, also an empty one or one that
 * holds something else.
 *
 * Made by tools/c_header of crates/gix_config_c. docs/c.md says what a program owes. */
#ifndef GIX_CONFIG_H
#define GIX_CONFIG_H

#include <stdbool.h>
#include <stddef.h>
#include <stdint.h>

/* The version of this header; gix_config_version tells that of the library. */
#define GIX_CONFIG_VERSION "0.1.0"
#define GIX_CONFIG_VERSION_MAJOR 0
#define GIX_CONFIG_VERSION_MINOR 1
#define GIX_CONFIG_VERSION_PATCH 0

#ifdef __cplusplus
extern "C" {
#endif

/* The numbers that calls answer. Up to 27 they are those of docs/refusals.md; no call answers 10 or 28. */
enum {
    /* The call is done. */
    GIX_CONFIG_DONE = 0,
    /* A text can't be read on at some place. */
    GIX_CONFIG_UNEXPECTED_TOKEN = 1,
    /* A text has more than 4294967295 bytes. */
    GIX_CONFIG_INPUT_TOO_LARGE = 2,
    /* The file would have more than 4294967295 bytes, or more sections than there are numbers. */
    GIX_CONFIG_SPAN_TOO_LARGE = 3,
    /* The name can't be that of a section that is made. */
    GIX_CONFIG_INVALID_SECTION_NAME = 4,
    /* The name can't be that of a subsection that is made. */
    GIX_CONFIG_INVALID_SUBSECTION = 5,
    /* The name can't be that of a value. */
    GIX_CONFIG_INVALID_VALUE_NAME = 6,
    /* No section has the name. */
    GIX_CONFIG_SECTION_MISSING = 7,
    /* No section of the name has the subsection. */
    GIX_CONFIG_SUBSECTION_MISSING = 8,
    /* The sections have no such value. */
    GIX_CONFIG_KEY_MISSING = 9,
    /* The value is not of the type asked for, or 64 bits don't hold it. */
    GIX_CONFIG_BAD_VALUE = 11,
    /* A path needs a directory that is not known, or is empty. */
    GIX_CONFIG_MISSING_FOLDER = 12,
    /* A path is not UTF-8. */
    GIX_CONFIG_PATH_NOT_UTF8 = 13,
    /* The name of a path's user is not UTF-8. */
    GIX_CONFIG_USER_NOT_UTF8 = 14,
    /* Files include each other too deeply. */
    GIX_CONFIG_INCLUDE_DEPTH_EXCEEDED = 15,
    /* The path of an include is relative, and its file has no path. */
    GIX_CONFIG_MISSING_CONFIG_PATH = 16,
    /* The condition of an include is about a repository, and there is none. */
    GIX_CONFIG_MISSING_GIT_DIR = 17,
    /* The repository's directory can't be resolved. */
    GIX_CONFIG_REALPATH = 18,
    /* A file that is included can't be opened. */
    GIX_CONFIG_INCLUDE_NOT_OPENED = 19,
    /* A file that is included can't be read. */
    GIX_CONFIG_INCLUDE_NOT_READ = 20,
    /* A file that is loaded can't be opened or read. */
    GIX_CONFIG_FILE_NOT_READ = 21,
    /* The key or the value that variables of the environment set is not UTF-8. */
    GIX_CONFIG_ILLFORMED_VARIABLE = 22,
    /* `GIT_CONFIG_COUNT` is no number. */
    GIX_CONFIG_INVALID_CONFIG_COUNT = 23,
    /* The variable of a key, such as `GIT_CONFIG_KEY_0`, is not set. */
    GIX_CONFIG_INVALID_KEY_ID = 24,
    /* The key that a variable sets has no dot. */
    GIX_CONFIG_INVALID_KEY_VALUE = 25,
    /* The variable of a value, such as `GIT_CONFIG_VALUE_0`, is not set. */
    GIX_CONFIG_INVALID_VALUE_ID = 26,
    /* Out of memory. */
    GIX_CONFIG_OUT_OF_MEMORY = 27,
    /* There is no such thing. */
    GIX_CONFIG_NOTHING_THERE = 100,
    /* A name is not UTF-8. */
    GIX_CONFIG_NOT_UTF8 = 101,
    /* The handle is empty, or holds something else. */
    GIX_CONFIG_WRONG_HANDLE = 102,
    /* Nothing was told of a file that is needed: tell it, and call again. */
    GIX_CONFIG_NOT_TOLD = 103,
    /* No source, or no trust, has the number. */
    GIX_CONFIG_NO_SUCH_NUMBER = 104,
    /* Nothing was told of a variable that is needed: tell it, and call again. */
    GIX_CONFIG_VARIABLE_NOT_TOLD = 105
};

/* Where sections come from, and how far that is trusted. The numbers of sources add up. */
enum {
    /* The configuration that was installed with git. */
    GIX_CONFIG_SOURCE_GIT_INSTALLATION = 1,
    /* The configuration of the whole machine. */
    GIX_CONFIG_SOURCE_SYSTEM = 2,
    /* The user's configuration in `git/config` of the directory for configuration. */
    GIX_CONFIG_SOURCE_GIT = 4,
    /* The user's configuration in `.gitconfig` of the home directory. */
    GIX_CONFIG_SOURCE_USER = 8,
    /* The repository's configuration. */
    GIX_CONFIG_SOURCE_LOCAL = 16,
    /* The configuration of one worktree. */
    GIX_CONFIG_SOURCE_WORKTREE = 32,
    /* Variables of the environment. */
    GIX_CONFIG_SOURCE_ENV = 64,
    /* Options of the command line. */
    GIX_CONFIG_SOURCE_CLI = 128,
    /* The calling program: also a text that it parses. */
    GIX_CONFIG_SOURCE_API = 256,
    /* Variables of the environment that override everything else. */
    GIX_CONFIG_SOURCE_ENV_OVERRIDE = 512,
    /* All of these. */
    GIX_CONFIG_SOURCES_ALL = 1023,
    /* Someone else owns the file. */
    GIX_CONFIG_TRUST_REDUCED = 0,
    /* Who runs the program owns the file, or it comes from none. */
    GIX_CONFIG_TRUST_FULL = 1
};

/* A place for a file, {0} at first. It is never copied, and closed with gix_config_file_close. */
typedef struct gix_config_file {
    void *at;
} gix_config_file;

/* A place for a list of texts, entries, sections or differences, {0} at first. It is never copied, and closed
 * with gix_config_list_close. */
typedef struct gix_config_list {
    void *at;
} gix_config_list;

/* A place for what a program tells of files and of variables, {0} at first. It is never copied, and closed with
 * gix_config_told_close. */
typedef struct gix_config_told {
    void *at;
} gix_config_told;

/* Bytes that are the program's to read until it frees them. {0} at first; never copied; freed with
 * gix_config_bytes_free. */
typedef struct gix_config_bytes {
    /* Where they lie. */
    const uint8_t *at;
    /* How many they are. */
    size_t len;
    /* Their owner. */
    void *owner;
} gix_config_bytes;

/* Bytes that lie in a handle, until it is edited or closed. */
typedef struct gix_config_text {
    /* Where they lie. */
    const uint8_t *at;
    /* How many they are. */
    size_t len;
} gix_config_text;

/* The names of a value: its section's, its subsection's if there is one, and its own. */
typedef struct gix_config_key {
    /* The section's name. */
    gix_config_text section;
    /* Whether there is a subsection. */
    bool has_subsection;
    /* The subsection's name, if there is one. */
    gix_config_text subsection;
    /* The value's name. */
    gix_config_text name;
} gix_config_key;

/* The names of a section: its own, and its subsection's if there is one. */
typedef struct gix_config_section {
    /* The section's name. */
    gix_config_text name;
    /* Whether there is a subsection. */
    bool has_subsection;
    /* The subsection's name, if there is one. */
    gix_config_text subsection;
} gix_config_section;

/* Where the parts of an entry lie: in the list that it was taken from, until that is closed. */
typedef struct gix_config_entry {
    /* The section's name, in lower case. */
    gix_config_text section;
    /* Whether there is a subsection. */
    bool has_subsection;
    /* The subsection's name, if there is one. */
    gix_config_text subsection;
    /* The entry's own name, in lower case. */
    gix_config_text name;
    /* Whether there is a value: not for an entry without `=`. */
    bool has_value;
    /* What the value means, if there is one. */
    gix_config_text value;
} gix_config_entry;

/* Where the names of a section lie: in the list that it was taken from, until that is closed. And where the
 * section comes from. */
typedef struct gix_config_listed_section {
    /* The name, as it is spelled. */
    gix_config_text name;
    /* Whether there is a subsection. */
    bool has_subsection;
    /* The subsection's name, if there is one. */
    gix_config_text subsection;
    /* Whether it comes from a file with a path. */
    bool has_path;
    /* The path of its file, if there is one. */
    gix_config_text path;
    /* The place that it was read from: one of the sources' numbers. */
    uint32_t source;
    /* How many includes led to its file: 0 for a file that was not included. */
    uint32_t level;
    /* How far it is trusted: one of the numbers of trust. */
    uint32_t trust;
    /* How many entries it has. */
    size_t entries;
} gix_config_listed_section;

/* Where the parts of a difference lie: in the list that it was taken from, until that is closed. */
typedef struct gix_config_difference {
    /* Whether the entry is the second file's. */
    bool is_other;
    /* The entry. */
    gix_config_entry entry;
} gix_config_difference;

/* Where a text can't be read on. */
typedef struct gix_config_place {
    /* The line, from 1. */
    size_t line;
    /* The column in bytes, from 1. */
    size_t column;
    /* How many bytes are before it. */
    size_t offset;
} gix_config_place;

/* Which sections are asked: those of some sources that are trusted enough. */
typedef struct gix_config_filter {
    /* The sources, as the sum of their numbers. */
    uint32_t sources;
    /* The least trust. */
    uint32_t least_trust;
} gix_config_filter;

/* The directories that the shorthands of paths stand for. One that is not known refuses the paths that need it. */
typedef struct gix_config_folders {
    /* Whether it is known where git is installed. */
    bool has_installation;
    /* The directory where git is installed, for `%(prefix)/`. */
    gix_config_text installation;
    /* Whether the user's home directory is known. */
    bool has_home;
    /* The user's home directory, for `~/`. */
    gix_config_text home;
} gix_config_folders;

/* How a text is formatted. gix_config_layout_default fills it. */
typedef struct gix_config_layout {
    /* Whether whitespace stays before comments on lines of their own before the first header. */
    bool keeps_root_blanks;
    /* If they don't stay: whether tabs come in their place, else spaces. */
    bool has_root_tabs;
    /* And how many. */
    size_t root_indent;
    /* Whether tabs come before what begins a line after a header, else spaces. That is a name or a comment. */
    bool has_tabs;
    /* And how many. */
    size_t indent;
    /* Whether there is a space on either side of `=`. */
    bool spaces_around_separator;
    /* Whether lines end as the first line of the text does. */
    bool detects_newline;
    /* If not: whether they end with CR and LF, else with LF. */
    bool is_crlf;
    /* Whether a text that isn't empty ends with one line ending. */
    bool ensures_trailing_newline;
    /* Whether blank lines before the first line that isn't blank are limited. */
    bool limits_leading_blank_lines;
    /* How many stay then. */
    size_t max_leading_blank_lines;
    /* Whether blank lines that stand together after that line are limited. */
    bool limits_blank_lines;
    /* How many stay then. */
    size_t max_blank_lines;
} gix_config_layout;

/* How includes are followed: ten files deep; deeper ones are refused, and so is a path relative to the directory
 * of a file that has no path. */
typedef struct gix_config_includes {
    /* Whether an include that lacks something is refused; else it is left out. That is a path whose shorthand
     * stands for nothing, or a condition on the repository's directory if there is no repository. */
    bool strict;
    /* Whether whitespace, line endings and comments of the files that are read are left out. */
    bool lossy;
    /* The directories that the shorthands of paths stand for. */
    gix_config_folders folders;
    /* Whether there is a repository. */
    bool has_git_folder;
    /* The directory of the repository, for the conditions `gitdir:` and `gitdir/i:`. */
    gix_config_text git_folder;
    /* The same directory, with its symbolic links resolved. */
    gix_config_text real_git_folder;
    /* Whether there is a branch. */
    bool has_branch;
    /* The full name of the branch, as `refs/heads/main`, for the condition `onbranch:`. */
    gix_config_text branch;
} gix_config_includes;

/* Which file is loaded, and how includes are followed. */
typedef struct gix_config_load {
    /* Its path. */
    gix_config_text path;
    /* The place that it stands for: one of the sources' numbers. */
    uint32_t source;
    /* How far it is trusted: one of the numbers of trust. */
    uint32_t trust;
    /* How includes are followed. */
    gix_config_includes includes;
} gix_config_load;

/* Where a text comes from that is parsed: its sections come from there, too. */
typedef struct gix_config_metadata {
    /* Whether it is that of a file with a path. */
    bool has_path;
    /* The path of its file, if there is one: that of an include is relative to its directory. */
    gix_config_text path;
    /* The place that it stands for: one of the sources' numbers. */
    uint32_t source;
    /* How far it is trusted: one of the numbers of trust. */
    uint32_t trust;
} gix_config_metadata;

/* The places of configuration that a program knows: what variables of the environment say comes before it. */
typedef struct gix_config_places {
    /* Whether there is configuration that was installed with git. */
    bool has_installation;
    /* Its path, if there is some. */
    gix_config_text installation;
    /* The directory that `etc/gitconfig` is in, the configuration of the whole machine: `/` for most. */
    gix_config_text system_prefix;
    /* Whether the user's home directory is known. */
    bool has_home;
    /* The user's home directory, for `~/` in the paths of includes. */
    gix_config_text home;
} gix_config_places;

/* A repository: its directories, and the places of configuration besides. */
typedef struct gix_config_repository {
    /* The directory of the repository, such as `/home/ada/project/.git`: its configuration is in the file
     * `config` there. */
    gix_config_text git_folder;
    /* The same directory, with its symbolic links resolved. */
    gix_config_text real_git_folder;
    /* The places of configuration. */
    gix_config_places places;
} gix_config_repository;

/* Where a whole file comes from. */
typedef struct gix_config_origin {
    /* The place that it was read from: one of the sources' numbers. */
    uint32_t source;
    /* How many includes led to it: 0 for a file that was not included. */
    uint32_t level;
    /* How far it is trusted: one of the numbers of trust. */
    uint32_t trust;
    /* Whether it has a path. */
    bool has_path;
} gix_config_origin;

/* A line of a section: a name, with a value, a comment behind it, both or none. */
typedef struct gix_config_line {
    /* The name. */
    gix_config_text name;
    /* Whether there is a value: without one the line is the name alone, which is true as a boolean. */
    bool has_value;
    /* The value, if there is one. */
    gix_config_text value;
    /* Whether there is a comment. */
    bool has_comment;
    /* The comment, if there is one, without its mark. */
    gix_config_text comment;
} gix_config_line;

/* A name with its value. */
typedef struct gix_config_assigned {
    /* The name. */
    gix_config_text name;
    /* The value. */
    gix_config_text value;
} gix_config_assigned;

/* Where some bytes lie in the text of a view. A zero byte is behind them, which they don't count. */
typedef struct gix_config_part {
    /* The place of the first one, from 0. */
    size_t at;
    /* How many they are. */
    size_t len;
} gix_config_part;

/* An entry in a view. */
typedef struct gix_config_entry_row {
    /* Its name, as it is spelled. */
    gix_config_part name;
    /* What the value means, if there is one. */
    gix_config_part value;
    /* Whether there is a value: not for an entry without `=`. */
    bool has_value;
} gix_config_entry_row;

/* Where sections in a view come from. */
typedef struct gix_config_origin_row {
    /* The path of their file, if there is one. */
    gix_config_part path;
    /* Whether they come from a file with a path. */
    bool has_path;
    /* The place that they were read from: one of the sources' numbers. */
    uint32_t source;
    /* How many includes led to their file: 0 for a file that was not included. */
    uint32_t level;
    /* How far they are trusted: one of the numbers of trust. */
    uint32_t trust;
} gix_config_origin_row;

/* A section in a view. */
typedef struct gix_config_section_row {
    /* Its name, as it is spelled. */
    gix_config_part name;
    /* The subsection's name, if there is one. */
    gix_config_part subsection;
    /* Whether there is a subsection. */
    bool has_subsection;
    /* The place of its origin among the view's, from 0. */
    size_t origin;
    /* The place of its first entry among the view's, from 0. */
    size_t entries_at;
    /* How many entries it has: they stand one after the other. */
    size_t entries_len;
    /* Its number in its file. It stays whatever is added or removed around the section, and no other section
     * gets it. */
    size_t number;
} gix_config_section_row;

/* All sections and entries of a file as it was when the view was made. They are the program's to read until it
 * frees the view. {0} at first; never copied; freed with gix_config_view_free. */
typedef struct gix_config_view {
    /* The sections, in order. */
    const gix_config_section_row *sections;
    /* How many they are. */
    size_t sections_len;
    /* The entries of all sections, in order. */
    const gix_config_entry_row *entries;
    /* How many they are. */
    size_t entries_len;
    /* Where sections come from. */
    const gix_config_origin_row *origins;
    /* How many they are. */
    size_t origins_len;
    /* The bytes of names, values and paths, each with a zero byte behind it. */
    const uint8_t *text;
    /* How many they are. */
    size_t text_len;
    /* The owner of all these. */
    void *owner;
} gix_config_view;

/* Appends a copy of another file. Its sections come after those of the file, and what is before its first
 * section after the file's last. The other file stays as it is.
 *
 * 3 if the file would be too long. 102 if a handle has no file, 27 when out of memory. The file is then as it
 * was. */
uint32_t gix_config_file_append(gix_config_file *file, const gix_config_file *other_file);

/* Tells whether two files are equal: the same sections in order, with the same keys that mean the same. Names
 * are compared without ASCII case. Comments, whitespace, what comes before the first section and where sections
 * come from aren't compared.
 *
 * 102 if a handle has no file; the boolean is then as it was. */
uint32_t gix_config_file_equal(const gix_config_file *file, const gix_config_file *other_file, bool *equal);

/* Returns what two files say differently, sorted by key. Of each key of which they say different things it is
 * the entries of the file, in order, and then those of the other file. What was in the list's handle is closed.
 * The list is empty if and only if both say the same of every key: their entries of it mean the same in order,
 * and look-ups of it find the same value.
 *
 * 102 if a handle of a file has none, 27 when out of memory; the list's handle is then as it was. */
uint32_t gix_config_differences(const gix_config_file *file, const gix_config_file *other_file,
    gix_config_list *list);

/* Tells where the parts of a difference of a list lie, counted from 0. They lie there until the list is closed.
 *
 * 100 for a number past the end, 102 if the handle has no list of differences; the place is then as it was. */
uint32_t gix_config_list_difference(const gix_config_list *list, size_t index,
    gix_config_difference *difference);

/* Adds an entry to the last section of the key's names. It comes after all others that the section has, also if
 * one of them has its name. Without a value it is the name alone, which is true as a boolean.
 *
 * 7 or 8 if there is no such section, 6 for a name that can't be a value's, 3 if the file would be too long. 101
 * if the section's or the value's name is not UTF-8, 102 if the handle has no file, 27 when out of memory. The
 * file is then as it was. */
uint32_t gix_config_push_value(gix_config_file *file, const gix_config_key *key, bool has_value,
    const uint8_t *value, size_t value_len);

/* Removes the last entry of the key's name from the key's last section. That is the last section of the key's
 * names. The whitespace before the entry and the line endings after it are removed, too. Returns the raw text of
 * its value. What the block had is freed.
 *
 * 7 or 8 if there is no such section, 100 if it has no such entry, so that there is none to remove. 101 if the
 * section's or the value's name is not UTF-8, 102 if the handle has no file, 27 when out of memory; the file is
 * then as it was. The block is so after any number but 0. */
uint32_t gix_config_remove_value(gix_config_file *file, const gix_config_key *key, gix_config_bytes *old);

/* Returns all entries of a file, in order, in one pass. What was in the list's handle is closed. Entries before
 * the first section are not among them: no key names them.
 *
 * 102 if the handle has no file, 27 when out of memory; the list's handle is then as it was. */
uint32_t gix_config_entries(const gix_config_file *file, gix_config_list *list);

/* Tells where the parts of an entry of a list lie, counted from 0. They lie there until the list is closed.
 *
 * 100 for a number past the end, 102 if the handle has no list of entries; the place is then as it was. */
uint32_t gix_config_list_entry(const gix_config_list *list, size_t index, gix_config_entry *entry);

/* Loads the file of the entries that variables of the environment set. These are `GIT_CONFIG_COUNT`,
 * `GIT_CONFIG_KEY_0`, `GIT_CONFIG_VALUE_0` and so on. The file is loaded with what it includes, from what a
 * program told of variables and of files. What was in the file's handle before is closed.
 *
 * 100 if they set none. 105 if nothing was told of a variable that is needed, 103 if nothing was told of a file
 * that is included: its name or path is then in the block, whose bytes from before are freed; tell it, and call
 * again. 23 for a count that is no number; of an entry whose key or value isn't set 24 or 26, or isn't UTF-8 22,
 * and 25 for a key without a dot: the name of the variable is then in the block, too. 4, 5 and 6 for names that
 * can't be written into a file. 19 or 20 if a file that is included was told to have a fault, 1 or 2 if the text
 * of one is refused: its path is then in the block. 3 and 12 to 18 if an include is refused. 101 if a text that
 * has to be UTF-8 isn't, 102 if the handle is not one for what is told, 27 when out of memory. The file's handle
 * is as it was after any number but 0, and the block after any but 1, 2, 19, 20, 22 to 26, 103 and 105. */
uint32_t gix_config_load_env_told(const gix_config_told *told, const gix_config_includes *includes,
    gix_config_file *file, gix_config_bytes *asked);

/* Gives the last entry of a key another value. It is that of the last section of the key's names that has one.
 * No entry is made.
 *
 * 7 or 8 if there is no such section, 6 for a name that can't be a value's, 9 if none of the sections has such
 * an entry, 3 if the file would be too long. 101 if the section's or the value's name is not UTF-8, 102 if the
 * handle has no file, 27 when out of memory. The file is then as it was. */
uint32_t gix_config_set_existing_value(gix_config_file *file, const gix_config_key *key, const uint8_t *value,
    size_t value_len);

/* Gives the entries of a key other values, one after the other. The first entry gets the first value, and so on,
 * up to the end of the shorter list. The entries are those in all sections of the key's names, in the order in
 * which these were made. No entry is made.
 *
 * 7 or 8 if there is no such section, 6 for a name that can't be a value's, 9 if none of the sections has such
 * an entry: the file is then as it was. 3 if the file would be too long, 27 when out of memory: the entries
 * before the one that was refused then have their values. 101 if the section's or the value's name is not UTF-8,
 * 102 if the handle has no file. */
uint32_t gix_config_set_existing_values(gix_config_file *file, const gix_config_key *key,
    const gix_config_text *values, size_t values_len);

/* Returns the text of a file. What the block had is freed.
 *
 * 102 if the handle has no file, 27 when out of memory; the block is then as it was. */
uint32_t gix_config_file_text(const gix_config_file *file, gix_config_bytes *text);

/* Frees the bytes of a block, and leaves it empty; an empty one stays empty. */
void gix_config_bytes_free(gix_config_bytes *bytes);

/* Tells in words what the number of an error says. The text stays for good; it is empty for a number that no
 * call answers. */
void gix_config_refusal_text(uint32_t number, gix_config_text *text);

/* Like gix_config_value, but in the sections that the filter keeps. The numbers 7 and 8 are those of
 * gix_config_value, and 9 is also that none of the sections that are kept has such a value. */
uint32_t gix_config_value_filter(const gix_config_file *file, const gix_config_key *key,
    const gix_config_filter *filter, gix_config_bytes *value);

/* Like gix_config_values, but in the sections that the filter keeps. The numbers are those of
 * gix_config_value_filter. */
uint32_t gix_config_values_filter(const gix_config_file *file, const gix_config_key *key,
    const gix_config_filter *filter, gix_config_list *list);

/* Like gix_config_boolean, but in the sections that the filter keeps. The numbers are the same. */
uint32_t gix_config_boolean_filter(const gix_config_file *file, const gix_config_key *key,
    const gix_config_filter *filter, bool *value);

/* Like gix_config_integer, but in the sections that the filter keeps. The numbers are the same. */
uint32_t gix_config_integer_filter(const gix_config_file *file, const gix_config_key *key,
    const gix_config_filter *filter, int64_t *value);

/* Returns the text of the front and the sections that the filter keeps. The front is what comes before the first
 * section. What the block had is freed.
 *
 * 102 if the handle has no file, 27 when out of memory; the block is then as it was. */
uint32_t gix_config_file_text_filter(const gix_config_file *file, const gix_config_filter *filter,
    gix_config_bytes *text);

/* Loads the configuration of the machine and of the user. It is loaded from what a program told of files and of
 * variables: the files that were installed with git, of the machine, and the user's two, in this order, each
 * with what it includes; an empty file if there is none. What was in the file's handle before is closed.
 *
 * 105 if nothing was told of a variable that says where these files are, 103 if nothing was told of a file that
 * is needed: its name or path is then in the block, whose bytes from before are freed; tell it, and call again.
 * 21 if one of these files, and 19 or 20 if one that is included, was told to have a fault; 1 or 2 if the text
 * of one is refused: its path is then in the block, too. 3 and 12 to 18 if a file or its includes are refused.
 * 101 if a place is not UTF-8, 102 if the handle is not one for what is told, 27 when out of memory. The file's
 * handle is as it was after any number but 0, and the block after any but 1, 2, 19 to 21, 103 and 105. */
uint32_t gix_config_load_globals_told(const gix_config_told *told, const gix_config_places *places,
    gix_config_file *file, gix_config_bytes *asked);

/* Fills in the usual layout: a tab before names, ` = `, the line ending of the text, one line ending at the end,
 * and all blank lines. */
void gix_config_layout_default(gix_config_layout *layout);

/* Returns a formatted text: its lines written again, with the same sections, entries and comments. What the
 * block had is freed.
 *
 * 1 for a text that can't be read on at some place, 2 for one of more than 4294967295 bytes; then the place says
 * where, else it is as it was. 27 when out of memory. The block is as it was after any number but 0. */
uint32_t gix_config_normalize(const uint8_t *text, size_t text_len, const gix_config_layout *layout,
    gix_config_bytes *laid_out, gix_config_place *place);

/* Tells whether a path pattern matches a text, as in the conditions of includes. With `ignore_case` letters are
 * compared without ASCII case.
 *
 * 27 when out of memory; the boolean is then as it was. */
uint32_t gix_config_wildmatch(const uint8_t *pattern, size_t pattern_len, const uint8_t *text,
    size_t text_len, bool ignore_case, bool *is_match);

/* Adds an entry to the section at a place, below its last entry. The place is counted from 0. If the section has
 * no entry, the new one comes below the header. Comments and blank lines behind the last entry, or behind the
 * header, stay behind the new one. It is where `git config` puts a new entry.
 *
 * 100 if there is no such section, 6 for a name that can't be a value's, 3 if the file would be too long. 101 if
 * the name is not UTF-8, 102 if the handle has no file, 27 when out of memory. The file is then as it was. */
uint32_t gix_config_push_below_last_at(gix_config_file *file, size_t place,
    const gix_config_assigned *assigned);

/* Adds a line ending to the section at a place, after all that it has. The place is counted from 0, and the line
 * ending is the file's: a blank line.
 *
 * 100 if there is no such section, 3 if the file would be too long. 102 if the handle has no file, 27 when out
 * of memory. The file is then as it was. */
uint32_t gix_config_push_newline_at(gix_config_file *file, size_t place);

/* Removes the marked entries of a name from the section at a place. The place is counted from 0. The first of
 * the section's entries of the name goes if the first mark is true, and so on; those behind the last mark stay.
 * Each goes with the whitespace before it and the line endings after it. Tells how many went.
 *
 * 100 if there is no such section. 101 if the name is not UTF-8, 102 if the handle has no file, 27 when out of
 * memory; the file is then as it was, and so is the count. */
uint32_t gix_config_remove_marked_at(gix_config_file *file, size_t place, const uint8_t *name,
    size_t name_len, const bool *marks, size_t marks_len, size_t *count);

/* Tells how many texts, entries, sections or differences are in a list: 0 if the handle has no list. */
size_t gix_config_list_len(const gix_config_list *list);

/* Tells where a text of a list lies, counted from 0. It lies there until the list is closed.
 *
 * 100 for a number past the end, 102 if the handle has no list of texts; the place is then as it was. */
uint32_t gix_config_list_at(const gix_config_list *list, size_t index, gix_config_text *text);

/* Closes a list; an empty handle stays empty. */
void gix_config_list_close(gix_config_list *list);

/* Loads a file by its path, with what it includes, from what a program told. What was in the file's handle
 * before is closed.
 *
 * 103 if the load needs a file of which nothing was told: its path is then in the block, whose bytes from before
 * are freed; tell it, and call again. 21 if the file itself, and 19 or 20 if one that is included, was told to
 * have a fault; 1 or 2 if the text of one is refused: the file's path is then in the block, too. 3 and 12 to 18
 * if the file or its includes are refused, 100 if there is nothing to load. 101 if a text that has to be UTF-8
 * isn't, 104 if no source or trust has the number, 102 if the handle is not one for what is told, 27 when out of
 * memory. The file's handle is as it was after any number but 0, and the block after any but 1, 2, 19 to 21 and
 * 103. */
uint32_t gix_config_load_told(const gix_config_told *told, const gix_config_load *load, gix_config_file *file,
    gix_config_bytes *path);

/* Reads the files that a file's sections include, from what a program told. Each is put after the section that
 * includes it.
 *
 * 103 if a file is needed of which nothing was told: its path is then in the block, whose bytes from before are
 * freed; tell it, and call again. 19 or 20 if one was told to have a fault, 1 or 2 if the text of one is
 * refused: its path is then in the block, too. 3 and 12 to 18 if an include is refused. 101 if a text that has
 * to be UTF-8 isn't, 102 if a handle is not one for what is told or has no file, 27 when out of memory. The file
 * is as it was after any number but 0, and the block after any but 1, 2, 19 to 21 and 103. */
uint32_t gix_config_resolve_includes_told(const gix_config_told *told, gix_config_file *file,
    const gix_config_includes *includes, gix_config_bytes *path);

/* Returns what the last value of a key means. What the block had is freed.
 *
 * 7, 8 or 9 if there is none: no section has the name, none of these has the subsection, or these have no such
 * value. 101 if the section's or the value's name is not UTF-8, 102 if the handle has no file, 27 when out of
 * memory. The block is then as it was. */
uint32_t gix_config_value(const gix_config_file *file, const gix_config_key *key, gix_config_bytes *value);

/* Returns what all values of a key mean, one or more, in file order. What was in the list's handle is closed.
 *
 * The numbers of gix_config_value; the list's handle is then as it was. */
uint32_t gix_config_values(const gix_config_file *file, const gix_config_key *key, gix_config_list *list);

/* Tells what the last value of a key means as a boolean. An entry without `=` is true.
 *
 * 100 if there is no entry, 11 for a value that is no boolean. 101 if the section's or the value's name is not
 * UTF-8, 102 if the handle has no file, 27 when out of memory. The boolean is then as it was. */
uint32_t gix_config_boolean(const gix_config_file *file, const gix_config_key *key, bool *value);

/* Tells what the last value of a key means as an integer, times its suffix.
 *
 * 100 if there is none, 11 for a value that is no integer or that 64 bits don't hold. 101 if the section's or
 * the value's name is not UTF-8, 102 if the handle has no file, 27 when out of memory. The integer is then as it
 * was. */
uint32_t gix_config_integer(const gix_config_file *file, const gix_config_key *key, int64_t *value);

/* Tells where a file comes from, and returns its path, if it has one. The path is that of the file itself, also
 * where its sections come from others. What the block had is freed then.
 *
 * 102 if the handle has no file, 27 when out of memory. Origin and block are then as they were. */
uint32_t gix_config_file_origin(const gix_config_file *file, gix_config_origin *origin,
    gix_config_bytes *path);

/* Gives one of the entries of a key another value. It is that at an index, counted from 0, among those of all
 * sections of the key's names, in the order in which these were made. It is rewritten, with the name as the key
 * has it; nothing of its old value stays. No entry is made.
 *
 * 100 for an index past the last one. 7 or 8 if there is no such section, 6 for a name that can't be a value's,
 * 9 if none of the sections has such an entry, 3 if the file would be too long. 101 if the section's or the
 * value's name is not UTF-8, 102 if the handle has no file, 27 when out of memory. The file is then as it was. */
uint32_t gix_config_set_nth_value(gix_config_file *file, const gix_config_key *key, size_t index,
    const uint8_t *value, size_t value_len);

/* Deletes one of the entries of a key. It is that at an index, counted from 0, among those of all sections of
 * the key's names, in the order in which these were made. Its name, `=` and value go, with the whitespace
 * between them; the whitespace before and the line ending after them stay.
 *
 * 100 for an index past the last one. 7 or 8 if there is no such section, 6 for a name that can't be a value's,
 * 9 if none of the sections has such an entry. 101 if the section's or the value's name is not UTF-8, 102 if the
 * handle has no file, 27 when out of memory. The file is then as it was. */
uint32_t gix_config_delete_nth_value(gix_config_file *file, const gix_config_key *key, size_t index);

/* Adds a line to the section at a place, after all others that it has. The place is counted from 0. The line may
 * be one of a name that is there already, and has the whitespace that the section uses. A comment comes after `
 * #`.
 *
 * 100 if there is no such section, 6 for a name that can't be a value's, 3 if the file would be too long. 101 if
 * the name is not UTF-8, 102 if the handle has no file, 27 when out of memory. The file is then as it was. */
uint32_t gix_config_push_line_at(gix_config_file *file, size_t place, const gix_config_line *line);

/* Gives the last entry of a name in a section another value. The section is the one at a place, counted from 0;
 * without such an entry it gets a new one. Tells whether there was an entry, and returns the raw text of its
 * value; what the block had is freed then.
 *
 * 100 if there is no such section, 6 for a name that can't be a value's, 3 if the file would be too long. 101 if
 * the name is not UTF-8, 102 if the handle has no file, 27 when out of memory. File, block and boolean are then
 * as they were. */
uint32_t gix_config_set_value_at(gix_config_file *file, size_t place, const gix_config_assigned *assigned,
    bool *had, gix_config_bytes *old);

/* Removes the last entry of a name from the section at a place. The place is counted from 0. The whitespace
 * before the entry and the line endings after it are removed, too. Returns the raw text of its value. What the
 * block had is freed.
 *
 * 100 if there is no such section, or it has no such entry. 101 if the name is not UTF-8, 102 if the handle has
 * no file, 27 when out of memory; the file is then as it was. The block is so after any number but 0. */
uint32_t gix_config_remove_value_at(gix_config_file *file, size_t place, const uint8_t *name, size_t name_len,
    gix_config_bytes *old);

/* Removes the last entry from the section at a place, whatever its name. The place is counted from 0. The
 * whitespace before the entry and all that is after it are removed, too. Returns its name as it is spelled, and
 * what its value means: nothing for an entry without `=`. What the blocks had is freed.
 *
 * 100 if there is no such section, or it has no entry: then all that it has goes. 102 if the handle has no file,
 * 27 when out of memory; the file is then as it was. The blocks are so after any number but 0. */
uint32_t gix_config_pop_value_at(gix_config_file *file, size_t place, gix_config_bytes *name,
    gix_config_bytes *value);

/* Gives the section at a place, counted from 0, another name and subsection. All else of it stays.
 *
 * 100 if there is no such section, 4 for a name and 5 for a subsection that a section can't be made of, 3 if the
 * file would be too long. 101 if the name is not UTF-8, 102 if the handle has no file, 27 when out of memory.
 * The file is then as it was. */
uint32_t gix_config_section_rename_at(gix_config_file *file, size_t place,
    const gix_config_section *new_section);

/* Removes the section at a place, counted from 0.
 *
 * 100 if there is none, 102 if the handle has no file, 27 when out of memory. The file is then as it was. */
uint32_t gix_config_section_remove_at(gix_config_file *file, size_t place);

/* Sets how far the section at a place, counted from 0, is trusted.
 *
 * 100 if there is no such section, 104 if no trust has the number. 102 if the handle has no file, 27 when out of
 * memory. The file is then as it was. */
uint32_t gix_config_section_set_trust_at(gix_config_file *file, size_t place, uint32_t trust);

/* Opens the file of a text. With `lossy` its whitespace, line endings and comments are left out: it is for
 * look-ups then. What was in the handle before is closed.
 *
 * 1 for a text that can't be read on at some place, 2 for one of more than 4294967295 bytes, 27 when out of
 * memory; the handle is then as it was. For 1 and 2 the place says where; else it is as it was. */
uint32_t gix_config_file_parse(const uint8_t *text, size_t text_len, bool lossy, gix_config_file *file,
    gix_config_place *place);

/* Like gix_config_file_parse, but of a text that comes from somewhere else than the calling program. Its
 * includes are not followed: gix_config_resolve_includes_told reads them.
 *
 * The numbers of gix_config_file_parse; 101 if it has a path that is not UTF-8, else 104 if no source or trust
 * has the number. The handle is as it was after any number but 0, and the place after any but 1 and 2. */
uint32_t gix_config_file_parse_as(const uint8_t *text, size_t text_len, const gix_config_metadata *meta,
    bool lossy, gix_config_file *file, gix_config_place *place);

/* Closes the file in a handle; an empty one stays empty. */
void gix_config_file_close(gix_config_file *file);

/* Makes a copy of a file. What was in its handle before is closed.
 *
 * 102 if the handle has no file, 27 when out of memory; the other handle is then as it was. */
uint32_t gix_config_file_clone(const gix_config_file *file, gix_config_file *other_file);

/* Returns the last value of a key as a path, its shorthand replaced. At the front of the path `%(prefix)/` is
 * replaced by the directory where git is installed, `~/` by the user's home directory. What the block had is
 * freed.
 *
 * 100 if there is none. 12 for an empty value, or one that needs a directory that is not known, as those of
 * other users; 13 for a path that is not UTF-8, 14 for the name of a user that is not. 101 if the section's or
 * the value's name, or a directory that is known, is not UTF-8, 102 if the handle has no file, 27 when out of
 * memory. The block is then as it was. */
uint32_t gix_config_path(const gix_config_file *file, const gix_config_key *key,
    const gix_config_folders *folders, gix_config_bytes *path);

/* Tells the names of a key that is written in one text, such as `remote.origin.url`. The section's is before the
 * first dot, the value's behind the last one, and the subsection's between them, if these are two. They lie in
 * the text, and are not checked further.
 *
 * 100 for a text without a dot, 101 if the section's or the value's name is not UTF-8. The key is then as it
 * was. */
uint32_t gix_config_key_parse(const uint8_t *text, size_t text_len, gix_config_key *key);

/* Tells what a text means as a boolean. gix_config_boolean does the same for the value of a key.
 *
 * 11 for a text that is no boolean, 27 when out of memory. The boolean is then as it was. */
uint32_t gix_config_boolean_parse(const uint8_t *text, size_t text_len, bool *value);

/* Tells what a text means as an integer, times its suffix. gix_config_integer does the same for the value of a
 * key.
 *
 * 11 for a text that is no integer, or one that 64 bits don't hold, 27 when out of memory. The integer is then
 * as it was. */
uint32_t gix_config_integer_parse(const uint8_t *text, size_t text_len, int64_t *value);

/* Loads the configuration of a repository. It is loaded from what a program told of files and of variables: that
 * of the machine and of the user (gix_config_load_globals_told), of the repository (`config` in its directory),
 * of its worktree (`config.worktree`, if `extensions.worktreeConfig` is true), and the entries that variables
 * set (gix_config_load_env_told), one after the other, each with what it includes. What was in the file's handle
 * before is closed.
 *
 * 105 if nothing was told of a variable that is needed, 103 if nothing was told of a file that is: its name or
 * path is then in the block, whose bytes from before are freed; tell it, and call again. 21 if one of these
 * files, and 19 or 20 if one that is included, was told to have a fault; 1 or 2 if the text of one is refused:
 * its path is then in the block, too. 22 to 26 for the entries of variables, as gix_config_load_env_told has
 * them. 3 to 6 and 12 to 18 if a file, an entry or an include is refused. 101 if a text that has to be UTF-8
 * isn't, 102 if the handle is not one for what is told, 27 when out of memory. The file's handle is as it was
 * after any number but 0, and the block after any but 1, 2, 19 to 26, 103 and 105. */
uint32_t gix_config_load_repository_told(const gix_config_told *told, const gix_config_repository *repository,
    gix_config_file *file, gix_config_bytes *asked);

/* Returns the sections of a file, in order: their names, where they come from, and how many entries each has.
 * What was in the list's handle is closed.
 *
 * 102 if the handle has no file, 27 when out of memory; the list's handle is then as it was. */
uint32_t gix_config_sections(const gix_config_file *file, gix_config_list *list);

/* Tells where the names of a section of a list lie. Sections are counted from 0. Tells also where the section
 * comes from, and how many entries it has. The names lie there until the list is closed.
 *
 * 100 for a number past the end, 102 if the handle has no list of sections; the place is then as it was. */
uint32_t gix_config_list_section(const gix_config_list *list, size_t index,
    gix_config_listed_section *section);

/* Returns the entries of a section, in order. Sections are counted from 0 as in the list of gix_config_sections.
 * What was in the list's handle is closed.
 *
 * 100 for a number past the end, 102 if the handle has no file, 27 when out of memory; the list's handle is then
 * as it was. */
uint32_t gix_config_section_entries(const gix_config_file *file, size_t index, gix_config_list *list);

/* Returns the text of the section at a place, counted from 0. It is its header, and all that stands between it
 * and the next one, with a line ending put in where two of its parts would otherwise run together. What the
 * block had is freed.
 *
 * 100 if there is no such section, 102 if the handle has no file, 27 when out of memory. The block is then as it
 * was. */
uint32_t gix_config_section_text(const gix_config_file *file, size_t place, gix_config_bytes *text);

/* Removes the last section that has the name, without ASCII case, and exactly the subsection.
 *
 * 100 if there is none. 101 if the name is not UTF-8, 102 if the handle has no file, 27 when out of memory. The
 * file is then as it was. */
uint32_t gix_config_section_remove(gix_config_file *file, const gix_config_section *section);

/* Makes a section after all others, with no entries.
 *
 * 4 for a name and 5 for a subsection that a section can't be made of, 3 if the file would be too long. 101 if
 * the name is not UTF-8, 102 if the handle has no file, 27 when out of memory. The file is then as it was. */
uint32_t gix_config_section_new(gix_config_file *file, const gix_config_section *section);

/* Gives all sections of a name and subsection another name and subsection. These are the sections that have the
 * name, without ASCII case, and exactly the subsection.
 *
 * 7 or 8 if there is none: no section has the name, or none of these has the subsection. 4 for a name and 5 for
 * a subsection that a section can't be made of, 3 if the file would be too long. 101 if a name is not UTF-8, 102
 * if the handle has no file, 27 when out of memory. The file is then as it was. */
uint32_t gix_config_section_rename(gix_config_file *file, const gix_config_section *section,
    const gix_config_section *new_section);

/* Gives a key a value. In the last section of its names the last entry of the name gets it. A section without
 * such an entry gets a new one; if there is no section, one is made. Tells whether there was an entry, and
 * returns the raw text of its value; what the block had is freed then.
 *
 * 6 for a name that can't be a value's, 4 or 5 if a section has to be made of names that can't be one's, 3 if
 * the file would be too long. 101 if the section's or the value's name is not UTF-8, 102 if the handle has no
 * file, 27 when out of memory. File, block and boolean are then as they were. */
uint32_t gix_config_set_value(gix_config_file *file, const gix_config_key *key, const uint8_t *value,
    size_t value_len, bool *had, gix_config_bytes *old);

/* Makes a place for what a program tells of files and of variables: nothing as yet. What was in the handle
 * before is closed.
 *
 * 27 when out of memory; the handle is then as it was. */
uint32_t gix_config_told_new(gix_config_told *told);

/* Tells the text of the file at a path. It replaces what was told of the path before. The text is copied.
 *
 * 101 if the path is not UTF-8, 102 if the handle is not one for what is told, 27 when out of memory; what was
 * told is then as it was. */
uint32_t gix_config_told_text(gix_config_told *told, const uint8_t *path, size_t path_len,
    const uint8_t *text, size_t text_len);

/* Tells that no file is at a path. This replaces what was told of the path before. An include of it is left out.
 *
 * 101 if the path is not UTF-8, 102 if the handle is not one for what is told, 27 when out of memory; what was
 * told is then as it was. */
uint32_t gix_config_told_missing(gix_config_told *told, const uint8_t *path, size_t path_len);

/* Tells that the file at a path can't be opened, or can't be read. If it opens, it can't be read. This replaces
 * what was told of the path before. A load that needs the file is refused.
 *
 * 101 if the path is not UTF-8, 102 if the handle is not one for what is told, 27 when out of memory; what was
 * told is then as it was. */
uint32_t gix_config_told_fault(gix_config_told *told, const uint8_t *path, size_t path_len, bool opens);

/* Tells what a variable of the environment is set to. This replaces what was told of it before. The bytes are
 * copied. Of bytes that are not UTF-8 a key or a value can't be made, and a variable that says where a file is
 * counts as not set then.
 *
 * 101 if the name is not UTF-8, 102 if the handle is not one for what is told, 27 when out of memory; what was
 * told is then as it was. */
uint32_t gix_config_told_variable(gix_config_told *told, const uint8_t *name, size_t name_len,
    const uint8_t *value, size_t value_len);

/* Tells that a variable of the environment isn't set. This replaces what was told of it before.
 *
 * 101 if the name is not UTF-8, 102 if the handle is not one for what is told, 27 when out of memory; what was
 * told is then as it was. */
uint32_t gix_config_told_no_variable(gix_config_told *told, const uint8_t *name, size_t name_len);

/* Closes what was told; an empty handle stays empty. */
void gix_config_told_close(gix_config_told *told);

/* Returns what the last value of a key means in a text. It is what gix_config_value returns for the text's file,
 * which isn't made. The text is read once. What the block had is freed.
 *
 * 100 if there is none. 1 for a text that can't be read on at some place, 2 for one of more than 4294967295
 * bytes; then the place says where, else it is as it was. 101 if the section's or the value's name is not UTF-8,
 * 27 when out of memory. The block is as it was after any number but 0. */
uint32_t gix_config_text_value(const uint8_t *text, size_t text_len, const gix_config_key *key,
    gix_config_bytes *value, gix_config_place *place);

/* Returns what all values of a key mean in a text, in order. It is what gix_config_values returns for the text's
 * file, which isn't made. The text is read once. What was in the list's handle is closed.
 *
 * The numbers of gix_config_text_value; the list's handle is as it was after any but 0. */
uint32_t gix_config_text_values(const uint8_t *text, size_t text_len, const gix_config_key *key,
    gix_config_list *list, gix_config_place *place);

/* Tells where the text that was told of a path can't be read on. A load that needs that file is refused. The
 * text is read once more. A load that is answered with 1 or 2 leaves in its block the path of the refused file.
 *
 * 1 for a text that can't be read on at some place, 2 for one of more than 4294967295 bytes; then the place says
 * where, else it is as it was. 0 for a text that can be read, 100 if no text was told of the path. 101 if the
 * path is not UTF-8, 102 if the handle is not one for what is told, 27 when out of memory. */
uint32_t gix_config_told_place(const gix_config_told *told, const uint8_t *path, size_t path_len,
    gix_config_place *place);

/* Tells the version of the library that a program runs with, such as `0.1.0`. That of the header is
 * GIX_CONFIG_VERSION. The text stays for good. */
void gix_config_version(gix_config_text *text);

/* Fills in the sections and entries of a file as arrays, in one pass. They stay as they are whatever becomes of
 * the file. What the view had is freed. Entries before the first section are not among them: no key names them.
 *
 * 102 if the handle has no file, 27 when out of memory; the view is then as it was. */
uint32_t gix_config_view_file(const gix_config_file *file, gix_config_view *view);

/* Frees what a view has; an empty one stays empty. */
void gix_config_view_free(gix_config_view *view);

#ifdef __cplusplus
}
#endif

#endif
