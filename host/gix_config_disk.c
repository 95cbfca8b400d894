/* Configuration on a disk: what each call does is said in gix_config_disk.h. */
#ifndef _XOPEN_SOURCE
#define _XOPEN_SOURCE 700
#endif
#include "gix_config_disk.h"

#include <errno.h>
#include <fcntl.h>
#include <stdio.h>
#include <stdlib.h>
#include <string.h>
#include <sys/stat.h>
#include <unistd.h>

/* Bytes that are read. */
typedef struct content {
    uint8_t *at;
    size_t len;
} content;

/* A copy of bytes with a zero byte behind, or NULL. */
static char *copied(const uint8_t *at, size_t len)
{
    char *copy = (char *)malloc(len + 1);
    if (copy != NULL) {
        memcpy(copy, at, len);
        copy[len] = 0;
    }
    return copy;
}

/* Reads all that a descriptor has; 0, 27, or 200. */
static uint32_t read_all(int file, content *read_content)
{
    size_t room = 0;
    for (;;) {
        if (read_content->len == room) {
            room = room == 0 ? 4096 : 2 * room;
            uint8_t *grown = (uint8_t *)realloc(read_content->at, room);
            if (grown == NULL)
                return GIX_CONFIG_OUT_OF_MEMORY;
            read_content->at = grown;
        }
        ssize_t got = read(file, read_content->at + read_content->len, room - read_content->len);
        if (got == 0)
            return GIX_CONFIG_DONE;
        if (got > 0)
            read_content->len += (size_t)got;
        else if (errno != EINTR)
            return GIX_CONFIG_SYSTEM_FAULT;
    }
}

/* Closes a descriptor, and leaves errno as it is. */
static void close_quietly(int file)
{
    int fault = errno;
    close(file);
    errno = fault;
}

/* Tells what is at a path on the disk. */
static uint32_t tell_file(gix_config_told *told, const gix_config_bytes *asked)
{
    struct stat found;
    char *path = copied(asked->at, asked->len);
    if (path == NULL)
        return GIX_CONFIG_OUT_OF_MEMORY;
    bool is_file = strlen(path) == asked->len && stat(path, &found) == 0 && S_ISREG(found.st_mode);
    int file = is_file ? open(path, O_RDONLY | O_CLOEXEC) : -1;
    free(path);
    if (!is_file)
        return gix_config_told_missing(told, asked->at, asked->len);
    if (file < 0)
        return gix_config_told_fault(told, asked->at, asked->len, false);
    content text = { NULL, 0 };
    uint32_t answer = read_all(file, &text);
    close_quietly(file);
    if (answer == GIX_CONFIG_DONE)
        answer = gix_config_told_text(told, asked->at, asked->len, text.at, text.len);
    else if (answer == GIX_CONFIG_SYSTEM_FAULT)
        answer = gix_config_told_fault(told, asked->at, asked->len, true);
    free(text.at);
    return answer;
}

/* Tells what a variable of the process is set to, if it is. */
static uint32_t tell_variable(gix_config_told *told, const gix_config_bytes *asked)
{
    char *name = copied(asked->at, asked->len);
    if (name == NULL)
        return GIX_CONFIG_OUT_OF_MEMORY;
    const char *value = getenv(name);
    uint32_t answer = value == NULL ? gix_config_told_no_variable(told, asked->at, asked->len)
                                    : gix_config_told_variable(told, asked->at, asked->len, (const uint8_t *)value, strlen(value));
    free(name);
    return answer;
}

/* What is loaded. */
typedef struct wanted {
    const gix_config_load *load;
    const gix_config_places *places;
    const gix_config_includes *variables;
    const gix_config_repository *repository;
    const gix_config_includes *included;
} wanted;

/* Makes the call, of what was told so far. */
static uint32_t attempt(const wanted *it, gix_config_told *told, gix_config_file *file, gix_config_bytes *asked)
{
    if (it->load != NULL)
        return gix_config_load_told(told, it->load, file, asked);
    if (it->places != NULL)
        return gix_config_load_globals_told(told, it->places, file, asked);
    if (it->variables != NULL)
        return gix_config_load_env_told(told, it->variables, file, asked);
    if (it->repository != NULL)
        return gix_config_load_repository_told(told, it->repository, file, asked);
    return gix_config_resolve_includes_told(told, file, it->included, asked);
}

/* Makes the call again and again, each time with one more file or variable that it asks for. */
static uint32_t follow(const wanted *it, gix_config_file *file, gix_config_bytes *about, gix_config_place *place)
{
    gix_config_told told = { NULL };
    uint32_t answer = gix_config_told_new(&told);
    while (answer == GIX_CONFIG_DONE) {
        answer = attempt(it, &told, file, about);
        if (answer == GIX_CONFIG_NOT_TOLD)
            answer = tell_file(&told, about);
        else if (answer == GIX_CONFIG_VARIABLE_NOT_TOLD)
            answer = tell_variable(&told, about);
        else
            break;
    }
    if ((answer == GIX_CONFIG_UNEXPECTED_TOKEN || answer == GIX_CONFIG_INPUT_TOO_LARGE)
        && gix_config_told_place(&told, about->at, about->len, place) == GIX_CONFIG_OUT_OF_MEMORY)
        answer = GIX_CONFIG_OUT_OF_MEMORY;
    gix_config_told_close(&told);
    return answer;
}

uint32_t gix_config_disk_load(const gix_config_load *load, gix_config_file *file, gix_config_bytes *about, gix_config_place *place)
{
    wanted it = { load, NULL, NULL, NULL, NULL };
    return follow(&it, file, about, place);
}

uint32_t gix_config_disk_load_globals(const gix_config_places *places, gix_config_file *file, gix_config_bytes *about, gix_config_place *place)
{
    wanted it = { NULL, places, NULL, NULL, NULL };
    return follow(&it, file, about, place);
}

uint32_t gix_config_disk_load_env(const gix_config_includes *includes, gix_config_file *file, gix_config_bytes *about, gix_config_place *place)
{
    wanted it = { NULL, NULL, includes, NULL, NULL };
    return follow(&it, file, about, place);
}

uint32_t gix_config_disk_load_repository(const gix_config_repository *repository, gix_config_file *file, gix_config_bytes *about,
    gix_config_place *place)
{
    wanted it = { NULL, NULL, NULL, repository, NULL };
    return follow(&it, file, about, place);
}

uint32_t gix_config_disk_resolve_includes(gix_config_file *file, const gix_config_includes *includes, gix_config_bytes *about,
    gix_config_place *place)
{
    wanted it = { NULL, NULL, NULL, NULL, includes };
    return follow(&it, file, about, place);
}

/* The paths of an edit; 0, 27, or 200. A link that leads to no file is refused, since a rename would replace it. */
static uint32_t find(const char *path, gix_config_edit *edit)
{
    struct stat found;
    edit->path = realpath(path, NULL);
    if (edit->path == NULL) {
        if (errno != ENOENT || lstat(path, &found) == 0)
            return GIX_CONFIG_SYSTEM_FAULT;
        edit->path = copied((const uint8_t *)path, strlen(path));
        if (edit->path == NULL)
            return GIX_CONFIG_OUT_OF_MEMORY;
    }
    edit->lock_path = (char *)malloc(strlen(edit->path) + sizeof ".lock");
    if (edit->lock_path == NULL)
        return GIX_CONFIG_OUT_OF_MEMORY;
    strcpy(edit->lock_path, edit->path);
    strcat(edit->lock_path, ".lock");
    return GIX_CONFIG_DONE;
}

/* Reads what is edited; nothing if no file is there. */
static uint32_t read_edited(const char *path, content *text)
{
    int file = open(path, O_RDONLY | O_CLOEXEC);
    if (file < 0 && errno == ENOENT)
        return GIX_CONFIG_DONE;
    if (file < 0)
        return GIX_CONFIG_SYSTEM_FAULT;
    uint32_t answer = read_all(file, text);
    close_quietly(file);
    return answer;
}

/* Opens the file of the text. One whose path is not UTF-8 has none for the library. */
static uint32_t parse(gix_config_edit *edit, const content *text, gix_config_place *place)
{
    static const uint8_t nothing = 0;
    const uint8_t *at = text->len == 0 ? &nothing : text->at;
    gix_config_text path = { (const uint8_t *)edit->path, strlen(edit->path) };
    gix_config_metadata meta = { true, path, GIX_CONFIG_SOURCE_API, GIX_CONFIG_TRUST_FULL };
    uint32_t answer = gix_config_file_parse_as(at, text->len, &meta, false, &edit->file, place);
    return answer == GIX_CONFIG_NOT_UTF8 ? gix_config_file_parse(at, text->len, false, &edit->file, place) : answer;
}

/* Locks the file and reads it. */
static uint32_t begin(const char *path, gix_config_edit *edit, gix_config_place *place)
{
    uint32_t answer = find(path, edit);
    if (answer != GIX_CONFIG_DONE)
        return answer;
    edit->lock = open(edit->lock_path, O_WRONLY | O_CREAT | O_EXCL | O_CLOEXEC, 0666);
    if (edit->lock < 0)
        return errno == EEXIST ? GIX_CONFIG_LOCKED : GIX_CONFIG_SYSTEM_FAULT;
    edit->is_locked = true;
    content text = { NULL, 0 };
    answer = read_edited(edit->path, &text);
    if (answer == GIX_CONFIG_DONE)
        answer = parse(edit, &text, place);
    free(text.at);
    return answer;
}

uint32_t gix_config_edit_begin(const char *path, gix_config_edit *edit, gix_config_place *place)
{
    uint32_t answer = begin(path, edit, place);
    if (answer != GIX_CONFIG_DONE)
        gix_config_edit_end(edit);
    return answer;
}

/* Writes all bytes. */
static bool write_all(int file, const uint8_t *at, size_t len)
{
    while (len > 0) {
        ssize_t put = write(file, at, len);
        if (put < 0 && errno != EINTR)
            return false;
        if (put > 0) {
            at += put;
            len -= (size_t)put;
        }
    }
    return true;
}

/* Gives the lock the owner and the mode of the file, if there is one; the mode last, since a new owner may take bits of it. */
static bool give_rights(const gix_config_edit *edit)
{
    struct stat found, own;
    if (stat(edit->path, &found) != 0)
        return errno == ENOENT;
    if (fstat(edit->lock, &own) != 0)
        return false;
    if ((own.st_uid != found.st_uid || own.st_gid != found.st_gid) && fchown(edit->lock, found.st_uid, found.st_gid) != 0 && errno != EPERM)
        return false;
    return fchmod(edit->lock, found.st_mode & 07777) == 0;
}

/* Syncs the directory of a path, so that the new name is on the disk, where that can be done. */
static void sync_directory(char *path)
{
    char *name = strrchr(path, '/');
    char first = name == NULL ? 0 : name[1];
    if (name != NULL)
        name[1] = 0;
    int directory = open(name == NULL ? "." : path, O_RDONLY | O_DIRECTORY | O_CLOEXEC);
    if (name != NULL)
        name[1] = first;
    if (directory >= 0) {
        fsync(directory);
        close(directory);
    }
}

uint32_t gix_config_edit_save(gix_config_edit *edit)
{
    if (!edit->is_locked) {
        errno = EBADF;
        return GIX_CONFIG_SYSTEM_FAULT;
    }
    gix_config_bytes text = { NULL, 0, NULL };
    uint32_t answer = gix_config_file_text(&edit->file, &text);
    if (answer != GIX_CONFIG_DONE)
        return answer;
    bool is_written = give_rights(edit) && write_all(edit->lock, text.at, text.len) && fsync(edit->lock) == 0;
    gix_config_bytes_free(&text);
    if (!is_written || rename(edit->lock_path, edit->path) != 0)
        return GIX_CONFIG_SYSTEM_FAULT;
    /* (from here on the name of the lock is no longer this program's) */
    edit->is_locked = false;
    close(edit->lock);
    sync_directory(edit->path);
    return GIX_CONFIG_DONE;
}

void gix_config_edit_end(gix_config_edit *edit)
{
    int fault = errno;
    if (edit->is_locked) {
        close(edit->lock);
        unlink(edit->lock_path);
    }
    edit->is_locked = false;
    free(edit->path);
    free(edit->lock_path);
    edit->path = edit->lock_path = NULL;
    gix_config_file_close(&edit->file);
    errno = fault;
}
