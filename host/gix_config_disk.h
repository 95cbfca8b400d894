/* Configuration on a disk, over libgix_config: files loaded with what they include, and files edited under a lock.
 *
 * gix_config_disk.c is compiled into a program as a part of it, and may be changed for it. It is C99 for POSIX systems, which is tested and
 * not proved. Numbers are those of gix_config.h, and the two here.
 */
#ifndef GIX_CONFIG_DISK_H
#define GIX_CONFIG_DISK_H

#include "gix_config.h"

#ifdef __cplusplus
extern "C" {
#endif

enum {
    /* The system refuses something: errno says why. */
    GIX_CONFIG_SYSTEM_FAULT = 200,
    /* Another program edits the file: FILE.lock is there. */
    GIX_CONFIG_LOCKED = 201
};

/* As gix_config_load_told and its kin, told from the disk and from the variables of the process what they ask for. What is no file, as a
 * directory, is missing. What was in the file's handle before is closed.
 *
 * Their numbers, but for 103 and 105. After 1, 2 and 19 to 26 the block has the path or the variable that these are about; for 1 and 2 the
 * place says where in that file, else it is as it was. The file is as it was after any number but 0. */
uint32_t gix_config_disk_load(const gix_config_load *load, gix_config_file *file, gix_config_bytes *about, gix_config_place *place);
uint32_t gix_config_disk_load_globals(const gix_config_places *places, gix_config_file *file, gix_config_bytes *about, gix_config_place *place);
uint32_t gix_config_disk_load_env(const gix_config_includes *includes, gix_config_file *file, gix_config_bytes *about, gix_config_place *place);
uint32_t gix_config_disk_load_repository(const gix_config_repository *repository, gix_config_file *file, gix_config_bytes *about,
    gix_config_place *place);
uint32_t gix_config_disk_resolve_includes(gix_config_file *file, const gix_config_includes *includes, gix_config_bytes *about,
    gix_config_place *place);

/* A file that is edited. {0} at first, and never copied. */
typedef struct gix_config_edit {
    /* The file, for the calls that edit: nothing of others is in it, since includes are not followed. */
    gix_config_file file;
    /* Its path, where the links of it lead. */
    char *path;
    /* That of FILE.lock. */
    char *lock_path;
    /* FILE.lock, opened. */
    int lock;
    /* Whether FILE.lock is there, made by this edit. */
    bool is_locked;
} gix_config_edit;

/* Makes FILE.lock, which no two programs can, and reads the file then; one that is missing is empty. So nobody's edit is lost, of those who
 * lock as git does. Where FILE is a symbolic link, the file that it leads to is locked and edited.
 *
 * 201 if FILE.lock is there already. 1 or 2 if the text is refused: the place says where. 200 if the file can't be read or locked, 27 when out
 * of memory. Nothing is locked after any number but 0. */
uint32_t gix_config_edit_begin(const char *path, gix_config_edit *edit, gix_config_place *place);

/* Writes the text into FILE.lock, syncs it, and renames it over the file, which keeps its mode and, where this process may say so, its owner.
 * So a crash leaves the old text or the new one. It comes once for an edit.
 *
 * 200 if the system refuses some of that, 27 when out of memory: the file on the disk is then as it was. Once it has its new text the answer
 * is 0; where the directory can't be synced, a crash some moments later may still leave the old text. */
uint32_t gix_config_edit_save(gix_config_edit *edit);

/* Ends the edit: removes FILE.lock, if it wasn't saved, and frees what the edit has. It leaves errno as it is. */
void gix_config_edit_end(gix_config_edit *edit);

#ifdef __cplusplus
}
#endif

#endif
