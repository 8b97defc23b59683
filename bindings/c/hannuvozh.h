/* The lookup of bare names over a listing of a job's files: which file does a name mean, asked for from a directory?
 *
 * Link the archive that `tools/staticlib lookup` makes (target/staticlib/liblookup.a, x86-64 Linux). The function uses no heap and keeps nothing
 * between calls; threads may call it at once, each with buffers of its own.
 *
 * Formats, limits, and every number with an example: docs/GUIDE.md.
 */
#ifndef HANNUVOZH_H
#define HANNUVOZH_H

#include <stddef.h>
#include <stdint.h>

#ifdef __cplusplus
extern "C" {
#endif

/* Answers. The texts stand in `result` one after another; `counts` begins with the length of each, 0 where there is none. */
enum {
    HANNUVOZH_FOUND = 0,                            /* path, query, fragment (a missing one is empty) */
    HANNUVOZH_NOT_FOUND = 1,                        /* specifier: no file fits the name */
    HANNUVOZH_EMPTY = 2,                            /* target: an exports target that names no path */
    HANNUVOZH_INVALID_PACKAGE_TARGET = 3,           /* target, key, manifest path: a target without "./", or through ".." or node_modules */
    HANNUVOZH_PACKAGE_PATH_NOT_EXPORTED = 4,        /* subpath, package path: the package's exports do not give the subpath */
    HANNUVOZH_INVALID_PACKAGE_CONFIG = 5,           /* manifest path: exports mix subpath keys and conditions */
    HANNUVOZH_INVALID_PACKAGE_CONFIG_DIRECTORY = 6, /* manifest path: a folder key with a target that is no folder */
    HANNUVOZH_JSON = 7                              /* manifest path: the manifest is no JSON text */
};

/* Refusals. Every output buffer and work memory then hold zeros, and so do the lengths in `counts`. */
enum {
    /* the caller can mend these */
    HANNUVOZH_RESULT_TOO_SHORT = 20, /* result is shorter than the answer's texts */
    HANNUVOZH_LIST_TOO_SHORT = 21,   /* list_numbers or list_text is too short for the whole list */
    HANNUVOZH_SPECIFIER = 22,        /* the specifier is not bare, over 512 bytes, holds byte 0 or is not UTF-8 */
    HANNUVOZH_START = 23,            /* the start is no directory of the listing */
    HANNUVOZH_SETTINGS = 24,         /* the settings are malformed or over a limit, or have not exactly one imports field */
    HANNUVOZH_WORK_TOO_SHORT = 25,   /* work is shorter than HANNUVOZH_WORK_LENGTH */
    /* the maker of the listing can mend these */
    HANNUVOZH_LISTING_SIZES = 30,      /* sizes, limits or contents are wrong */
    HANNUVOZH_LISTING_PATHS = 31,      /* a path breaks a rule, the paths do not rise, or entry 0 is not the directory "/" */
    HANNUVOZH_MANIFEST_DIRECTORY = 32, /* a directory is named package.json */
    /* the package author can mend these; they are met only in what this lookup reads or builds */
    HANNUVOZH_MANIFEST_LIMIT = 40, /* a manifest is over a limit */
    /* 41 does not occur; the number stays reserved */
    HANNUVOZH_PATH_TOO_LONG = 42,  /* a path or target has over 2,048 bytes */
    /* the caller can mend this one: a larger limit, or none but the gateway's */
    HANNUVOZH_TOO_MANY_CONSULTS = 53 /* the lookup needs more consults than its limit */
};

/* Two limits of consults that have a name; every other number is a limit too, and 0 refuses the first consult. A lookup that finishes within a
 * limit gives the same within every larger one. */
enum {
    HANNUVOZH_GATEWAY_LIMIT = 18777, /* no bare name needs more */
    HANNUVOZH_PREVIEW_LIMIT = 512    /* for a preview that asks while somebody types */
};

/* What stands in `counts`. */
enum {
    HANNUVOZH_FIRST_LENGTH = 0,
    HANNUVOZH_SECOND_LENGTH = 1,
    HANNUVOZH_THIRD_LENGTH = 2,
    HANNUVOZH_CONSULTS = 3, /* how many consults were made: 0 where the lookup did not begin, the limit with 53, else all of them */
    HANNUVOZH_COUNTS = 4    /* how many counts there are */
};

/* States of consulted paths, in list_numbers. */
enum {
    HANNUVOZH_ABSENT = 0,       /* no entry has the path */
    HANNUVOZH_DIRECTORY = 1,    /* a directory has it */
    HANNUVOZH_FILE = 2,         /* a file has it */
    HANNUVOZH_MANIFEST_READ = 3 /* a file has it, and the search for the nearest manifest reads it */
};

/* Lengths of buffers. */
enum {
    HANNUVOZH_WORK_LENGTH = 32768,                  /* work needs at least this */
    HANNUVOZH_RESULT_ENOUGH = 6157,                 /* a result of this length is never too short */
    HANNUVOZH_NUMBERS_ENOUGH = 2 + 2 * HANNUVOZH_GATEWAY_LIMIT, /* within the gateway's limit, list_numbers of this length are never too short */
    HANNUVOZH_LONGEST_PATH = 2048,                  /* no consulted path is longer, so list_text of */
    HANNUVOZH_LIST_TEXT_ENOUGH = HANNUVOZH_GATEWAY_LIMIT * 2048 /* this length is never too short then; most lists need a few hundred bytes */
};

/* Limits of the inputs. */
enum {
    HANNUVOZH_MOST_LISTING = 65536,     /* bytes of a listing */
    HANNUVOZH_MOST_ENTRIES = 1024,      /* entries of a listing */
    HANNUVOZH_MOST_ENTRY_PATH = 1024,   /* bytes of an entry's path */
    HANNUVOZH_MOST_COMPONENTS = 32,     /* components of an entry's path */
    HANNUVOZH_MOST_SPECIFIER = 512,     /* bytes of a specifier */
    HANNUVOZH_MOST_CONDITIONS = 8,
    HANNUVOZH_MOST_EXTENSIONS = 8,
    HANNUVOZH_MOST_MAIN_FIELDS = 4,
    HANNUVOZH_MOST_MAIN_FILES = 4,
    HANNUVOZH_MOST_EXPORTS_FIELDS = 2,
    HANNUVOZH_IMPORTS_FIELDS = 1,       /* the sixth count of the settings: always this */
    HANNUVOZH_MOST_SETTING = 32,        /* bytes of one text of the settings */
    HANNUVOZH_MOST_MANIFEST = 16384,    /* bytes of a manifest that a lookup reads */
    HANNUVOZH_MOST_DEPTH = 16,          /* open brackets in it */
    HANNUVOZH_MOST_MEMBERS = 128,       /* members of one object or array in it */
    HANNUVOZH_MOST_STRING = 1024        /* decoded bytes of a string in it */
};

/* The contents length that marks a directory in a listing. */
#define HANNUVOZH_DIRECTORY_MARK UINT32_C(0xFFFFFFFF)

/* Asks one question, and gives the number of its answer or refusal.
 *
 * The first four buffers are read only. The others are written to from end to end, whatever stands in them: an answer's texts and list with zeros
 * behind them, or zeros alone; work always ends as zeros. LENT BUFFERS MAY NOT OVERLAP, not even partly, and a length of 0 still needs a pointer
 * that is not null. list_numbers_length counts numbers, every other length bytes. list_numbers holds the list's count, the length of its text, then
 * count path lengths, then count states; list_text holds the paths, one after another. `limit` is how many consults the lookup may make.
 * The settings are six one-byte counts (conditions, extensions, main fields, main files, exports fields, imports field), a one-byte length for
 * each text, then the texts.
 */
uint32_t hannuvozh_lookup(const uint8_t *listing, size_t listing_length,
                          const uint8_t *settings, size_t settings_length,
                          const uint8_t *start, size_t start_length,
                          const uint8_t *specifier, size_t specifier_length,
                          uint32_t limit,
                          uint8_t *result, size_t result_length,
                          uint32_t *list_numbers, size_t list_numbers_length,
                          uint8_t *list_text, size_t list_text_length,
                          uint8_t *work, size_t work_length,
                          uint32_t counts[HANNUVOZH_COUNTS]);

#ifdef __cplusplus
}
#endif

#endif
