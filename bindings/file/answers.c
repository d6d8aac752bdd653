/* The names of answers, and a sentence for each. */
#include "file.h"
#include <string.h>

struct answer {
    const char *name;
    const char *text;
};

/* By their numbers, from 200 on. bindings/refusals makes this list from include/refusals.toml. */
static const struct answer ANSWERS[] = {
    { "HLC_FILE_IN_USE", "another process, or this one, has the file open" },
    { "HLC_FILE_CANNOT_OPEN",
      "the file or its lock file cannot be opened or made, or the file has several hard links" },
    { "HLC_FILE_NOT_OURS", "the file is another application's, or none of SQLite" },
    { "HLC_FILE_NEWER", "the file's schema is newer than this library" },
    { "HLC_FILE_BAD_OPTION", "an option, a promise or a size is out of range" },
    { "HLC_FILE_FULL", "the disk is full" },
    { "HLC_FILE_IO", "the disk failed" },
    { "HLC_FILE_CORRUPT", "the structure of the SQLite file is damaged, or it is missing beside its write-ahead log" },
    { "HLC_FILE_DAMAGED_LOG", "a row of the log is missing, swapped or altered" },
    { "HLC_FILE_NO_CHECKPOINT", "no checkpoint is whole, and the log does not begin at the first record" },
    { "HLC_FILE_UNKNOWN", "it is not known whether the batch is on disk" },
    { "HLC_FILE_SEALED", "the file takes no writes until it is opened again" },
    { "HLC_FILE_LATER", "the batch is on disk, and is accepted when there is memory" },
    { "HLC_FILE_TOO_LONG", "the batch has too many bytes" },
    { "HLC_FILE_NO_STAMP", "no stamp is so old" },
};

static const struct answer *answer_of(uint32_t answer)
{
    bool known = answer >= HLC_FILE_IN_USE && answer - HLC_FILE_IN_USE < sizeof ANSWERS / sizeof ANSWERS[0];
    return known ? &ANSWERS[answer - HLC_FILE_IN_USE] : NULL;
}

static void put(const char *text, uint8_t *out, size_t out_len, size_t *len)
{
    *len = strlen(text);
    if (*len <= out_len) memcpy(out, text, *len);
}

void hlc_file_error_name(uint32_t answer, uint8_t *out, size_t out_len, size_t *len)
{
    const struct answer *ours = answer_of(answer);
    if (ours) put(ours->name, out, out_len, len);
    else hlc_error_name(answer, out, out_len, len);
}

void hlc_file_error_text(uint32_t answer, uint8_t *out, size_t out_len, size_t *len)
{
    const struct answer *ours = answer_of(answer);
    if (ours) put(ours->text, out, out_len, len);
    else hlc_error_text(answer, out, out_len, len);
}
