/* Syncs that do nothing, in place of those of the system. A test includes it that ends no machine and syncs thousands
 * of times, which would take minutes on a loaded one. */
#ifndef HLC_FILE_NO_SYNCS_H
#define HLC_FILE_NO_SYNCS_H

int fsync(int file)
{
    (void)file;
    return 0;
}

int fdatasync(int file)
{
    return fsync(file);
}

#endif
