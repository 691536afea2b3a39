/* Files of images. Layer 5. */
#define _POSIX_C_SOURCE 200809L
#include "image.h"

#include <errno.h>
#include <fcntl.h>
#include <inttypes.h>
#include <limits.h>
#include <stdio.h>
#include <string.h>
#include <unistd.h>

#include "kamurjesh.h"
#include "kind.h"
#include "market.h"

/* One byte more than an image has, by which a file that is too long is told. */
static uint8_t image[IMAGE_BYTES + 1];

/* ---- writing */

static bool write_all(int to, const uint8_t *bytes, size_t length)
{
    while (length > 0) {
        ssize_t written = write(to, bytes, length);
        if (written < 0 && errno == EINTR)
            continue;
        if (written < 0)
            return false;
        bytes += written;
        length -= (size_t)written;
    }
    return true;
}

/* Writes the image into a file that was not there, and has it on the disk. */
static bool write_new(const char *file)
{
    int to = open(file, O_WRONLY | O_CREAT | O_EXCL, 0666);
    if (to < 0)
        return false;
    bool good = write_all(to, image, IMAGE_BYTES) && fsync(to) == 0;
    int why = errno;
    if (close(to) != 0 && good) {
        good = false;
        why = errno;
    }
    errno = why;
    return good;
}

/* Has the name of a file on the disk. Where the directory cannot be opened for that, the name is there all the same. */
static void sync_directory(const char *file)
{
    char directory[PATH_MAX];
    const char *slash = strrchr(file, '/');
    size_t length = slash == NULL ? 1 : (size_t)(slash - file) + 1;
    memcpy(directory, slash == NULL ? "." : file, length);
    directory[length] = '\0';
    int at = open(directory, O_RDONLY);
    if (at < 0)
        return;
    fsync(at);
    close(at);
}

bool save_market(const char *file)
{
    char beside[PATH_MAX];
    if (strlen(file) + 32 > sizeof beside) {
        errno = ENAMETOOLONG;
        return false;
    }
    snprintf(beside, sizeof beside, "%s.%ld.new", file, (long)getpid());
    save_table(image);
    if (write_new(beside) && rename(beside, file) == 0) {
        sync_directory(file);
        return true;
    }
    int why = errno;
    if (why != EEXIST)
        unlink(beside);
    errno = why;
    return false;
}

/* ---- reading */

/* As much of a file as is looked at, into the image; false where it cannot be read, and errno says why. */
static bool read_file(const char *file, size_t *length)
{
    FILE *from = fopen(file, "rb");
    if (from == NULL)
        return false;
    *length = fread(image, 1, sizeof image, from);
    bool good = !ferror(from);
    int why = errno;
    fclose(from);
    errno = why;
    return good;
}

static void complain(const char *file, size_t length, uint64_t refusal, uint64_t block)
{
    fprintf(stderr, "rehearse: %s is not read back (%" PRIu64 "): ", file, refusal);
    switch (refusal) {
    case BAD_LENGTH:
        if (length > IMAGE_BYTES)
            fprintf(stderr, "it has more than the %d bytes of an image\n", IMAGE_BYTES);
        else
            fprintf(stderr, "it has %zu bytes, and an image has %d\n", length, IMAGE_BYTES);
        break;
    case BAD_BLOCK:
        fprintf(stderr, "block %" PRIu64 " of 0 to 64 was changed: its check is wrong, or what fills it up is not zero\n", block);
        break;
    case KAMURJESH_NO_MARKET: fprintf(stderr, "it is the image of no market that trades by %s\n", kind->quote_name); break;
    default: fprintf(stderr, "the reason is unknown to this program\n");
    }
}

bool restore_market(const char *file, const struct opening *opening)
{
    size_t length;
    uint64_t block;
    if (!read_file(file, &length)) {
        fprintf(stderr, "rehearse: cannot read %s: %s\n", file, strerror(errno));
        return false;
    }
    uint64_t refusal = restore_table(image, length, &block);
    if (refusal != KAMURJESH_TAKEN) {
        complain(file, length, refusal, block);
        return false;
    }
    if (opening != NULL && !has_settings(opening)) {
        fprintf(stderr, "rehearse: %s is not taken: venue, port, code, MPIDs or modes of that market are not those of the settings\n", file);
        return false;
    }
    printf("restored from %s\n", file);
    run_to_the_end();
    return true;
}
