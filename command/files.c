#define _POSIX_C_SOURCE 200809L
#define _XOPEN_SOURCE 700
#include "files.h"

#include <errno.h>
#include <fcntl.h>
#include <stdio.h>
#include <stdlib.h>
#include <string.h>
#include <sys/stat.h>
#include <unistd.h>

static int failed(const char *name) {
    fprintf(stderr, "lozhymet: %s: %s\n", name, strerror(errno));
    return 2;
}

void *cells(size_t count, size_t size) {
    void *made = calloc(count ? count : 1, size);
    if (!made) {
        fprintf(stderr, "lozhymet: %s\n", strerror(ENOMEM));
        exit(2);
    }
    return made;
}

/* a buffer of twice the size with the same bytes */
static uint8_t *doubled(uint8_t *bytes, size_t size) {
    uint8_t *larger = cells(2 * size, 1);
    memcpy(larger, bytes, size);
    free(bytes);
    return larger;
}

static int read_stream(struct text *text, FILE *stream, size_t limit) {
    size_t size = 65536, most = limit < SIZE_MAX ? limit + 1 : limit;
    text->bytes = cells(size, 1);
    text->len = 0;
    while (text->len < most) {
        if (text->len == size) {
            text->bytes = doubled(text->bytes, size);
            size *= 2;
        }
        size_t room = size - text->len, wanted = most - text->len;
        size_t got = fread(text->bytes + text->len, 1, room < wanted ? room : wanted, stream);
        text->len += got;
        if (!got) break;
    }
    return ferror(stream) ? failed(text->name) : 0;
}

int read_text(struct text *text, const char *name, size_t limit) {
    if (strcmp(name, "-") == 0) {
        text->name = "standard input";
        return read_stream(text, stdin, limit);
    }
    text->name = name;
    FILE *stream = fopen(name, "rb");
    if (!stream) return failed(name);
    int status = read_stream(text, stream, limit);
    fclose(stream);
    return status;
}

int same_file(const char *one, const char *other) {
    struct stat a, b;
    if (strcmp(one, "-") == 0 || strcmp(other, "-") == 0 || stat(one, &a) || stat(other, &b)) return 0;
    return a.st_dev == b.st_dev && a.st_ino == b.st_ino;
}

/* 0, or -1 with errno */
static int put(int file, const uint8_t *bytes, size_t len) {
    while (len) {
        ssize_t put_now = write(file, bytes, len);
        if (put_now < 0 && errno == EINTR) continue;
        if (put_now < 0) return -1;
        bytes += put_now;
        len -= (size_t)put_now;
    }
    return 0;
}

static int write_in_place(const char *name, int file, const uint8_t *bytes, size_t len) {
    if (file < 0 || put(file, bytes, len)) return failed(name);
    return file != STDOUT_FILENO && close(file) ? failed(name) : 0;
}

/* the mode that a new file gets */
static mode_t new_mode(void) {
    mode_t mask = umask(0);
    umask(mask);
    return 0666 & ~mask;
}

static int write_aside(const char *name, const char *target, mode_t mode, const uint8_t *bytes, size_t len) {
    static const char ending[] = ".XXXXXX";
    char *aside = cells(strlen(target) + sizeof ending, 1);
    strcpy(aside, target);
    strcat(aside, ending);
    int file = mkstemp(aside), status = 0;
    if (file < 0) {
        status = failed(name);
    } else if (put(file, bytes, len) || fchmod(file, mode) || fsync(file) || close(file) || rename(aside, target)) {
        status = failed(name);
        unlink(aside);
    }
    free(aside);
    return status;
}

int write_whole(const char *name, const uint8_t *bytes, size_t len) {
    struct stat there;
    if (strcmp(name, "-") == 0) return write_in_place("standard output", STDOUT_FILENO, bytes, len);
    int exists = stat(name, &there) == 0;
    if (exists && S_ISDIR(there.st_mode)) return errno = EISDIR, failed(name);
    if (exists && !S_ISREG(there.st_mode)) return write_in_place(name, open(name, O_WRONLY), bytes, len);
    /* a link goes on pointing to the file that is written */
    char *target = exists ? realpath(name, NULL) : NULL;
    int status = exists && access(name, W_OK) ? failed(name)
                                              : write_aside(name, target ? target : name, exists ? there.st_mode & 0777 : new_mode(), bytes, len);
    free(target);
    return status;
}
