/* The reads and writes that a segment of the sinks in a folder costs, and their removal, without anything around them.

usage: segment_loop GAP PART FOLDER

It goes through all sinks once in pieces of 1 MiB and keeps a row for each record. Then it reads the records back,
and writes them into `segment` by 1 MiB, with one fsync. Where PART is 0 they go stream by stream, in the order in which
they came; where at most GAP bytes lie between a record and the next one of its stream, both are read at once, up to
262,144 bytes. Else they go by parts of so many bytes of a sink, stream by stream in each, and a part is read at once,
with 65,536 bytes behind it. Then it removes the sinks, and prints the seconds that this took. It proves, tests and
compares nothing. It tells what these calls cost, and is no bound: another way of reading may cost less. */
#include <fcntl.h>
#include <glob.h>
#include <stdint.h>
#include <stdio.h>
#include <stdlib.h>
#include <string.h>
#include <sys/stat.h>
#include <time.h>
#include <unistd.h>

#define PIECE (1 << 20)
#define WINDOW 262144
#define HEADER 96
#define SYNC 20
#define BETWEEN 2000
#define BEHIND 65536
#define MOST (4 << 20)

struct row {
    uint64_t at;
    uint32_t size;
    uint16_t file, stream;
};

struct stream {
    char tail[256];
    size_t size, count, first;
};

static struct row *rows, *sorted;
static size_t count, room;
static struct stream streams[256];
static size_t known;
static char window[MOST], held[2 * PIECE], out[2 * PIECE];
static size_t filled;
static uint64_t place, last_sync;
static int segment;

static void check(int failed, const char *what) {
    if (failed) {
        perror(what);
        exit(1);
    }
}

static uint32_t number(const char *bytes) {
    const unsigned char *from = (const unsigned char *)bytes;
    return (uint32_t)from[0] << 24 | from[1] << 16 | from[2] << 8 | from[3];
}

/* The stream of the key whose tail this is. */
static uint16_t stream_of(const char *tail, size_t size, uint16_t likely) {
    size_t at = likely;
    if (at >= known || streams[at].size != size || memcmp(streams[at].tail, tail, size) != 0)
        for (at = 0; at < known; at++)
            if (streams[at].size == size && memcmp(streams[at].tail, tail, size) == 0)
                break;
    if (at == known) {
        check(known == 256 || size > sizeof streams[0].tail, "too many streams");
        memcpy(streams[known].tail, tail, size);
        streams[known++].size = size;
    }
    streams[at].count++;
    return (uint16_t)at;
}

static void add(struct row row) {
    if (count == room) {
        room = room ? 2 * room : 1 << 16;
        rows = realloc(rows, room * sizeof *rows);
        check(rows == NULL, "rows");
    }
    rows[count++] = row;
}

/* Takes the whole records at the front of what is held, whose first byte stands at `at`, and says how many bytes they have. */
static size_t take(size_t size, uint64_t at, uint16_t file) {
    size_t from = at == 0 ? HEADER : 0;
    uint16_t likely = 0;
    while (from + 8 <= size) {
        uint32_t whole = number(held + from);
        if (whole == UINT32_MAX) {
            if (from + SYNC > size)
                break;
            from += SYNC;
            continue;
        }
        if (from + 8 + whole > size)
            break;
        /* The key stands behind three lengths; its first nine bytes are its version and its sequence id. */
        likely = stream_of(held + from + 12 + 9, number(held + from + 4) - 4 - 9, likely);
        add((struct row){.at = at + from, .size = 8 + whole, .file = file, .stream = likely});
        from += 8 + whole;
    }
    return from;
}

static void gather(int sink, uint16_t file) {
    size_t size = 0;
    uint64_t at = 0;
    for (;;) {
        ssize_t came = pread(sink, held + size, PIECE, (off_t)(at + size));
        check(came < 0, "pread");
        if (came == 0)
            return;
        size += (size_t)came;
        size_t taken = take(size, at, file);
        memmove(held, held + taken, size - taken);
        size -= taken;
        at += taken;
    }
}

/* Puts the rows from one place up to another into the order of their streams, each stream's in the order in which they came. */
static void sort_part(size_t from, size_t past) {
    size_t first = from;
    for (size_t at = 0; at < known; at++)
        streams[at].count = 0;
    for (size_t at = from; at < past; at++)
        streams[rows[at].stream].count++;
    for (size_t at = 0; at < known; at++) {
        streams[at].first = first;
        first += streams[at].count;
    }
    for (size_t at = from; at < past; at++)
        sorted[streams[rows[at].stream].first++] = rows[at];
}

/* All rows in that order, or those of each part. */
static void sort(uint64_t part) {
    sorted = malloc((count + 1) * sizeof *sorted);
    check(sorted == NULL, "rows");
    for (size_t from = 0, past; from < count; from = past) {
        past = part ? from + 1 : count;
        while (past < count && rows[past].file == rows[from].file && rows[past].at / part == rows[from].at / part)
            past++;
        sort_part(from, past);
    }
    free(rows);
}

static void append(const char *bytes, size_t size) {
    memcpy(out + filled, bytes, size);
    filled += size;
    place += size;
    if (filled >= PIECE) {
        check(write(segment, out, filled) != (ssize_t)filled, "write");
        filled = 0;
    }
}

static void put(const char *record, size_t size) {
    static char sync[SYNC] = "\xff\xff\xff\xff";
    if (place >= last_sync + BETWEEN) {
        append(sync, SYNC);
        last_sync = place;
    }
    append(record, size);
}

/* How many bytes are read at once from a row's record on. */
static size_t reach(size_t at, uint64_t gap) {
    const struct row *row = &sorted[at];
    uint64_t end = row->at + row->size;
    for (at++; at < count; at++) {
        const struct row *next = &sorted[at];
        if (next->file != row->file || next->stream != row->stream || next->at > end + gap
            || next->at + next->size > row->at + WINDOW)
            break;
        end = next->at + next->size;
    }
    return end - row->at;
}

static void copy(const int *sinks, uint64_t gap, uint64_t part) {
    uint64_t from = 0, end = 0;
    int file = -1;
    for (size_t at = 0; at < count; at++) {
        const struct row *row = &sorted[at];
        if (row->file != file || row->at < from || row->at + row->size > end) {
            file = row->file;
            from = part ? row->at - row->at % part : row->at;
            size_t size = part ? part + BEHIND : reach(at, gap);
            ssize_t came = pread(sinks[file], window, size, (off_t)from);
            check(came < 0 || from + (size_t)came < row->at + row->size, "pread");
            end = from + (size_t)came;
        }
        put(window + (row->at - from), row->size);
    }
}

static double now(void) {
    struct timespec at;
    check(clock_gettime(CLOCK_MONOTONIC, &at) < 0, "clock");
    return (double)at.tv_sec + (double)at.tv_nsec / 1e9;
}

/* Removes the sinks, which nothing holds open any more, and says how many seconds it took. */
static double remove_all(const glob_t *names, const int *sinks) {
    for (size_t file = 0; file < names->gl_pathc; file++)
        check(close(sinks[file]) < 0, "close");
    double began = now();
    for (size_t file = 0; file < names->gl_pathc; file++)
        check(unlink(names->gl_pathv[file]) < 0, names->gl_pathv[file]);
    return now() - began;
}

int main(int words_count, char **words) {
    static int sinks[1024];
    static char pattern[4096];
    glob_t names;
    check(words_count != 4, "usage: segment_loop GAP PART FOLDER");
    uint64_t part = strtoull(words[2], NULL, 10);
    check(part + BEHIND > MOST, "the part is too long");
    int size = snprintf(pattern, sizeof pattern, "%s/*.done", words[3]);
    check(size < 0 || size >= (int)sizeof pattern, "the folder's name is too long");
    check(glob(pattern, 0, NULL, &names) != 0 || names.gl_pathc > 1024, "sinks");
    for (size_t file = 0; file < names.gl_pathc; file++) {
        sinks[file] = open(names.gl_pathv[file], O_RDONLY);
        check(sinks[file] < 0, names.gl_pathv[file]);
        gather(sinks[file], (uint16_t)file);
    }
    sort(part);
    segment = open("segment", O_WRONLY | O_APPEND | O_CREAT | O_EXCL, 0666);
    check(segment < 0, "segment");
    static char header[HEADER];
    append(header, HEADER);
    last_sync = place;
    copy(sinks, strtoull(words[1], NULL, 10), part);
    check(write(segment, out, filled) != (ssize_t)filled || fsync(segment) < 0, "segment");
    printf("%.6f\n", remove_all(&names, sinks));
    return 0;
}
