/*
 * A tracker host: hands the judge the bytes of two files and prints the cost or the refusal.
 *
 *     tracker_host TRACE SCHEDULE
 *
 * Exit status: 0 for a cost, 1 for a refusal, 2 for wrong usage, a file that cannot be read, or an
 * answer that cannot be written.
 */
#include <errno.h>
#include <inttypes.h>
#include <stdio.h>
#include <stdlib.h>
#include <string.h>

#include "judge.h"

enum { STATUS_COST = 0, STATUS_REFUSED = 1, STATUS_FAILED = 2 };

/* A file's bytes; bytes is never null once a file has been read. */
struct file {
    uint8_t *bytes;
    size_t len;
};

/* Makes room for at least one more byte; 0 if there is no memory. */
static int grow(struct file *file, size_t *room)
{
    if (file->len < *room) {
        return 1;
    }
    size_t more = *room == 0 ? 4096 : 2 * *room;
    uint8_t *bytes = realloc(file->bytes, more);
    if (bytes == NULL) {
        return 0;
    }
    file->bytes = bytes;
    *room = more;
    return 1;
}

/* Reads a stream to its end; 0 if that fails. */
static int read_all(FILE *stream, struct file *file)
{
    size_t room = 0;
    for (;;) {
        if (!grow(file, &room)) {
            return 0;
        }
        size_t got = fread(file->bytes + file->len, 1, room - file->len, stream);
        file->len += got;
        if (got == 0) {
            return !ferror(stream);
        }
    }
}

/* Reads a file by its name; says why and gives 0 if that fails. */
static int read_file(const char *name, struct file *file)
{
    errno = 0;
    FILE *stream = fopen(name, "rb");
    int ok = stream != NULL && read_all(stream, file);
    if (!ok) {
        fprintf(stderr, "tracker_host: %s: %s\n", name, errno != 0 ? strerror(errno) : "cannot be read");
    }
    if (stream != NULL) {
        fclose(stream);
    }
    return ok;
}

/* The words of tools/refusals; tools/test compares them. */
static const char *words(int64_t refusal)
{
    switch (refusal) {
    case JUDGE_BAD_K:
        return "k is 0 or above 256";
    case JUDGE_BAD_A:
        return "a is 0 or above k";
    case JUDGE_TOO_MANY_REQUESTS:
        return "the trace has too many requests: a program takes 4,096, the judge 65,536";
    case JUDGE_BAD_MARK:
        return "two bytes where a mark is due are no mark, or a mark that belongs elsewhere";
    case JUDGE_CUT_FILE:
        return "a file is empty, or stops before a record is complete";
    case JUDGE_BAD_SCHEDULE:
        return "a record of the schedule does not fit the trace or the pages held";
    case JUDGE_TOO_MANY_PAGES:
        return "more than k pages are held after a request";
    case JUDGE_EMPTY_RUN:
        return "a run (RR) of no request";
    default:
        return "unknown refusal";
    }
}

/* Prints the judge's answer and gives the exit status. An answer counts once it has left the buffer. */
static int report(int64_t answer)
{
    errno = 0;
    if (answer >= 0) {
        printf("cost %" PRId64 "\n", answer);
    } else {
        printf("refused %" PRId64 ": %s\n", -answer, words(-answer));
    }
    int failed = ferror(stdout);
    if (fclose(stdout) != 0 || failed) {
        fprintf(stderr, "tracker_host: standard output: %s\n",
                errno != 0 ? strerror(errno) : "cannot be written");
        return STATUS_FAILED;
    }
    return answer >= 0 ? STATUS_COST : STATUS_REFUSED;
}

int main(int argc, char **argv)
{
    if (argc != 3) {
        fprintf(stderr, "usage: tracker_host TRACE SCHEDULE\n");
        return STATUS_FAILED;
    }
    struct file trace = {NULL, 0};
    struct file schedule = {NULL, 0};
    int status = STATUS_FAILED;
    if (read_file(argv[1], &trace) && read_file(argv[2], &schedule)) {
        status = report(judge(trace.bytes, trace.len, schedule.bytes, schedule.len));
    }
    free(trace.bytes);
    free(schedule.bytes);
    return status;
}
