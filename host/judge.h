/*
 * The judge of the alpha-paging bench for C and C++: link target/staticlib/libjudge.a.
 *
 * The judge reads the bytes of a trace's file and of a schedule's file; docs/FORMAT.md says what they hold. It keeps
 * no state, writes to neither file and allocates nothing. A call needs 260 KiB of stack, whatever the files, and
 * nothing looks whether the calling thread has that.
 */
#ifndef JUDGE_H
#define JUDGE_H

#include <stddef.h>
#include <stdint.h>

#ifdef __cplusplus
extern "C" {
#endif

/* Why two files are refused. The judge answers with the number made negative; 8 to 12 are those of other calls. */
enum judge_refusal {
    JUDGE_BAD_K = 1,             /* k is not from 1 to 256 */
    JUDGE_BAD_A = 2,             /* a is not from 1 to k */
    JUDGE_TOO_MANY_REQUESTS = 3, /* more than 65,536 requests, each one of a run counted */
    JUDGE_BAD_MARK = 4,          /* no mark where one is due, or one that belongs elsewhere */
    JUDGE_CUT_FILE = 5,          /* a file is empty, or stops before a record is complete */
    JUDGE_BAD_SCHEDULE = 6,      /* the two KAs differ; a t is lower than before or of no request; an
                                    EV has no page or more than a, or stands behind a PF of its t; a
                                    page that is to go is not held, or one that is to come is */
    JUDGE_TOO_MANY_PAGES = 7,    /* a request leaves more than k pages */
    JUDGE_EMPTY_RUN = 13         /* a run (RR) in the trace has no request */
};

/*
 * The cost of the schedule, 0 or more: its number of bundles, if it is legal for the trace. Otherwise
 * the refusal's number made negative. An empty file may be given by any pointer that is not null.
 */
int64_t judge(const uint8_t *trace, size_t trace_len, const uint8_t *schedule, size_t schedule_len);

#ifdef __cplusplus
}
#endif

#endif
