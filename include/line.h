/*
 * The line controller's calls for C and C++. docs/MANUAL.md is the reference manual. Link with the archive that
 * tests/support/archive makes, target/staticlib/libline.a; it is for x86-64, and of the C library it needs memcpy and
 * memset alone.
 *
 * All numbers are 32-bit unsigned words. Each function returns 0 for a grant, or else one of the refusal numbers
 * below, the first that applies in the order given at the function. A refusal leaves every buffer as it was, but for
 * work memory, which is open after any call that takes it.
 *
 * What the caller owes, and all that it owes: each pointer is aligned, is not null and leads to as many elements as
 * the count beside it says (an answer array to as many as are named); the buffers of one call do not overlap; and
 * meanwhile no other thread writes them, nor reads those that the call writes. Any numbers, any contents and any counts
 * are taken; one out of the ranges given at the function is refused.
 */
#ifndef LINE_H
#define LINE_H

#include <stddef.h>
#include <stdint.h>

#ifdef __cplusplus
extern "C" {
#endif

/* Least counts of words: a station area, work memory, a path buffer. */
#define LINE_AREA_WORDS 3491
#define LINE_WORK_WORDS 16384
#define LINE_PATH_WORDS 31

/* Most nodes, links and held circuits; the words of a link; the words of a full link table. */
#define LINE_MOST_NODES 32
#define LINE_MOST_LINKS 256
#define LINE_MOST_CIRCUITS 64
#define LINE_LINK_WORDS 5
#define LINE_TABLE_WORDS 1280

/* Where an area's links, circuits and hold times begin, and the words of a circuit: number, units, link count, path words.
   The hold time of node v is word LINE_FIRST_HOLD + v. In a well-formed area the circuits stand by rising number, and in each
   the path words past its link count are 0; the first n hold words are at most LINE_MOST_HOLD. Words past the last link, past
   the last circuit and past the n-th hold time may be anything. */
#define LINE_FIRST_LINK 3
#define LINE_FIRST_CIRCUIT 1283
#define LINE_CIRCUIT_WORDS 34
#define LINE_FIRST_HOLD 3459

/* All jobs in one call: the words of a job, the most jobs, the words of a full job list, and the words that answer a job. A job is
   its circuit number, s, t, units, delay bound, cost bound and coefficient: job k begins at word LINE_JOB_WORDS * k. Its answer
   begins at word LINE_ANSWER_WORDS * k: the refusal's number or 0, problem, delay, cost and number of links, and from word 5 of it
   31 path words. Every word of an answer that is not used is 0. */
#define LINE_JOB_WORDS 7
#define LINE_MOST_JOBS 64
#define LINE_JOB_LIST_WORDS 448
#define LINE_ANSWER_WORDS 36

/* Ranges of a net: a delay, a cost, a capacity and a hold time may be 0. */
#define LINE_LEAST_NODES 2
#define LINE_MOST_DELAY 1000000
#define LINE_MOST_COST 1000000
#define LINE_MOST_CAPACITY 65535
#define LINE_MOST_HOLD 1000000

/* Ranges of a request and of a circuit; x is the coefficient times the fewest links of any usable path. With a delay bound
   or a cost bound of 0 nothing of that weight may be spent. A path's delay is its links' delays and the hold times of the
   nodes between them, never of s or t: 31 links and 30 nodes take at most 61,000,000. */
#define LINE_LEAST_UNITS 1
#define LINE_MOST_UNITS 65535
#define LINE_LEAST_BOUND 0
#define LINE_MOST_DELAY_BOUND 61000000
#define LINE_MOST_COST_BOUND 31000000
#define LINE_LEAST_COEFFICIENT 1
#define LINE_MOST_COEFFICIENT 8
#define LINE_MOST_X 248
#define LINE_MOST_PATH_LINKS 31
#define LINE_LEAST_CIRCUIT_NUMBER 1
#define LINE_MOST_CIRCUIT_NUMBER 65535

/* A class table: the words of a row (units, delay bound, cost bound, coefficient), most rows, words of a full table. */
#define LINE_ROW_WORDS 4
#define LINE_MOST_ROWS 64
#define LINE_CLASS_WORDS 256

/* The words of the sample table, with the classes 0 card, 1 PIN, 2 tank, 3 prices, 4 service, 5 pictures. */
#define LINE_SAMPLE_WORDS 24

/* What a call returns: granted, or why it was refused. */
#define LINE_GRANTED 0
#define LINE_AREA_TOO_SHORT 1        /* load: the area has under 3,491 words */
#define LINE_NODES_OUT_OF_RANGE 2    /* load: n is not 2 to 32 */
#define LINE_TABLE_LENGTH 3          /* load: the words are no multiple of 5, or over 1,280 */
#define LINE_LINK_OUT_OF_RANGE 4     /* load: a field of a link is out of range */
#define LINE_AREA_NOT_WELL_FORMED 5  /* the area is too short or not well formed */
#define LINE_WORK_TOO_SHORT 6        /* work memory has under 16,384 words */
#define LINE_PATH_TOO_SHORT 7        /* the path buffer has under 31 words */
#define LINE_REQUEST_OUT_OF_RANGE 8  /* s, t or another number of the request is out of range, or s is t */
#define LINE_NO_PATH 9               /* no usable path exists */
#define LINE_NO_SOLUTION 10          /* a usable path exists, but neither problem has a solution */
#define LINE_CIRCUIT_NUMBER 11       /* the circuit number is out of range or held */
#define LINE_CIRCUITS_FULL 12        /* 64 circuits are held */
#define LINE_NOT_HELD 13             /* no held circuit has this number */
#define LINE_LIST_TOO_SHORT 14       /* the buffer is shorter than the number of held circuits */
#define LINE_NO_SUCH_LINK 15         /* the link is not below m */
#define LINE_NO_SUCH_CLASS 16        /* the class is not below the row count */
#define LINE_FILE_NO_TRAILER 17      /* the file has under 16 bytes or does not end with RTLK */
#define LINE_FILE_LENGTH 18          /* m is over 256, or the parts do not make the file's length */
#define LINE_TABLE_TOO_SHORT 19      /* the table buffer has under 5 m words */
#define LINE_CLASSES_LENGTH 20       /* class table: no words, or over 256, or no multiple of 4 */
#define LINE_CLASSES_OUT_OF_RANGE 21 /* class table: a number of a row is out of range */
#define LINE_HOLDS_OUT_OF_RANGE 22   /* load: the hold times are not n, or one is out of range */
#define LINE_JOBS_LENGTH 23          /* the words of a job list are no multiple of 7, or over 448 */
#define LINE_ANSWERS_TOO_SHORT 24    /* the answer buffer has under 36 words for each job */

/*
 * Loads a link table, 5 words a link: from, to, delay, cost, capacity; and n hold times, holds[v] for node v: the ms for
 * which it holds each message before sending it on. It writes n, m, 0, the links and the n hold times into the area; the
 * other words keep theirs, the hold words past n among them.
 * Ranges: n 2 to 32; link_words a multiple of 5, at most 1,280; hold_words equal to n; area_words at least 3,491; from
 * below n; to below n and not from; delay 0 to 1,000,000; cost 0 to 1,000,000; capacity 0 to 65,535; hold 0 to
 * 1,000,000.
 * Refusals: 1, 2, 3, 4, 22.
 */
uint32_t line_load(uint32_t n, const uint32_t *links, size_t link_words, const uint32_t *holds, size_t hold_words,
                   uint32_t *area, size_t area_words);

/*
 * Quotes a path from s to t: answer[0] to answer[3] are the problem (1 or 2), delay, cost and number of links; the
 * path's links stand in as many first words of path. The delay is the sum of the links' delays and of the hold times of
 * the nodes between them; for summing and for scaling a link's delay includes the hold time of the node that it enters,
 * unless that node is t.
 * Ranges: area_words at least 3,491; work_words at least 16,384; path_words at least 31; s below n; t below n and not
 * s; units 1 to 65,535; delay_bound 0 to 61,000,000; cost_bound 0 to 31,000,000; coefficient 1 to 8.
 * Refusals: 5, 6, 7, 8, 9, 10.
 */
uint32_t line_quote(const uint32_t *area, size_t area_words, uint32_t *work, size_t work_words,
                    uint32_t *path, size_t path_words, uint32_t s, uint32_t t, uint32_t units,
                    uint32_t delay_bound, uint32_t cost_bound, uint32_t coefficient, uint32_t answer[4]);

/*
 * Answers as a quote does, and puts the circuit at its place in the area, by rising number: circuits with a higher number
 * move one place on. Its unused path words are 0. The words past the last circuit are open after, up to word 3,458; n, m,
 * words 3 to 1,282 and words past 3,458 are not touched. Its number must not be held.
 * Ranges: area_words at least 3,491; work_words at least 16,384; path_words at least 31; circuit 1 to 65,535; s below
 * n; t below n and not s; units 1 to 65,535; delay_bound 0 to 61,000,000; cost_bound 0 to 31,000,000; coefficient 1
 * to 8.
 * Refusals: 5, 6, 7, 8, 11, 12, 9, 10.
 */
uint32_t line_admit(uint32_t *area, size_t area_words, uint32_t *work, size_t work_words, uint32_t *path,
                    size_t path_words, uint32_t circuit, uint32_t s, uint32_t t, uint32_t units,
                    uint32_t delay_bound, uint32_t cost_bound, uint32_t coefficient, uint32_t answer[4]);

/*
 * Releases a circuit: it goes, and the others remain; those behind it move one place back, which closes the gap. The same
 * words are open and the same not touched as after an admission. Its number must be held.
 * Ranges: area_words at least 3,491; circuit 1 to 65,535.
 * Refusals: 5, 13.
 */
uint32_t line_release(uint32_t *area, size_t area_words, uint32_t circuit);

/*
 * Admits up to 64 jobs, 7 words a job, as line_admit would admit each in this order with a path buffer of 31 words, on the area
 * that the job before it left. A refused job does not stop the later ones. answer[0] is the number of jobs, granted or not; 36
 * words of answers for each job say what it was answered: 0, problem, delay, cost, number of links and the path's links, or the
 * refusal's number; the other words of these 36 are 0. Words past the last job's keep theirs. No jobs are granted too, with 0. A
 * job's refusal is one of 8, 11, 12, 9 and 10, and the call returns 0. Of the area the same words are open after, and the same not
 * touched, as after an admission.
 * Ranges: area_words at least 3,491; work_words at least 16,384; job_words a multiple of 7, at most 448; answer_words at least 36
 * for each job. A job's numbers are judged as line_admit judges them.
 * Refusals: 5, 6, 23, 24.
 */
uint32_t line_admit_jobs(uint32_t *area, size_t area_words, uint32_t *work, size_t work_words, const uint32_t *jobs,
                         size_t job_words, uint32_t *answers, size_t answer_words, uint32_t answer[1]);

/*
 * Lists the numbers of the h held circuits, rising, in the first words of numbers, as the circuits stand in the area;
 * answer[0] is h. Words past them keep theirs.
 * Ranges: area_words at least 3,491; number_words at least h, and 64 always suffice.
 * Refusals: 5, 14.
 */
uint32_t line_list(const uint32_t *area, size_t area_words, uint32_t *numbers, size_t number_words,
                   uint32_t answer[1]);

/*
 * answer[0] is the free units of a link.
 * Ranges: area_words at least 3,491; link below m.
 * Refusals: 5, 15.
 */
uint32_t line_free_units(const uint32_t *area, size_t area_words, uint32_t link, uint32_t answer[1]);

/*
 * Checks a class table, 4 words a row: units, delay bound, cost bound, coefficient, in the ranges of a request.
 * Ranges: row_words a multiple of 4, from 4 to 256; units 1 to 65,535; delay_bound 0 to 61,000,000; cost_bound 0 to
 * 31,000,000; coefficient 1 to 8.
 * Refusals: 20, 21.
 */
uint32_t line_check_classes(const uint32_t *rows, size_t row_words);

/*
 * What a service class asks for, by a class table, which is checked first: answer[0] to answer[3] are the units, delay
 * bound, cost bound and coefficient of its row. Rows are numbered from 0.
 * Ranges: row_words a multiple of 4, from 4 to 256; service_class below the row count; units 1 to 65,535; delay_bound
 * 0 to 61,000,000; cost_bound 0 to 31,000,000; coefficient 1 to 8.
 * Refusals: 20, 21, 16.
 */
uint32_t line_class(const uint32_t *rows, size_t row_words, uint32_t service_class, uint32_t answer[4]);

/*
 * Writes the sample table, for a station that has no class table of its own.
 * Ranges: none.
 * Refusals: none.
 */
uint32_t line_sample_classes(uint32_t answer[24]);

/*
 * Reads a link file: answer[0] is n, answer[1] is m, and the words of the m links stand in the first 5 m words of
 * table. n and the links are checked by line_load.
 * Ranges: file_bytes at least 16; table_words at least 5 m, and 1,280 always suffice; m at most 256.
 * Refusals: 17, 18, 19.
 */
uint32_t line_read_link_file(const uint8_t *file, size_t file_bytes, uint32_t *table, size_t table_words,
                             uint32_t answer[2]);

#ifdef __cplusplus
}
#endif

#endif
