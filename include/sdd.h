/* sdd.h: the store for SDD files, for programs in C and in languages that speak C.
 *
 * Link the library that `host/library` makes and names (x86-64: the archive of `rt lib`), or that of
 * `host/library TARGET` for another processor. Rust programs use the crate host/sdd.
 * sdd_plain.h beside this file has, in plain C that is not proved, the entry's 54 bytes from fields
 * and back, and a sentence for each refusal. host/example/save.c saves a scan to a real file.
 *
 * For every call:
 *
 * - It takes every input: no call has a condition that its caller must meet first, beyond that the
 *   memory lent is there. It always returns, allocates nothing and keeps nothing between calls, so
 *   calls on different memory may run at the same time.
 * - A slice is a pointer and then a length in elements. Where the length is 0 the pointer may be
 *   anything, also null. `about` is 54 readable bytes. What is lent to one call does not overlap.
 * - It computes with integers alone. A scan's two lengths, which are doubles, are worked out from their
 *   bits, and an entry's floats are handed on, so that a processor without floats needs no routine
 *   for them: the library asks for memcpy and memset, where a processor has no loads of any place for
 *   memmove too, and for nothing else.
 * - Only memory lent as not `const` is ever written, and only where the call's own comment says so.
 *   A refused call writes nothing.
 * - `why` is {0, 0} where the call is accepted. Else it is the paper's refusal number with its slot
 *   or reason (0 where there is none), and every other field of the answer is 0, but for two: the job of
 *   a refused step is the job that was lent, and the link of a refused link_take the link that was lent.
 *
 * Stack: the calls allocate nothing, so their tables lie on the caller's stack, and a call on a file
 * that holds scans needs more than one on a blank file. SDD_STACK_.. below says what each call needs
 * at most. A thread with less ends in a crash, not in a refusal: give one that calls the library
 * SDD_STACK and what it needs itself.
 *
 * "The file" is all bytes lent, which may be more than are in use: what is in use follows from the
 * bootstrap. Records are numbered from 1, slots from 1, classes from 1. Numbers inside the file are
 * big-endian; numbers in these structs are the machine's own.
 *
 * Two forms of file. Bytes 28 to 31, the eighth 32-bit word, say which: 1 the current form, 0 the
 * old one from before 1993. An old file has N, D, L, M, U and counter as 16-bit words in bytes 0 to 11;
 * the rest of its record 1 is not judged. Its entries begin with first record, last record, magic
 * number and position code as 16-bit numbers; bytes 8 to 59 are as in the current form, and what
 * follows them is not judged. A 16-bit word stands for the 32-bit word of the same value, so a negative
 * one is above every limit; the counter alone has 16 plain bits. The type is 0. Ranges and rules are
 * the current form's. Where an entry's magic number is 2 its scan is SDD version 1; where it is another
 * (1 is IEEE KEEP) the scan is listed and shown but not read (18). Old files are looked at, by open,
 * list, entry_at, show, read, gaps_zero, find and the three calls of the link. They are not changed: save,
 * keep and clear answer 2 and a step 14, and blank makes files of the current form alone. to_current and
 * to_old write a file's bootstrap and index in the other form into other memory; the data section is the
 * same in both.
 *
 * The refusals by number. Each call's comment has its own in the order in which they are looked
 * for. A call that looks at a file has "open's own", 1 and then 3 to 8 as numbered; one that begins
 * a change has 1 to 8. find, which looks at no index, has 1 and then 3 to 5. Then come 9 or 12, 10, 18, 11,
 * 13 (so a keep's 12 comes before its 11); a list's and a find's 17 last; a conversion's 17 and then its 19;
 * a step's 14 first, and of a confirming step then open's own and 15. The link's 17 comes first, and its 20
 * where a rule can be judged only by bytes that have not come: after 1, and again after 5.
 *
 *    1  fewer than 512 bytes
 *    2  save, keep, clear: the file has the old form (word 8 is 0), which is not changed
 *    3  no version that is known (word 8 is neither 0 nor 1)
 *    4  a bootstrap number outside its range, or a capacity above 4,096
 *    5  the bootstrap speaks of more bytes than were lent
 *    6  the lowest entry up to U that is neither empty nor in range; value: its slot
 *    7  the lowest entry above U that is not empty; value: its slot
 *    8  the lowest slot that shares a record with a smaller one; value: the slot
 *    9  the slot lies outside 1 to capacity
 *   10  the slot is empty
 *   11  the scan breaks a rule; value: the rule, 1 to 6
 *   12  keep: no slot is empty
 *   13  no free records in a row that are enough
 *   14  step: the job and the file (or the scan) disagree, or the job's own numbers cannot be: its data
 *       records, or the old scan's that it is to zero, do not lie in N+1 to the room, or it has written more
 *       than it has to write
 *   15  confirming step: the entry or the scan's records are not what the job gives, or a record of the old
 *       scan is not all zeros
 *   16  blank: sizes outside their ranges, or too large for what was lent
 *   17  list, find, to_current, to_old: what was lent for the answer is too short to hold it; link_begin,
 *       link_take, link_finish: the row that was lent has fewer than 8,192 elements
 *   18  read: the entry of an old file says that the scan is not of version 1 (its magic is not 2)
 *   19  to_current, to_old: the file has the wanted form already, is of type 1, has a scan whose magic is
 *       not 2, or has a number that the old form cannot hold
 *   20  link_finish: not enough bytes have come to tell: fewer than 32, or fewer than bootstrap and index take
 */
#ifndef SDD_H
#define SDD_H

#include <stddef.h>
#include <stdint.h>

#ifdef __cplusplus
extern "C" {
#endif

/* The refusals by name, as `number` has them. */
enum {
  SDD_TOO_SHORT = 1,
  SDD_OLD_FORM = 2,
  SDD_UNKNOWN_VERSION = 3,
  SDD_BAD_BOOTSTRAP = 4,
  SDD_CUT_SHORT = 5,
  SDD_BAD_ENTRY = 6,
  SDD_ENTRY_ABOVE_USED = 7,
  SDD_SHARED_RECORD = 8,
  SDD_NO_SUCH_SLOT = 9,
  SDD_EMPTY_SLOT = 10,
  SDD_BAD_SCAN = 11,
  SDD_NO_EMPTY_SLOT = 12,
  SDD_NO_ROOM = 13,
  SDD_JOB_DISAGREES = 14,
  SDD_NOT_CONFIRMED = 15,
  SDD_BAD_SIZES = 16,
  SDD_ANSWER_TOO_LONG = 17,
  SDD_NOT_VERSION_ONE = 18,
  SDD_NOT_CONVERTIBLE = 19,
  SDD_NOT_ALL_CAME = 20
};

/* What a step did, as `done` has it. */
enum { SDD_WROTE = 0, SDD_SAVED = 1, SDD_CLEARED = 2 };

/* Which form a file has, as `version` has it. */
enum { SDD_OLD = 0, SDD_CURRENT = 1 };

/* What an entry's mode says, as `kind` has it. */
enum { SDD_OTHER = 0, SDD_CONTINUUM = 1, SDD_SPECTRAL_LINE = 2 };

/* `about`, the entry's bytes 8 to 61 that a save puts into the index beside the scan's records (bytes
 * of the current form, which alone is saved to; an old entry has its position code elsewhere). All
 * numbers are big-endian, floats IEEE; every bit is kept as it is given. Its bytes:
 *
 *    0 to  3  horizontal coordinate in degrees (Real*4)
 *    4 to  7  vertical coordinate in degrees (Real*4)
 *    8 to 23  source name, 16 characters; by custom blanks at its end
 *   24 to 27  scan number (Real*4)
 *   28 to 31  spectral line: frequency resolution in MHz; continuum: slew rate in degrees a second (Real*4)
 *   32 to 39  spectral line: rest frequency in MHz; continuum: integration time per point (Real*8)
 *   40 to 43  LST in hours (Real*4)
 *   44 to 47  UT date as YYYY.MMDD (Real*4)
 *   48 to 49  mode: 256 + type code continuum, 512 + type code spectral line, codes 0 to 48 (Integer*2)
 *   50 to 51  record x 64 + phase; -1 in files that hold no individual records (Integer*2)
 *   52 to 53  position code (Integer*2) */
#define SDD_ABOUT 54

/* The elements of the row that the calls of the link are lent: first and last record of each of 4,096 slots. */
#define SDD_LINK_ROW 8192

/* Stack that a call needs at most, in bytes: any call, and each. The tests measure it. */
#define SDD_STACK (168 * 1024)
#define SDD_STACK_OPEN (168 * 1024)
#define SDD_STACK_LIST (168 * 1024)
#define SDD_STACK_ENTRY_AT (168 * 1024)
#define SDD_STACK_SHOW (168 * 1024)
#define SDD_STACK_READ (168 * 1024)
#define SDD_STACK_CLASS (1 * 1024)
#define SDD_STACK_DATA (1 * 1024)
#define SDD_STACK_BLANK (1 * 1024)
#define SDD_STACK_SAVE (168 * 1024)
#define SDD_STACK_KEEP (168 * 1024)
#define SDD_STACK_CLEAR (168 * 1024)
#define SDD_STACK_STEP (168 * 1024)
#define SDD_STACK_TO_CURRENT (168 * 1024)
#define SDD_STACK_TO_OLD (168 * 1024)
#define SDD_STACK_GAPS_ZERO (168 * 1024)
#define SDD_STACK_FIND (1 * 1024)
#define SDD_STACK_LINK_BEGIN (1 * 1024)
#define SDD_STACK_LINK_TAKE (1 * 1024)
#define SDD_STACK_LINK_FINISH (136 * 1024)

/* Why a call was refused; {0, 0} where it was not. */
typedef struct {
  uint32_t number; /* 1 to 20 as above, 0: accepted */
  uint32_t value;  /* the slot (6, 7, 8) or the rule (11), else 0 */
} sdd_refusal;

/* The sizes of a file that opens. */
typedef struct {
  sdd_refusal why;
  uint64_t n;        /* records of bootstrap and index, 2 to 513 */
  uint64_t d;        /* data records */
  uint64_t l;        /* bytes per record, 512 to 4,096 */
  uint64_t m;        /* bytes per index entry, 64 to l, divides l */
  uint64_t u;        /* entries in use: at least the highest slot with a scan. A job that ran to its end
                        leaves just that slot, or 0; after a cut, or from elsewhere, it may be higher */
  uint64_t counter;  /* goes up by one at each job; 32 bits, after all ones comes zero; old form: 16 bits */
  uint64_t type;     /* 0 data, 1 individual records; old form: 0 */
  uint64_t capacity; /* slots, at most 4,096 */
  uint64_t room;     /* whole records lent, at most 1,000,000 */
  uint64_t version;  /* 0 old, 1 current: SDD_OLD, SDD_CURRENT */
} sdd_opened;

/* How many scans were listed, or found. */
typedef struct {
  sdd_refusal why;
  uint64_t scans;
} sdd_listed;

/* Yes or no. */
typedef struct {
  sdd_refusal why;
  uint64_t yes; /* 1 yes; 0 no, and where the call was refused */
} sdd_answer;

/* Bytes from .. to (not including `to`) of what was lent. */
typedef struct {
  sdd_refusal why;
  uint64_t from, to;
} sdd_span;

/* One index entry. Floats come as their bits, so that nothing is lost, not-a-numbers included. */
typedef struct {
  sdd_refusal why;
  uint32_t first, last;          /* the scan's records */
  uint32_t horizontal, vertical; /* coordinates: bits of Real*4 */
  uint8_t  source[16];           /* source name, as it stands in the file */
  uint32_t scan;                 /* scan number: bits of Real*4 */
  uint32_t field4;               /* bits of Real*4: resolution (spectral line) or slew rate (continuum) */
  uint64_t field8;               /* bits of Real*8: rest frequency in MHz or integration time */
  uint32_t lst, date;            /* LST, UT date: bits of Real*4 */
  int16_t  mode;                 /* 256 to 304 continuum, 512 to 560 spectral line */
  int16_t  number;               /* record x 64 + phase */
  int16_t  position;             /* position code */
  int16_t  magic;                /* old form: 1 IEEE KEEP, 2 SDD version 1; current form, which has none: 0 */
  uint16_t kind;                 /* what the mode says: SDD_OTHER, SDD_CONTINUUM or SDD_SPECTRAL_LINE */
  float    single_value;         /* the value of field4; some NaN where its bits are one's */
  double   double_value;         /* the value of field8 likewise */
} sdd_entry;

/* A save, keep or clear under way. It is a value: copy it, keep it, lend it to the next step.
 * A dropped job is one that is stepped no more; nothing needs to be freed. A job made by hand is
 * taken like any other: a step either refuses it with 14 or does what these fields say.
 *
 * To begin a job on a file is to drop every other one on it. Two that are stepped by turns are not always
 * refused: one that is begun between the other's record 1 and its index record takes the same data
 * records, and a scan is lost; and `lowers`, `old_first` and `old_count` say what was so when their own job
 * was begun, so that one of the two may zero records that the other has filled since. */
typedef struct {
  uint64_t saves;     /* 1 a save or keep; 0 a clear, handed out with scan_len, first and about 0,
                         of which a step looks at neither first nor about; any other value: a step
                         answers 14 */
  uint64_t slot;      /* the slot that is saved to or cleared */
  uint64_t scan_len;  /* bytes of the scan: the same scan is lent to every step */
  uint64_t file_len;  /* bytes of the file: the same number is lent to every step */
  uint64_t first;     /* the first of the scan's new records */
  uint64_t written;   /* records written so far */
  uint64_t lowers;    /* 1 a clear of the slot that was the highest with a scan when it was begun: it
                         writes record 1 once more, with a lower U. Every other job is handed out with
                         0. Of a clear made by hand it decides that write, whatever the slot is; of a
                         save 0 and 1 are not told apart, and it comes back as it was lent. Any other
                         value, of either: a step answers 14 */
  uint64_t old_first; /* the records of the scan that is replaced or cleared, as the slot had them when the */
  uint64_t old_count; /* job was begun: the first of them, and how many. The job's last writes put zeros
                         over them. 0, 0 where the slot held nothing, so of every keep. Of a job made by
                         hand they decide these writes, whatever the slot held, also where they name
                         records of other scans or the job's own new ones. Where old_count is not 0 and
                         one of these records lies outside N+1 to the room, a step answers 14; where it
                         is 0, old_first is not looked at. Both come back as they were lent */
  uint8_t  boot[32];  /* the file's first 32 bytes as the job was begun on or last wrote them */
  uint8_t  about[54]; /* the entry's bytes 8 to 61 */
} sdd_job;

/* A job begun; the job is all zeros where it was refused. */
typedef struct {
  sdd_refusal why;
  sdd_job job;
} sdd_begun;

/* What a step did, and the job to lend to the next one. */
typedef struct {
  sdd_refusal why;
  uint64_t done;    /* SDD_WROTE, SDD_SAVED or SDD_CLEARED */
  uint64_t record;  /* the record written, 0 when confirming */
  uint64_t written; /* records written so far, this one included */
  sdd_job job;
} sdd_stepped;

/* The verdict on a file that comes in pieces, under way. It is a value: copy it, keep it, lend it to the next
 * call together with the row as the last call left it. To drop it is to lend it no more; nothing needs to be
 * freed. Its fields are the library's: a program lends them back as they were. A link made by hand is taken like
 * any other, with any row: the calls do what these fields and the row say, and touch nothing outside the row. */
typedef struct {
  uint8_t  boot[32];  /* the file's first 32 bytes, as far as they have come; zeros behind them */
  uint64_t length;    /* the file's length in bytes, as link_begin was given it */
  uint64_t came;      /* how many bytes have come that count: never more than bootstrap and index take */
  uint64_t index_end; /* N x L, the place at which the index ends; 0 while fewer than 32 bytes have come, and
                         where they break a rule */
} sdd_link;

/* The link to lend to the next call; of zeros where link_begin was refused, and as it was lent where link_take
 * was. */
typedef struct {
  sdd_refusal why;
  sdd_link link;
} sdd_linked;

/* Judges the file and answers its sizes and its form.
 * Lent: the file, to look at. Refusals: open's own, 1 and then 3 to 8. */
sdd_opened sdd_open(const uint8_t *file, size_t file_len);

/* Lists the scans in slot order: slot, first and last record, three elements of `out` for each.
 * Lent: the file, to look at; `out`, out_len elements to write. Answered: the number of scans; the
 * elements after 3 x scans are not touched, and 3 x capacity elements are always enough.
 * Refusals: 1, 3 to 8, then 17 where out_len is less than 3 x scans. */
sdd_listed sdd_list(const uint8_t *file, size_t file_len, uint32_t *out, size_t out_len);

/* Answers the index entry of a slot, with its magic number where the file has the old form.
 * Lent: the file, to look at. Refusals: 1, 3 to 8, then 9, then 10 where the slot is empty. */
sdd_entry sdd_entry_at(const uint8_t *file, size_t file_len, uint64_t slot);

/* Shows a slot's records: the part of the file from its first record to the end of its last. An old
 * file's are shown whatever its magic number says they are.
 * Lent: the file, to look at. Refusals: 1, 3 to 8, then 9, then 10. */
sdd_span sdd_show(const uint8_t *file, size_t file_len, uint64_t slot);

/* Reads a slot's scan: the part of the file that is the first HEADLEN + DATALEN bytes of its records.
 * Lent: the file, to look at. Refusals: 1, 3 to 8, then 9, then 10, then 18 where the entry of an old
 * file has a magic number other than 2, then 11 with the first of rules 1 to 5 that the records break. */
sdd_span sdd_read(const uint8_t *file, size_t file_len, uint64_t slot);

/* Answers where class `number` of a scan stands: bytes of the run.
 * Lent: a run of bytes (a scan, or the records of one), to look at. Answered: an empty part where
 * the number lies outside 1 to the count of classes.
 * Refusals: 11 with the first of rules 1 to 5 that the run breaks. */
sdd_span sdd_class(const uint8_t *run, size_t run_len, uint64_t number);

/* Answers where the data of a scan stand: DATALEN bytes of the run, from HEADLEN on.
 * Lent: a run of bytes, to look at. Refusals: 11 with the first of rules 1 to 5 that it breaks. */
sdd_span sdd_data(const uint8_t *run, size_t run_len);

/* Makes a file with no scans, of the current form (sdd_to_old makes an old one of it): writes N records
 * (bootstrap and an empty index) and nothing beyond.
 * Lent: the file, whose first n x l bytes are written where the call is accepted.
 * Refusals: 16. */
sdd_refusal sdd_blank(uint8_t *file, size_t file_len, uint64_t n, uint64_t l, uint64_t m);

/* Begins to save a scan to a slot, whether or not the slot has one. Nothing is written yet: step the
 * job, with the same scan, until it is confirmed. The scan goes to the lowest free records in a row
 * that hold it; the slot's present scan stays whole and listed until the index record is written. Then
 * its records are written over with zeros, one a step: the job's old_first and old_count say which.
 * Lent: the file, the scan and the entry's bytes 8 to 61, all to look at.
 * Refusals: 1 to 8 (2 on an old file), then 9, then 11 with the first of rules 1 to 6 that the scan
 * breaks, then 13. */
sdd_begun sdd_save(const uint8_t *file, size_t file_len, uint64_t slot, const uint8_t *scan,
                   size_t scan_len, const uint8_t about[54]);

/* Begins to keep a scan: a save to the lowest empty slot, which the job names. It has no old scan to zero.
 * Refusals: 1 to 8 (2 on an old file), then 12, then 11, then 13. */
sdd_begun sdd_keep(const uint8_t *file, size_t file_len, const uint8_t *scan, size_t scan_len,
                   const uint8_t about[54]);

/* Begins to clear a slot. Nothing is written yet: step the job, with an empty scan. Where no higher slot has
 * a scan the job's `lowers` is 1, and it writes one record more. The cleared scan's records, the job's
 * old_first and old_count, are written over with zeros at its end.
 * Lent: the file, to look at. Refusals: 1 to 8 (2 on an old file), then 9, then 10. */
sdd_begun sdd_clear(const uint8_t *file, size_t file_len, uint64_t slot);

/* Does the next step of a job. Each step writes at most one record, in this order:
 * - of a save the scan's k records (the last padded with zeros);
 * - record 1;
 * - the slot's entry in its index record;
 * - of a clear whose `lowers` is 1, record 1 again;
 * - zeros over each of the old_count records from old_first on, the lowest first.
 * `record` says which, and `written` how many so far. The step after the last write writes nothing, judges
 * the file and compares what the job should have left there: the entry, the scan's records, and zeros in the
 * old scan's. It alone answers Saved or Cleared. So a save is confirmed at step k+3+old_count, and a clear at
 * step 3+lowers+old_count. A confirmed job stepped again is judged again: one that zeroed an old scan gets 15
 * once a later save's data stand in those records (and 14 once that save has written record 1).
 *
 * The first write of record 1 puts the counter one higher, raises D to the end of a save's records, and
 * puts U at the highest slot with a scan, the job's own counted. That is the highest slot up to capacity,
 * also above U, whose entry does not have both first and last 0 in the file lent to this very step. So
 * every save, keep and clear also LOWERS a U that was too high, as after a cut. The second write of record 1
 * leaves D and the counter as they are, and puts U at the highest slot with a scan that is left, or at 0.
 * The confirming step does not ask whether U is the highest slot, nor does open.
 *
 * A step does no input or output: it writes into lent memory, and Saved is said of lent memory. Two
 * things are the caller's, and without them Saved means nothing:
 * - write the record that a step names to the device and make it durable before the next step;
 * - lend the confirming step bytes READ BACK from the device, past the system's cache: records 1 to N,
 *   the scan's records and the old scan's, in memory of the file's length. On the memory that the steps
 *   themselves wrote, it answers Saved whatever became of the file. Fill that memory with something else
 *   before it is read into, and with no zeros where the old scan's records go: a read that fills nothing in
 *   would pass for a device that has zeros there.
 * host/example/save.c does both.
 *
 * If the machine stops between two steps, or the job
 * is dropped, the file still opens, and the slot shows its old scan until the index record is
 * written and the new one from then on. U may then be too high, until the next job. And records that belong
 * to no scan may be left with bytes in them: the new scan's until the index record is written, the old one's
 * from then on. No later job zeroes these, since each zeroes the run that its own slot had; sdd_gaps_zero asks
 * for them.
 *
 * Lent: the file, in which the one record is written where the step is accepted; the scan the job
 * was begun with (empty for a clear), to look at; the job as the last step handed it back.
 * Refusals: 14 first, and always on a file of the old form, whatever the job says; also where `saves` or
 * `lowers` is neither 0 nor 1, where old_count is not 0 and the run old_first to old_first+old_count-1 does
 * not lie in N+1 to the room (the numbers are taken as they are: no sum wraps round), or where `written` is
 * above the number of records that the job has to write (k+2+old_count of a save, 2+lowers+old_count of a
 * clear). The confirming step then also open's own, then 15. */
sdd_stepped sdd_step(uint8_t *file, size_t file_len, const uint8_t *scan, size_t scan_len,
                     sdd_job job);

/* Converts a file of the old form: writes its bootstrap and index, records 1 to N, as the current form has
 * them. These n x l bytes, with the file's own bytes from n x l on behind them, are the converted file: it
 * opens with the same N, D, L, M, U and counter, is of type 0, and has the same list, the same entries but
 * for the magic number, and the same records.
 * Record 1 gets the eight words and then zeros. An entry gets first and last record, its bytes 8 to 59 as
 * they are, the position code in bytes 60 and 61, and then zeros; an empty entry gets zeros, whatever it
 * held.
 * Lent: the file, to look at; `out`, other memory, whose first n x l bytes are written where the call is
 * accepted, and nothing beyond.
 * Refusals: open's own, 1 and then 3 to 8; then 17 where out_len is less than n x l, also of a file that has
 * the current form already; then 19 where it has, or where a scan's magic number is not 2 (an empty entry's
 * is not asked). */
sdd_refusal sdd_to_current(const uint8_t *file, size_t file_len, uint8_t *out, size_t out_len);

/* Converts a file of the current form to the old one, as sdd_to_current does the other way. Record 1 gets
 * the six words and then zeros, an entry its first and last record, magic number 2 and position code, its
 * bytes 8 to 59 as they are, and then zeros; an empty entry gets zeros.
 * A file that is converted and then converted home again shows the same list and entries, and has the same
 * bytes where its padding and its empty entries were zeros.
 * Lent: as for sdd_to_current.
 * Refusals: open's own, 1 and then 3 to 8; then 17 where out_len is less than n x l, also of a file that has
 * the old form already; then 19 where it has, where it is of type 1, or where D, a scan's first or its last
 * record is above 32,767 or the counter above 65,535. */
sdd_refusal sdd_to_old(const uint8_t *file, size_t file_len, uint8_t *out, size_t out_len);

/* Asks whether the gaps are zeros: yes is 1 where every one of the records N+1 to N+D that belongs to no
 * listed scan is all zeros, else 0. Records beyond N+D are not looked at. A file of either form is asked.
 * Jobs as save, keep and clear hand them out, run to their confirmation one after the other, do not turn a
 * yes into a no. One that is cut or dropped may, with what it has left of the old scan or of the new one, and
 * no later save, keep or clear makes up for it but by chance. What is left there is no damage, but whoever
 * has the file can read it.
 * Lent: the file, to look at, with all of records 1 to N+D. Refusals: open's own, 1 and then 3 to 8. */
sdd_answer sdd_gaps_zero(const uint8_t *file, size_t file_len);

/* Finds the scans of a file whose index is lost: by their own bytes, with a good record 1 and without a look
 * at the index. From record N+1 on, the run from that record to the end of record N+D is judged by rules 1 to
 * 5. Where it keeps them a scan is found, and the search goes on after the scan's last record; else at the next
 * record. Three elements of `out` for each find, in record order: its first record; its last, as HEADLEN +
 * DATALEN have it; and its number, SCAN: the 64 bits of class 1's third word, bytes 48 to 55 of the run, a
 * Real*8. Finds share no record. A file of either form is searched; an old entry's magic number is not asked.
 *
 * Where a file opens, its records of no scan are zeros, and each of its scans keeps the rules and fills its
 * records exactly, the finds are the scans of its list, each once. Elsewhere they need not be. A scan that was
 * replaced, cleared or cut off and is left in records of no scan is found too, and so is any data that look
 * like one: a find is no proof that the scan was ever listed, or that the records after its first are its own.
 * And a find that reaches too far hides what begins in the records that it takes up.
 *
 * Lent: the file, to look at, with all of records N+1 to N+D; `out`, out_len elements to write. Answered: the
 * number of finds, in `scans`; the elements after 3 x finds are not touched, and 3 x D elements are always
 * enough. How many are needed is not known before: where it is 17, lend more.
 * Refusals: 1, 3, 4, 5, then 17 where out_len is less than 3 x finds. */
sdd_listed sdd_find(const uint8_t *file, size_t file_len, uint64_t *out, size_t out_len);

/* Begins the verdict on a file of which no more is held than the piece that has just come: its length is given
 * first, then its bytes in pieces, then sdd_link_finish answers what sdd_open answers of the whole file. How the
 * file is cut makes no difference, and pieces may be empty. A file of either form is judged.
 *
 * The row is the working room of all three calls, and nothing else is: the first and the last record of slot s
 * are put together in its elements 2(s-1) and 2(s-1)+1. It is lent to each call as the last one left it. What it
 * holds before the first piece makes no difference, so that it need not be cleared; this call neither reads nor
 * writes its elements. A longer row is fine: elements past the first 8,192 are never touched.
 *
 *   uint32_t row[SDD_LINK_ROW];
 *   sdd_link link = sdd_link_begin(length, row, SDD_LINK_ROW).link;
 *   while ((piece_len = receive(piece)) > 0)
 *     link = sdd_link_take(link, piece, piece_len, row, SDD_LINK_ROW).link;
 *   sdd_opened verdict = sdd_link_finish(link, row, SDD_LINK_ROW);
 *
 * Lent: `row`, row_len elements. Answered: the link to lend to the next call.
 * Refusals: 17 where row_len is less than 8,192. The link is then zeros, the verdict on a file of length 0. */
sdd_linked sdd_link_begin(uint64_t length, uint32_t *row, size_t row_len);

/* Takes the next piece: the bytes of the file that follow those of the pieces before it. Its first 32 bytes go
 * into the link, those of the entries' first and last records into the row; every other byte of bootstrap and
 * index is counted. Whatever comes after that is passed over and counts for nothing: bytes past the index, so all
 * of the data section, and bytes past the length that was given; every byte where that length is below 512; and
 * every byte behind the first 32 where these break one of 3, 4 and 5. A piece that is passed over costs no more
 * the longer it is.
 *
 * Byte by byte, and so of a link made by hand too:
 * - where `length` is 512 or more and `came` below 32, the byte is put at boot[came] and `came` goes up by one.
 *   index_end becomes N x L where `came` is now 32 and `boot` breaks none of 3, 4 and 5 over `length`, else 0;
 * - else, where `came` is below index_end, it is byte number `came` of the file, counted from 0, and `came` goes up
 *   by one. Where the N, L, M and capacity that `boot` states are in their ranges, and it is a byte of the first or
 *   the last record of slot s, 1 to capacity, it is shifted into that number's element from below: a current number
 *   keeps the last four bytes that were shifted in, an old one the last two, as the 32-bit number of the same value;
 * - else it is passed over.
 *
 * Lent: the link; the piece, to look at; `row`, of whose first 8,192 elements those are written whose numbers the
 * piece has bytes of. Answered: the link to lend to the next call.
 * Refusals: 17 where row_len is less than 8,192. The link is then the one that was lent, and the piece has not
 * been taken: lend it again, with a row that is long enough. */
sdd_linked sdd_link_take(sdd_link link, const uint8_t *piece, size_t piece_len, uint32_t *row,
                         size_t row_len);

/* Answers the verdict on the file, as far as the bytes that have come tell: where bootstrap and index have come,
 * what sdd_open answers of all of it, with `room` by the length that was given. It may be asked at any time, as
 * often as one likes, and changes nothing: after 20 the next piece is taken as if nothing had been asked. That the
 * data section came is not asked, since open looks at none of it.
 * Lent: the link, and the row to look at.
 * Refusals: 17 where row_len is less than 8,192; then 1 where the length is below 512; then 20 where fewer than 32
 * bytes have come; then 3, 4 and 5, over the length that was given; then 20 where fewer than N x L bytes have come;
 * then 6, 7 and 8. */
sdd_opened sdd_link_finish(sdd_link link, const uint32_t *row, size_t row_len);

#ifdef __cplusplus
}
#endif

#endif
