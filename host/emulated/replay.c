/* replay FILE: makes every call that FILE records, on the library that is linked, and compares each
 * whole answer and all memory with what the model answered when the file was recorded.
 *
 * host/compare/src/recorder.rs describes the file. Memory that is lent stands between guard pages,
 * by turns flush against the one before it and the one after it. Numbers in the file are
 * little-endian, as this program's are.
 */
#include "sdd.h"

/* The C library by hand: the toolchain has no headers of it. */
int open(const char *path, int flags, ...);
long lseek(int fd, long at, int from);
void *mmap(void *at, size_t len, int prot, int flags, int fd, long offset);
int mprotect(void *at, size_t len, int prot);
int munmap(void *at, size_t len);
int memcmp(const void *a, const void *b, size_t len);
void *memcpy(void *to, const void *from, size_t len);
void *memset(void *to, int byte, size_t len);
int printf(const char *format, ...);
void exit(int status);

enum { PROT_NONE = 0, PROT_READ = 1, PROT_READ_WRITE = 3, MAP_PRIVATE = 2, MAP_ANONYMOUS = 32 };
enum { CALLS = 19, LIST = 1, FIND = 15, UNTOUCHED = 0x5a };
/* a file above this size is not compared whole after every call, but when the next one comes */
#define LARGE ((size_t)1 << 20)
/* a multiple of every page size there is */
#define PAGE ((size_t)65536)

static const char *const NAMES[CALLS] = {"open", "list",  "entry", "show", "read",  "class",      "data",
                                         "blank", "save", "keep",  "clear", "step", "to_current", "to_old",
                                         "gaps_zero", "find", "link_begin", "link_take", "link_finish"};

static void stop(const char *why) {
  printf("replay: %s\n", why);
  exit(2);
}

/* ---- memory between guard pages */

typedef struct {
  uint8_t *base, *at;
  size_t mapped, len;
} lent;

static int turn;

static lent lend(size_t len) {
  lent memory;
  size_t inner = (len + PAGE - 1) / PAGE * PAGE;
  memory.len = len;
  memory.mapped = inner + 2 * PAGE;
  memory.base = mmap(NULL, memory.mapped, PROT_NONE, MAP_PRIVATE | MAP_ANONYMOUS, -1, 0);
  if (memory.base == (uint8_t *)-1) stop("no memory");
  if (inner > 0 && mprotect(memory.base + PAGE, inner, PROT_READ_WRITE) != 0) stop("no memory");
  memory.at = memory.base + PAGE + (turn++ % 2 == 0 ? 0 : inner - len);
  return memory;
}

static void drop(lent memory) {
  if (memory.base != NULL) munmap(memory.base, memory.mapped);
}

/* ---- the file of cases */

static const uint8_t *next;

static const uint8_t *bytes(size_t len) {
  const uint8_t *here = next;
  next += len;
  return here;
}

static uint64_t number(void) {
  uint64_t value;
  memcpy(&value, bytes(8), 8);
  return value;
}

static const uint8_t *map_file(const char *path) {
  int fd = open(path, 0);
  long len = fd < 0 ? -1 : lseek(fd, 0, 2);
  const uint8_t *at = len <= 0 ? (uint8_t *)-1 : mmap(NULL, len, PROT_READ, MAP_PRIVATE, fd, 0);
  if (at == (uint8_t *)-1) stop("the file of cases cannot be read");
  return at;
}

/* ---- an answer as a row of bytes: every field in the header's order, without padding */

static uint8_t row[256];
static size_t row_len;

static void put(const void *field, size_t len) {
  memcpy(row + row_len, field, len);
  row_len += len;
}

#define PUT(field) put(&(field), sizeof(field))

static void put_job(const sdd_job *job) {
  PUT(job->saves), PUT(job->slot), PUT(job->scan_len), PUT(job->file_len), PUT(job->first);
  PUT(job->written), PUT(job->lowers), PUT(job->old_first), PUT(job->old_count);
  PUT(job->boot), PUT(job->about);
}

static void put_opened(sdd_opened a) {
  PUT(a.why), PUT(a.n), PUT(a.d), PUT(a.l), PUT(a.m), PUT(a.u), PUT(a.counter), PUT(a.type);
  PUT(a.capacity), PUT(a.room), PUT(a.version);
}

static void put_linked(sdd_linked a) {
  PUT(a.why), PUT(a.link.length), PUT(a.link.came), PUT(a.link.index_end), PUT(a.link.boot);
}

static void put_span(sdd_span a) { PUT(a.why), PUT(a.from), PUT(a.to); }

static void put_begun(sdd_begun a) {
  PUT(a.why);
  put_job(&a.job);
}

static void put_stepped(sdd_stepped a) {
  PUT(a.why), PUT(a.done), PUT(a.record), PUT(a.written);
  put_job(&a.job);
}

static void put_listed(sdd_listed a) { PUT(a.why), PUT(a.scans); }

static void put_answer(sdd_answer a) { PUT(a.why), PUT(a.yes); }

/* every NaN value counts as one: its bits are compared in their own field */
static void put_entry(sdd_entry a) {
  uint32_t single = 0x7fc00000;
  uint64_t twice = (uint64_t)0x7ff8 << 48;
  if (a.single_value == a.single_value) memcpy(&single, &a.single_value, 4);
  if (a.double_value == a.double_value) memcpy(&twice, &a.double_value, 8);
  PUT(a.why), PUT(a.first), PUT(a.last), PUT(a.horizontal), PUT(a.vertical), PUT(a.source);
  PUT(a.scan), PUT(a.field4), PUT(a.field8), PUT(a.lst), PUT(a.date), PUT(a.mode), PUT(a.number);
  PUT(a.position), PUT(a.magic), PUT(a.kind), PUT(single), PUT(twice);
}

/* ---- the calls */

/* What is lent, and beside it the file, the second buffer and the working row as they should be. */
static lent file, wanted, scan, about, out, second, second_wanted, piece, working, working_wanted;

static sdd_job read_job(void) {
  sdd_job job;
  job.saves = number(), job.slot = number(), job.scan_len = number();
  job.file_len = number(), job.first = number(), job.written = number(), job.lowers = number();
  job.old_first = number(), job.old_count = number();
  memcpy(job.boot, bytes(32), 32);
  memcpy(job.about, bytes(54), 54);
  return job;
}

static sdd_link read_link(void) {
  sdd_link link;
  link.length = number(), link.came = number(), link.index_end = number();
  memcpy(link.boot, bytes(32), 32);
  return link;
}

/* Lends a row for so many bytes of elements, filled with what should stay where nothing is written. */
static void lend_out(size_t len) {
  drop(out);
  out = lend(len);
  memset(out.at, UNTOUCHED, out.len);
}

static void list(void) {
  size_t out_len = number();
  lend_out(out_len * sizeof(uint32_t));
  put_listed(sdd_list(file.at, file.len, (uint32_t *)out.at, out_len));
}

static void find(void) {
  size_t out_len = number();
  lend_out(out_len * sizeof(uint64_t));
  put_listed(sdd_find(file.at, file.len, (uint64_t *)out.at, out_len));
}

static void put_refusal(sdd_refusal why) { PUT(why); }

static void blank(void) {
  uint64_t n = number(), l = number(), m = number();
  put_refusal(sdd_blank(file.at, file.len, n, l, m));
}

/* The working row as a call takes it. */
static uint32_t *elements(void) { return (uint32_t *)working.at; }

static size_t working_len(void) { return working.len / sizeof(uint32_t); }

static void link_begin(void) { put_linked(sdd_link_begin(number(), elements(), working_len())); }

static void link_take(void) {
  put_linked(sdd_link_take(read_link(), piece.at, piece.len, elements(), working_len()));
}

static void link_finish(void) { put_opened(sdd_link_finish(read_link(), elements(), working_len())); }

/* Makes the call and leaves its answer in the row. */
static void make(int call) {
  row_len = 0;
  switch (call) {
  case 0: put_opened(sdd_open(file.at, file.len)); break;
  case LIST: list(); break;
  case 2: put_entry(sdd_entry_at(file.at, file.len, number())); break;
  case 3: put_span(sdd_show(file.at, file.len, number())); break;
  case 4: put_span(sdd_read(file.at, file.len, number())); break;
  case 5: put_span(sdd_class(scan.at, scan.len, number())); break;
  case 6: put_span(sdd_data(scan.at, scan.len)); break;
  case 7: blank(); break;
  case 8: put_begun(sdd_save(file.at, file.len, number(), scan.at, scan.len, about.at)); break;
  case 9: put_begun(sdd_keep(file.at, file.len, scan.at, scan.len, about.at)); break;
  case 10: put_begun(sdd_clear(file.at, file.len, number())); break;
  case 11: put_stepped(sdd_step(file.at, file.len, scan.at, scan.len, read_job())); break;
  case 12: put_refusal(sdd_to_current(file.at, file.len, second.at, second.len)); break;
  case 13: put_refusal(sdd_to_old(file.at, file.len, second.at, second.len)); break;
  case 14: put_answer(sdd_gaps_zero(file.at, file.len)); break;
  case FIND: find(); break;
  case 16: link_begin(); break;
  case 17: link_take(); break;
  case 18: link_finish(); break;
  default: stop("the file of cases has a call that is not known");
  }
}

/* Whether the elements of a listing or a search are the expected ones, and untouched after them. */
static int out_stands(int call) {
  size_t elements = number(), i;
  size_t len = elements * (call == FIND ? sizeof(uint64_t) : sizeof(uint32_t));
  const uint8_t *expected = bytes(len);
  if (call != LIST && call != FIND) return elements == 0;
  if (len > out.len || memcmp(out.at, expected, len) != 0) return 0;
  for (i = len; i < out.len; i++)
    if (out.at[i] != UNTOUCHED) return 0;
  return 1;
}

/* Whether the second buffer begins with what was converted, and is as it was after it. */
static int second_stands(void) {
  size_t len = number();
  const uint8_t *converted = bytes(len);
  if (len > second.len) return 0;
  memcpy(second_wanted.at, converted, len);
  return memcmp(second.at, second_wanted.at, second.len) == 0;
}

/* Whether the working row has the expected elements where it was written, and is as it was elsewhere. */
static int working_stands(void) {
  size_t count;
  for (count = number(); count > 0; count--) {
    size_t at = number() * sizeof(uint32_t);
    const uint8_t *element = bytes(sizeof(uint32_t));
    if (at >= working_wanted.len) return 0;
    memcpy(working_wanted.at + at, element, sizeof(uint32_t));
  }
  return memcmp(working.at, working_wanted.at, working.len) == 0;
}

/* One recorded call: whether answer and memory are as the model has them. */
static int agrees(int call) {
  size_t len, writes;
  int same;
  make(call);
  len = number();
  same = len == row_len && memcmp(row, bytes(len), len) == 0;
  if (len != row_len) stop("an answer has another length than was recorded");
  for (writes = number(); writes > 0; writes--) {
    size_t at = number(), size = number();
    memcpy(wanted.at + at, bytes(size), size);
  }
  if (wanted.len <= LARGE) same &= memcmp(file.at, wanted.at, wanted.len) == 0;
  same &= out_stands(call);
  same &= second_stands();
  same &= working_stands();
  return same;
}

static unsigned long made[CALLS], agreed, told, spoilt;

/* Looks at a file for the last time. */
static void last_look(void) {
  if (wanted.len > LARGE && memcmp(file.at, wanted.at, wanted.len) != 0) {
    spoilt++;
    printf("replay: a file of %lu bytes is not as the model has it\n", (unsigned long)wanted.len);
  }
}

static void new_file(size_t len) {
  last_look();
  drop(file), drop(wanted);
  file = lend(len), wanted = lend(len);
}

static void patch(void) {
  size_t at = number(), len = number();
  const uint8_t *from = bytes(len);
  memcpy(file.at + at, from, len);
  memcpy(wanted.at + at, from, len);
}

static void copy(lent *to, size_t len) {
  drop(*to);
  *to = lend(len);
  memcpy(to->at, bytes(len), len);
}

/* Lends a copy, and keeps another one as it should be. */
static void copy_twice(lent *to, lent *to_wanted, size_t len) {
  const uint8_t *from = next;
  copy(to, len);
  next = from;
  copy(to_wanted, len);
}

static void one_call(void) {
  int call = *bytes(1);
  unsigned long before = agreed;
  if (call >= CALLS) stop("the file of cases has a call that is not known");
  agreed += agrees(call);
  made[call]++;
  if (agreed == before && ++told <= 10) printf("replay: a call of sdd_%s is not as the model has it\n", NAMES[call]);
}

/* The items of the file, to its end. */
static void replay(void) {
  for (;;) {
    switch (*bytes(1)) {
    case 'F': new_file(number()); break;
    case 'P': patch(); break;
    case 'S': copy(&scan, number()); break;
    case 'A': copy(&about, 54); break;
    case 'B': copy_twice(&second, &second_wanted, number()); break;
    case 'T': copy(&piece, number()); break;
    case 'R': copy_twice(&working, &working_wanted, number() * sizeof(uint32_t)); break;
    case 'C': one_call(); break;
    case 'E': last_look(); return;
    default: stop("the file of cases is damaged");
    }
  }
}

int main(int count, char **words) {
  unsigned long all = 0;
  int call;
  if (count != 2) stop("usage: replay FILE");
  next = map_file(words[1]);
  replay();
  for (call = 0; call < CALLS; call++) {
    printf("  %-11s %lu\n", NAMES[call], made[call]);
    all += made[call];
  }
  printf("%lu of %lu calls agreed\n", agreed, all);
  return agreed == all && all > 0 && spoilt == 0 ? 0 : 1;
}
