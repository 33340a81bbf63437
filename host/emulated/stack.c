/* stack: makes every call on full files of 4,096 slots in both forms, and in the current one also on files that the old
 * one can say, and holds the stack that each of them used
 * against what sdd.h says that it needs at most. host/bench does the same for the machine's own code.
 */
#include "sdd.h"

/* The C library by hand: the toolchain has no headers of it. */
void *mmap(void *at, size_t len, int prot, int flags, int fd, long offset);
int printf(const char *format, ...);

enum { READ_WRITE = 3, PRIVATE_ANONYMOUS_NORESERVE = 0x4022 };
enum { PAINTED = 512 * 1024, PAINT = 0xa5 };
enum { N = 513, L = 512, M = 64, USED = 4000, ROOM = 1000000, SCAN = 65536 };
/* records of a scan and after it a free one: as many as the form can name */
enum { RUN = 128, OLD_RUN = 7 };

static uint8_t *file, scan[SCAN], about[54];
static const size_t LEN = (size_t)ROOM * L;
static uint32_t out[3 * 4096];
static uint8_t second[N * L];
/* the scans of this file, and those that the files before it have left in its gaps */
static uint64_t finds[3 * 4 * 4096];
static sdd_listed found;
static sdd_job job, clearing;
static uint32_t row[SDD_LINK_ROW];
static sdd_link begun, came;
static sdd_opened judged;

/* ---- a file with scans in rising or falling order, and a scan */

static void put(uint8_t *at, int len, uint64_t number) {
  while (len-- > 0) {
    at[len] = (uint8_t)number;
    number >>= 8;
  }
}

static void make_scan(uint8_t *at, uint32_t data) {
  int class;
  put(at, 2, 13);
  for (class = 1; class <= 13; class++) put(at + 2 * class, 2, class == 1 ? 5 : 19 + class);
  put(at + 32, 8, 0x4070000000000000); /* 256 */
  put(at + 40, 8, data);
}

static void make_boot(int old, uint32_t run) {
  const uint32_t words[] = {N, USED * (run + 1), L, M, USED, 7};
  int word, size = old ? 2 : 4;
  for (word = 0; word < 32; word++) file[word] = 0;
  for (word = 0; word < 6; word++) put(file + size * word, size, words[word]);
  put(file + 28, 4, !old);
}

static void make_file(int old, uint32_t run, int falls) {
  uint32_t slot, first;
  int size = old ? 2 : 4;
  make_boot(old, run);
  for (slot = 1; slot <= USED; slot++) {
    uint8_t *entry = file + L + (slot - 1) * M;
    first = N + 1 + (falls ? USED - slot : slot - 1) * (run + 1);
    put(entry, size, first);
    put(entry + size, size, first + run - 1);
    if (old) put(entry + 4, 2, 2);
    make_scan(file + (uint64_t)(first - 1) * L, 0);
  }
}

/* ---- the calls */

static void open_it(void) { sdd_open(file, LEN); }
static void list(void) { sdd_list(file, LEN, out, 3 * 4096); }
static void entry_at(void) { sdd_entry_at(file, LEN, USED); }
static void show(void) { sdd_show(file, LEN, USED); }
static void read_it(void) { sdd_read(file, LEN, USED); }
static void class(void) { sdd_class(scan, SCAN, 13); }
static void data(void) { sdd_data(scan, SCAN); }
static void blank(void) { sdd_blank(file, LEN, N, L, M); }
static void save(void) { job = sdd_save(file, LEN, 4096, scan, SCAN, about).job; }
static void keep(void) { sdd_keep(file, LEN, scan, SCAN, about); }
static void clear(void) { sdd_clear(file, LEN, USED); }
static sdd_job run(sdd_job steps, size_t scan_len) {
  sdd_stepped stepped;
  do {
    stepped = sdd_step(file, LEN, scan, scan_len, steps);
    steps = stepped.job;
  } while (stepped.why.number == 0 && stepped.done == SDD_WROTE);
  return steps;
}

/* A save, and then a clear of its slot made by hand, which lowers U past the gap below it and zeroes the scan. */
static void step(void) {
  const sdd_job none = {0};
  int i;
  job = run(job, SCAN);
  clearing = none;
  clearing.slot = 4096, clearing.file_len = LEN, clearing.lowers = 1;
  clearing.old_first = job.first, clearing.old_count = SCAN / L;
  for (i = 0; i < 32; i++) clearing.boot[i] = job.boot[i];
  clearing = run(clearing, 0);
}

static void to_current(void) { sdd_to_current(file, LEN, second, N * L); }
static void to_old(void) { sdd_to_old(file, LEN, second, N * L); }
static void gaps_zero(void) { sdd_gaps_zero(file, LEN); }
static void find(void) { found = sdd_find(file, LEN, finds, sizeof finds / sizeof *finds); }

/* The file as one piece and as pieces of one byte, so that numbers are cut. */
static void link_begin(void) { begun = sdd_link_begin(LEN, row, SDD_LINK_ROW).link; }
static void link_take(void) {
  size_t i;
  came = begun;
  for (i = 0; i < L + 2 * M; i++) came = sdd_link_take(came, file + i, 1, row, SDD_LINK_ROW).link;
  came = sdd_link_take(came, file + i, LEN - i, row, SDD_LINK_ROW).link;
}
static void link_finish(void) { judged = sdd_link_finish(came, row, SDD_LINK_ROW); }

static const struct {
  const char *name;
  void (*call)(void);
  long most;
} CALLS[] = {
    {"open", open_it, SDD_STACK_OPEN},
    {"list", list, SDD_STACK_LIST},
    {"entry_at", entry_at, SDD_STACK_ENTRY_AT},
    {"show", show, SDD_STACK_SHOW},
    {"read", read_it, SDD_STACK_READ},
    {"class", class, SDD_STACK_CLASS},
    {"data", data, SDD_STACK_DATA},
    {"keep", keep, SDD_STACK_KEEP},
    {"clear", clear, SDD_STACK_CLEAR},
    {"save", save, SDD_STACK_SAVE},
    {"step", step, SDD_STACK_STEP},
    {"to_current", to_current, SDD_STACK_TO_CURRENT},
    {"to_old", to_old, SDD_STACK_TO_OLD},
    {"gaps_zero", gaps_zero, SDD_STACK_GAPS_ZERO},
    {"find", find, SDD_STACK_FIND},
    {"link_begin", link_begin, SDD_STACK_LINK_BEGIN},
    {"link_take", link_take, SDD_STACK_LINK_TAKE},
    {"link_finish", link_finish, SDD_STACK_LINK_FINISH},
    {"blank", blank, SDD_STACK_BLANK},
};

/* ---- the stack below this program's own, painted before a call and looked at after it */

static __attribute__((noinline)) void paint(void) {
  volatile uint8_t below[PAINTED];
  long i;
  for (i = 0; i < PAINTED; i++) below[i] = PAINT;
}

static __attribute__((noinline)) long used(void) {
  volatile uint8_t below[PAINTED];
  long i = 0;
  while (i < PAINTED && below[i] == PAINT) i++;
  return PAINTED - i;
}

static __attribute__((noinline)) long depth(void (*call)(void)) {
  paint();
  call();
  return used();
}

int main(void) {
  unsigned i, wrong = 0;
  int kind;
  file = mmap(NULL, LEN, READ_WRITE, PRIVATE_ANONYMOUS_NORESERVE, -1, 0);
  if (file == (uint8_t *)-1) return 2;
  make_scan(scan, 0);
  put(scan + 40, 8, 0x40efe00000000000); /* 65,280 */
  /* the old form first: a job is left only by the current one */
  for (kind = 0; kind < 6; kind++) {
    make_file(kind < 2, kind < 4 ? OLD_RUN : RUN, kind % 2);
    for (i = 0; i < sizeof CALLS / sizeof *CALLS; i++) {
      long bytes = depth(CALLS[i].call);
      int holds = bytes <= CALLS[i].most;
      wrong += !holds;
      printf("  sdd_%-12s%8ld bytes of stack, at most %ld%s\n", CALLS[i].name, bytes, CALLS[i].most,
             holds ? "" : ": TOO MUCH");
    }
  }
  return wrong != 0 || job.written != 130 || clearing.written != 3 + SCAN / L || found.scans < USED ||
         judged.why.number != 0 || judged.room != ROOM;
}
