/* save FILE SLOT SCAN [SOURCE]: saves a scan to a slot of an SDD file, as a program in C would.
 *
 * The library does no input or output. This program brings it the file's bytes, writes each record
 * that a step names by one pwrite, makes it durable by fdatasync, reads back what was written, and
 * says `saved` only where the confirming step answers Saved on the bytes that came back.
 *
 *   cc -Iinclude -o save host/example/save.c "$(host/library)"
 *
 * Left out for shortness: the lock on the file (flock) that host/rinzo takes for the whole job.
 */
#define _GNU_SOURCE /* O_DIRECT */
#include "sdd_plain.h"

#include <errno.h>
#include <fcntl.h>
#include <stdio.h>
#include <stdlib.h>
#include <string.h>
#include <sys/mman.h>
#include <sys/stat.h>
#include <unistd.h>

/* A direct read wants places and lengths that are multiples of the device's block. */
#define BLOCK 4096

/* A file, and memory of its length. What is not read into it stays zeros and costs nothing. */
typedef struct {
  int fd;
  uint8_t *bytes;
  size_t len;
} window;

/* Ends without a confirmation; the file opens all the same, and every other slot shows what it did. Records that
 * belong to no scan may then hold bytes of the old scan or of the new one: sdd_gaps_zero asks for them. */
static void stop(const char *what) {
  fprintf(stderr, "not saved: %s%s%s\n", what, errno ? ": " : "", errno ? strerror(errno) : "");
  exit(74);
}

static void accept_or_stop(sdd_refusal why) {
  if (why.number == 0) return;
  fprintf(stderr, "not saved: refused %u (%u): %s\n", why.number, why.value, sdd_sentence(why));
  exit((int)why.number);
}

/* Reads bytes from .. to of the file into their place; `fd` is the file, opened in one way or another. */
static int fill(const window *file, int fd, size_t from, size_t to) {
  while (from < to && from < file->len) {
    ssize_t got = pread(fd, file->bytes + from, to - from, (off_t)from);
    if (got < 0 && errno == EINTR) continue;
    if (got <= 0) return 0;
    from += (size_t)got;
  }
  return 1;
}

static window open_file(const char *path) {
  window file;
  struct stat about;
  file.fd = open(path, O_RDWR);
  if (file.fd < 0 || fstat(file.fd, &about) != 0) stop(path);
  file.len = (size_t)about.st_size;
  /* a whole block more, so that a direct read of the last block has room */
  file.bytes = mmap(NULL, file.len + BLOCK, PROT_READ | PROT_WRITE, MAP_PRIVATE | MAP_ANONYMOUS, -1, 0);
  if (file.bytes == MAP_FAILED) stop(path);
  return file;
}

/* Records 1 to N are all that a save looks at before it is confirmed. */
static void look(const window *file) {
  uint64_t n, l;
  if (!fill(file, file->fd, 0, 512)) stop("the first record");
  n = sdd_get(file->bytes, 4), l = sdd_get(file->bytes + 8, 4);
  /* where a file has other numbers, or the old form, a save refuses it by its first 32 bytes alone */
  if (n <= 513 && l <= 4096 && !fill(file, file->fd, 0, n * l)) stop("the index");
}

/* Writes a record by one call: a short write is not continued, half a record is no record. */
static void write_record(const window *file, uint64_t record, uint64_t l) {
  uint64_t at = (record - 1) * l;
  ssize_t taken;
  do taken = pwrite(file->fd, file->bytes + at, l, (off_t)at);
  while (taken < 0 && errno == EINTR);
  if (taken != (ssize_t)l) stop("a record could not be written whole");
  if (fdatasync(file->fd) != 0) stop("a record could not be made durable");
  printf("record %llu written\n", (unsigned long long)record);
}

/* Reads records back from the device: with O_DIRECT, and where the file system has no such thing, by
 * a plain read once the system was told to forget what it holds in memory. That memory is filled with
 * other bytes before: with no zeros, which are what an old scan's records should hold. */
static void read_back(const window *file, const char *path, uint64_t first, uint64_t count, uint64_t l) {
  size_t from = (first - 1) * l / BLOCK * BLOCK, to = ((first - 1 + count) * l + BLOCK - 1) / BLOCK * BLOCK;
  int direct = open(path, O_RDONLY | O_DIRECT);
  memset(file->bytes + from, 0xa5, to - from);
  posix_fadvise(file->fd, 0, 0, POSIX_FADV_DONTNEED);
  if (!(direct >= 0 && fill(file, direct, from, to)) && !fill(file, file->fd, from, to)) stop("reading back");
  if (direct >= 0) close(direct);
}

/* The job, record by record, to its confirmation. */
static void run(const window *file, const char *path, sdd_opened z, const uint8_t *scan, size_t len, sdd_job job) {
  uint64_t k = (len + z.l - 1) / z.l;
  sdd_stepped stepped;
  struct stat about;
  /* the scan's records, record 1 with its U and D, the slot's index record, and zeros over the scan that it had */
  while (job.written < k + 2 + job.old_count) {
    stepped = sdd_step(file->bytes, file->len, scan, len, job);
    accept_or_stop(stepped.why);
    write_record(file, stepped.record, z.l);
    job = stepped.job;
  }
  if (fstat(file->fd, &about) != 0 || (size_t)about.st_size != file->len) stop("the file's length has changed");
  read_back(file, path, 1, z.n, z.l);
  read_back(file, path, job.first, k, z.l);
  if (job.old_count > 0) read_back(file, path, job.old_first, job.old_count, z.l);
  stepped = sdd_step(file->bytes, file->len, scan, len, job);
  accept_or_stop(stepped.why);
  if (stepped.done != SDD_SAVED) stop("the last step confirmed nothing");
  printf("saved: slot %llu\n", (unsigned long long)job.slot);
}

int main(int argc, char **argv) {
  static uint8_t scan[65537]; /* one byte too many is enough to be refused */
  sdd_about about = {0};
  uint8_t bytes[SDD_ABOUT];
  FILE *from;
  if (argc < 4 || argc > 5 || !sdd_named(&about, argc > 4 ? argv[4] : "")) {
    fprintf(stderr, "usage: save FILE SLOT SCAN [SOURCE], SOURCE of at most 16 bytes\n");
    return 64;
  }
  about.mode = 256;
  about.number = -1;
  sdd_about_put(&about, bytes);
  from = fopen(argv[3], "rb");
  if (from == NULL) stop(argv[3]);
  size_t len = fread(scan, 1, sizeof scan, from);
  fclose(from);

  window file = open_file(argv[1]);
  look(&file);
  sdd_begun begun = sdd_save(file.bytes, file.len, strtoull(argv[2], NULL, 10), scan, len, bytes);
  accept_or_stop(begun.why);
  run(&file, argv[1], sdd_open(file.bytes, file.len), scan, len, begun.job);
  return 0;
}
