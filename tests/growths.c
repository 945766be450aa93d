/* Counts the allocations of a program, refuses those that GROWTH names, and notes the calls that lead to them: see tests/growths.py.

   GROWTH is an allocation's number, or 5- for the fifth and all later ones. GROWTH_FRAMES names a file of the program's calls in order:
   the address that each returns to, how far the top of the stack then is below the return address of the calling function, and whether that
   is the program's first function. At the end, the number of allocations is written to standard error, with the calls that led to refused
   ones, or to all of them if none is to be refused. */
#define _GNU_SOURCE
#include <dlfcn.h>
#include <errno.h>
#include <fcntl.h>
#include <link.h>
#include <stdio.h>
#include <stdlib.h>
#include <sys/mman.h>
#include <sys/stat.h>

struct frame {
  unsigned int back, depth, is_first;
};

static unsigned long growths, first;
static int more, started;
static const struct frame *frames;
static size_t count, program, lost;
static unsigned char *seen;

/* takes the first object, which is the program */
static int take_program(struct dl_phdr_info *object, size_t size, void *unused) {
  (void)size, (void)unused;
  program = object->dlpi_addr;
  return 1;
}

/* Nothing here allocates. */
static void read_frames(const char *name) {
  struct stat file;
  int from = open(name, O_RDONLY);
  if (from < 0 || fstat(from, &file) != 0) abort();
  count = (size_t)file.st_size / sizeof *frames;
  frames = mmap(NULL, (size_t)file.st_size, PROT_READ, MAP_PRIVATE, from, 0);
  seen = mmap(NULL, count, PROT_READ | PROT_WRITE, MAP_PRIVATE | MAP_ANONYMOUS, -1, 0);
  if (frames == MAP_FAILED || seen == MAP_FAILED) abort();
  dl_iterate_phdr(take_program, NULL);
}

static void start(void) {
  const char *which = getenv("GROWTH"), *name = getenv("GROWTH_FRAMES");
  char *rest;
  started = 1;
  if (which != NULL) {
    first = strtoul(which, &rest, 10);
    more = *rest == '-';
  }
  if (name != NULL) read_frames(name);
}

/* the number of the call that returns there, or count */
static size_t call_of(size_t back) {
  size_t low = 0, high = count;
  while (low < high) {
    size_t middle = low + (high - low) / 2;
    if (frames[middle].back < back) low = middle + 1;
    else high = middle;
  }
  return low < count && frames[low].back == back ? low : count;
}

/* Notes the calls on the stack, from the place of a return address, up to the program's first function. An allocation by the C library for
   itself has none. */
static void note(const size_t *at) {
  size_t call = call_of(*at - program);
  if (call == count && *at - program > frames[count - 1].back) return;
  while (call != count) {
    seen[call] = 1;
    if (frames[call].is_first) return;
    at += 1 + frames[call].depth / sizeof *at;
    call = call_of(*at - program);
  }
  lost = *at - program;
}

/* whether to refuse this allocation, requested by a call whose return address is there */
static int refused(const size_t *at) {
  int is_refused;
  if (!started) start();
  growths++;
  is_refused = first != 0 && (growths == first || (more && growths > first));
  if (frames != NULL && (first == 0 || is_refused)) note(at);
  if (is_refused) errno = ENOMEM;
  return is_refused;
}

/* where the return address of a function is */
#define RETURN ((size_t *)__builtin_frame_address(0) + 1)

void *malloc(size_t size) {
  static void *(*next)(size_t);
  if (next == NULL) next = dlsym(RTLD_NEXT, "malloc");
  return refused(RETURN) ? NULL : next(size);
}

void *realloc(void *old, size_t size) {
  static void *(*next)(void *, size_t);
  if (next == NULL) next = dlsym(RTLD_NEXT, "realloc");
  return refused(RETURN) ? NULL : next(old, size);
}

void *aligned_alloc(size_t align, size_t size) {
  static void *(*next)(size_t, size_t);
  if (next == NULL) next = dlsym(RTLD_NEXT, "aligned_alloc");
  return refused(RETURN) ? NULL : next(align, size);
}

int posix_memalign(void **where, size_t align, size_t size) {
  static int (*next)(void **, size_t, size_t);
  if (next == NULL) next = dlsym(RTLD_NEXT, "posix_memalign");
  return refused(RETURN) ? ENOMEM : next(where, align, size);
}

__attribute__((destructor)) static void tell(void) {
  fprintf(stderr, "growths %lu", growths);
  for (size_t call = 0; call < count; call++) {
    if (seen[call]) fprintf(stderr, " %x", frames[call].back);
  }
  if (lost != 0) fprintf(stderr, " lost %zx", lost);
  fprintf(stderr, "\n");
}
