// If this is loaded before a program, the program's allocations from number REFUSE_FROM to REFUSE_TO fail, counted from 1.
// Their number in all is written into the file REFUSE_COUNT. No header is needed, so any C compiler will do.
typedef __SIZE_TYPE__ size_t;

void *__libc_malloc(size_t size);
void *__libc_realloc(void *old, size_t size);
void *__libc_memalign(size_t alignment, size_t size);
char *getenv(const char *name);
long atol(const char *digits);
int *__errno_location(void);
int creat(const char *name, unsigned mode);
int dprintf(int file, const char *format, ...);

static const int no_memory = 12;
static long requests, first, last;

static long number(const char *name) {
  const char *digits = getenv(name);
  return digits ? atol(digits) : 0;
}

__attribute__((constructor)) static void begin(void) {
  first = number("REFUSE_FROM");
  last = number("REFUSE_TO");
  requests = 0;
}

static int is_refused(void) {
  requests++;
  if (requests < first || requests > last) return 0;
  *__errno_location() = no_memory;
  return 1;
}

void *malloc(size_t size) { return is_refused() ? 0 : __libc_malloc(size); }

void *realloc(void *old, size_t size) { return is_refused() ? 0 : __libc_realloc(old, size); }

void *aligned_alloc(size_t alignment, size_t size) { return is_refused() ? 0 : __libc_memalign(alignment, size); }

__attribute__((destructor)) static void end(void) {
  const char *name = getenv("REFUSE_COUNT");
  long count = requests;
  int file = name ? creat(name, 0644) : -1;
  if (file >= 0) dprintf(file, "%ld\n", count);
}
