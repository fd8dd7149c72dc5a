/* The outside of a Rattle program in a WebAssembly module: what the kit's libos_c.a and liblibc_c.a
   define over glibc. The host is asked for three things alone, read, write and open. The heap is the
   malloc of wasi-libc, which asks for nothing. A place of memory has 64 bits in the program and 32 here. */
typedef __UINT8_TYPE__ uint8_t;
typedef __INT32_TYPE__ int32_t;
typedef __UINT32_TYPE__ uint32_t;
typedef __INT64_TYPE__ int64_t;
typedef __UINT64_TYPE__ uint64_t;
typedef __SIZE_TYPE__ size_t;

#define NULL ((void *)0)
#define HOST(name) __attribute__((import_module("host"), import_name(name)))
#define EXPORT(name) __attribute__((export_name(name)))
#define UNUSED __attribute__((unused))
enum { MOST = 1 << 30, ILLEGAL_SEEK = 29, WORDS = 1 << 16 };

HOST("read") extern int32_t host_read(int32_t file, uint8_t *bytes, int32_t count);
HOST("write") extern int32_t host_write(int32_t file, const uint8_t *bytes, int32_t count);
HOST("open") extern int32_t host_open(const char *path);

/* ---- files: the host answers a count, or an error's number below 0 */
static int32_t error_number;
int32_t rattle_errno(void) { return error_number; }
void rattle_set_errno(int32_t number) { error_number = number; }

static int64_t answered(int32_t count) {
  if (count >= 0) return count;
  error_number = -count;
  return -1;
}
static int32_t at_most(uint64_t count) { return count > MOST ? MOST : (int32_t)count; }

int64_t read(int32_t file, uint8_t *bytes, uint64_t count) {
  return answered(host_read(file, bytes, at_most(count)));
}
int64_t write(int32_t file, const uint8_t *bytes, uint64_t count) {
  return answered(host_write(file, bytes, at_most(count)));
}
int64_t __write(int32_t file, const uint8_t *bytes, uint64_t count) {
  return write(file, bytes, count);
}
int64_t rattle_write_no_sigpipe(int32_t file, const uint8_t *bytes, uint64_t count) {
  return write(file, bytes, count);
}
int32_t open(const char *path, int32_t flags UNUSED, ...) { return (int32_t)answered(host_open(path)); }
int32_t close(int32_t file UNUSED) { return 0; }
int64_t lseek(int32_t file UNUSED, int64_t offset UNUSED, int32_t whence UNUSED) {
  error_number = ILLEGAL_SEEK;
  return -1;
}

/* ---- what a host has not: signals, an environment, texts of errors, kinds of processors */
uint64_t __sysv_signal(int32_t number UNUSED, uint64_t handler UNUSED) { return 0; }
int64_t rattle_env(const uint8_t *name UNUSED, uint8_t *bytes UNUSED, uint64_t room UNUSED) {
  return -1;
}
int64_t rattle_env_at(uint64_t index UNUSED, uint8_t *bytes UNUSED, uint64_t room UNUSED) {
  return -1;
}
int32_t __xpg_strerror_r(int32_t number UNUSED, char *text, uint64_t room) {
  if (room) text[0] = 0;
  return 0;
}
/* (a proved program's main asks whether the processor has what x86-64-v2 has: each bit says yes) */
void *__x86_get_cpuid_feature_leaf(int32_t leaf UNUSED) {
  static const uint32_t yes[16] = {-1u, -1u, -1u, -1u, -1u, -1u, -1u, -1u,
                                   -1u, -1u, -1u, -1u, -1u, -1u, -1u, -1u};
  return (void *)yes;
}

/* ---- words of the command line: the host writes them to words(), each ended by a 0 */
static uint8_t words[WORDS];
static uint32_t word_count;
EXPORT("words") uint8_t *words_place(void) { return words; }
EXPORT("set_count") void set_word_count(uint32_t count) { word_count = count; }
uint64_t rattle_arg_count(void) { return word_count; }
int64_t rattle_arg(uint64_t index, uint8_t *bytes, uint64_t room) {
  if (index >= word_count) return -1;
  const uint8_t *word = words;
  while (index--)
    while (*word++) {}
  uint64_t length = 0;
  for (; word[length]; length++) {
    if (length == room) return -2;
    bytes[length] = word[length];
  }
  return (int64_t)length;
}

/* ---- heap: a request is answered by whether it was granted, and a place */
struct grant {
  uint64_t is_granted;
  uint64_t place;
};
void *malloc(size_t size);
void *realloc(void *place, size_t size);
void free(void *place);

static struct grant granted(void *place) {
  static uint8_t nothing[16] __attribute__((aligned(16)));
  return (struct grant){place != NULL, (size_t)(place ? place : nothing)};
}
struct grant rattle_alloc(uint64_t size, uint64_t align) {
  uint64_t wanted = size ? size : align;
  return granted(wanted >> 32 ? NULL : malloc((size_t)wanted));
}
struct grant rattle_realloc(void *place, uint64_t kept UNUSED, uint64_t size, uint64_t align) {
  uint64_t wanted = size ? size : align;
  return granted(wanted >> 32 ? NULL : realloc(place, (size_t)wanted));
}
void rattle_dealloc(void *place) { free(place); }

int main(void);
EXPORT("run") int32_t run(void) { return main(); }
