/* What a program of this repository calls of C, for WebAssembly with 64-bit addresses, over the few functions of a host.
   hosts/SYSTEM.md describes these functions. Want of memory is answered as the C library does it: an empty pointer. */
typedef unsigned char u8;
typedef unsigned short u16;
typedef unsigned int u32;
typedef unsigned long u64;
typedef long i64;

#define HOST(name) __attribute__((import_module("system"), import_name(#name)))
#define FOR_HOST(name) __attribute__((export_name(#name)))

HOST(open) int host_open(const u8 *path, u64 length, int flags);
HOST(read) i64 host_read(int file, void *to, u64 most);
HOST(write) i64 host_write(int file, const void *from, u64 size);
HOST(close) int host_close(int file);
HOST(size) i64 host_size(const u8 *path, u64 length, int file);
HOST(unlink) int host_unlink(const u8 *path, u64 length);
HOST(mkdir) int host_mkdir(const u8 *path, u64 length);
HOST(rmdir) int host_rmdir(const u8 *path, u64 length);
HOST(word) i64 host_word(u64 number, void *to, u64 room);
HOST(variable) i64 host_variable(const u8 *name, u64 length, void *to, u64 room);
HOST(exit) __attribute__((noreturn)) void host_exit(int status);

/* Bytes. */

void *memcpy(void *to, const void *from, u64 size) { return __builtin_memmove(to, from, size); }
void *memmove(void *to, const void *from, u64 size) { return __builtin_memmove(to, from, size); }
void *memset(void *to, int byte, u64 size) { return __builtin_memset(to, byte, size); }

int memcmp(const void *first, const void *second, u64 size) {
  const u8 *a = first, *b = second;
  for (u64 at = 0; at < size; at++)
    if (a[at] != b[at]) return a[at] - b[at];
  return 0;
}

int bcmp(const void *first, const void *second, u64 size) { return memcmp(first, second, size); }

static u64 length_of(const u8 *text) {
  u64 length = 0;
  while (text[length]) length++;
  return length;
}

/* The heap: blocks of fixed sizes, four to each power of two. Each size has a list of the blocks that are free. */

struct block {
  u64 class;
  u64 unused;
  struct block *next; /* of a free block; else the bytes begin here */
};

enum { HEAD = 16, LEAST_BLOCK = 16, CLASSES = 256 };
static const u64 PAGE = 65536;
static const u64 STEP = 4UL << 20;         /* so much more memory is asked for at once */
static const u64 MOST_BLOCK = 1UL << 40;   /* more than any memory has */
extern u8 __heap_base;
static struct block *free_blocks[CLASSES];
static u64 at, end;                        /* what is not yet given out */
static u64 most = 4032UL << 20;            /* memory ends before 4 GiB, where addresses of 32 bits begin anew */

/* The memory may have at most so many bytes. */
FOR_HOST(limit) void limit(u64 bytes) {
  if (bytes < most) most = bytes;
}

static u64 class_of(u64 size) {
  u64 last = size - 1, power = 63 - __builtin_clzl(last | (LEAST_BLOCK - 1));
  return power * 4 + ((last >> (power - 2)) & 3);
}

static u64 size_of_class(u64 class) {
  u64 power = class / 4;
  return (1UL << power) + (((class & 3) + 1) << (power - 2));
}

/* Whether there is room for so many more bytes. The answer of memory.grow is read as 32 bits: so it is -1 in both forms of the
   module, whatever binaryen makes of its upper half. */
static int grow(u64 bytes) {
  u64 pages = (bytes + PAGE - 1) / PAGE;
  if (end + pages * PAGE > most || (u32)__builtin_wasm_memory_grow(0, pages) == (u32)-1) return 0;
  end += pages * PAGE;
  return 1;
}

static struct block *fresh_block(u64 size) {
  if (!at) {
    at = ((u64)&__heap_base + HEAD - 1) & -(u64)HEAD;
    end = __builtin_wasm_memory_size(0) * PAGE;
  }
  if (size > end - at) {
    u64 lack = size - (end - at);
    if (!(lack < STEP && grow(STEP)) && !grow(lack)) return 0;
  }
  struct block *made = (struct block *)at;
  at += size;
  return made;
}

void *malloc(u64 size) {
  if (size < LEAST_BLOCK) size = LEAST_BLOCK;
  if (size > MOST_BLOCK) return 0;
  u64 class = class_of(size);
  struct block *found = free_blocks[class];
  if (found) free_blocks[class] = found->next;
  else found = fresh_block((size_of_class(class) + HEAD + HEAD - 1) & -(u64)HEAD);
  if (!found) return 0;
  found->class = class;
  return (u8 *)found + HEAD;
}

static struct block *block_of(void *bytes) { return (struct block *)((u8 *)bytes - HEAD); }

void free(void *bytes) {
  if (!bytes) return;
  struct block *freed = block_of(bytes);
  freed->next = free_blocks[freed->class];
  free_blocks[freed->class] = freed;
}

void *realloc(void *bytes, u64 size) {
  if (!bytes) return malloc(size);
  u64 had = size_of_class(block_of(bytes)->class);
  if (size <= had && size >= had / 4) return bytes;
  void *moved = malloc(size);
  if (!moved) return size <= had ? bytes : 0;
  __builtin_memcpy(moved, bytes, size < had ? size : had);
  free(bytes);
  return moved;
}

/* What the libraries ask for: whether there is room, and where. Empty room stands anywhere. */

struct asked {
  u64 is_given;
  void *bytes;
};

static struct asked given(void *bytes) {
  static u8 nowhere[HEAD] __attribute__((aligned(HEAD)));
  return (struct asked){bytes != 0, bytes ? bytes : nowhere};
}

struct asked rattle_alloc(u64 size, u64 alignment) { return given(malloc(size ? size : alignment)); }

struct asked rattle_realloc(void *bytes, u64 kept, u64 size, u64 alignment) {
  return given(realloc(bytes, size ? size : alignment));
}

void rattle_dealloc(void *bytes) { free(bytes); }

/* Files, streams and words. The host answers minus the number of an error. */

static int error;

static i64 answered(i64 answer) {
  if (answer >= 0) return answer;
  error = (int)-answer;
  return -1;
}

int rattle_errno(void) { return error; }
void rattle_set_errno(int number) { error = number; }
i64 rattle_arg(u64 number, void *to, u64 room) { return host_word(number, to, room); }
i64 rattle_env(const u8 *name, void *to, u64 room) { return host_variable(name, length_of(name), to, room); }
i64 rattle_env_at(u64 number, void *to, u64 room) { return -1; } /* variables are found by their names alone */

int open(const u8 *path, int flags, ...) { return (int)answered(host_open(path, length_of(path), flags)); }
i64 read(int file, void *to, u64 most_bytes) { return answered(host_read(file, to, most_bytes)); }
i64 write(int file, const void *from, u64 size) { return answered(host_write(file, from, size)); }
i64 __write(int file, const void *from, u64 size) { return write(file, from, size); }
int close(int file) { return (int)answered(host_close(file)); }
int unlink(const u8 *path) { return (int)answered(host_unlink(path, length_of(path))); }

int mkdir(const u8 *path, u32 mode) { return (int)answered(host_mkdir(path, length_of(path))); }
/* A host has no paths but those that are given to it. */
enum { NO_SUCH_CALL = 38, TOO_SHORT = 34 };
u8 *realpath(const u8 *path, u8 *resolved) {
  error = NO_SUCH_CALL;
  return 0;
}

/* The folder in which the program runs, if the host has the variable that shells give. */
u8 *getcwd(u8 *to, u64 room) {
  i64 length = host_variable((const u8 *)"PWD", 3, to, room ? room - 1 : 0);
  if (length < 0) {
    error = length == -2 ? TOO_SHORT : NO_SUCH_CALL;
    return 0;
  }
  to[length] = 0;
  return to;
}

int rmdir(const u8 *path) { return (int)answered(host_rmdir(path, length_of(path))); }

/* Folders. The host hands out the names in a folder as the bytes of a file: a 0 stands behind each, and a reading gives whole names. */

enum { OPEN_FOLDER = 0200000, SIZE_PLACE = 16, NAME_PLACE = 19, LEAST_NAME = 2 };

/* Only folders that are named from where the program runs are opened. */
int rattle_open_dir_at(int from, const u8 *path) { return open(path, OPEN_FOLDER); }

/* Linux's getdents64: entries, each with its own size at SIZE_PLACE and its name at NAME_PLACE. The names are read into the end of the
   room. An entry takes NAME_PLACE bytes more than its name, so no entry reaches a name that is not yet moved. */
i64 getdents64(int folder, u8 *to, u64 room) {
  u64 most_names = room * LEAST_NAME / (LEAST_NAME + NAME_PLACE), made = 0;
  const u8 *name = to + room - most_names;
  i64 count = read(folder, (u8 *)name, most_names);
  if (count <= 0) return count;
  for (const u8 *last = name + count; name < last;) {
    u64 length = length_of(name) + 1, size = NAME_PLACE + length;
    __builtin_memmove(to + made + NAME_PLACE, name, length);
    __builtin_memset(to + made, 0, NAME_PLACE);
    to[made + SIZE_PLACE] = (u8)size;
    to[made + SIZE_PLACE + 1] = (u8)(size >> 8);
    made += size;
    name += length;
  }
  return (i64)made;
}

enum { ILLEGAL_SEEK = 29, NO_THREAD = 11, NO_SUCH_THREAD = 3 };
i64 lseek(int file, i64 offset, int from) { return answered(-ILLEGAL_SEEK); }

/* Linux's statx, of which libraries read what kind of file it is and its size. */
struct statx {
  u32 mask, block_size;
  u64 attributes;
  u32 links, user, group;
  u16 mode, unused;
  u64 number, size;
};

enum { MODE_OF_FILE = 0100644, MODE_OF_FOLDER = 0040755, MODE_OF_STREAM = 0010644, BASIC = 0x7ff };
static const u64 IS_FOLDER = 1UL << 62, IS_STREAM = 1UL << 61, IS_TERMINAL = (1UL << 61) + 1;

int statx(int file, const u8 *path, int flags, u32 mask, void *to) {
  i64 size = answered(host_size(path, length_of(path), file));
  if (size < 0) return -1;
  struct statx *told = to;
  int is_file = !((u64)size & (IS_FOLDER | IS_STREAM));
  __builtin_memset(told, 0, sizeof *told);
  told->mask = BASIC;
  told->links = 1;
  told->mode = is_file ? MODE_OF_FILE : (u64)size & IS_FOLDER ? MODE_OF_FOLDER : MODE_OF_STREAM;
  told->size = is_file ? (u64)size : 0;
  return 0;
}

int isatty(int file) { return (u64)host_size(0, 0, file) == IS_TERMINAL; }

/* The words of errors, as the C library of Linux has them. */
static const struct {
  int number;
  const char *words;
} errors[] = {
  {1, "Operation not permitted"}, {2, "No such file or directory"}, {4, "Interrupted system call"},
  {5, "Input/output error"}, {9, "Bad file descriptor"}, {11, "Resource temporarily unavailable"},
  {12, "Cannot allocate memory"}, {13, "Permission denied"}, {16, "Device or resource busy"}, {17, "File exists"},
  {18, "Invalid cross-device link"}, {20, "Not a directory"}, {21, "Is a directory"}, {22, "Invalid argument"},
  {23, "Too many open files in system"}, {24, "Too many open files"}, {27, "File too large"},
  {28, "No space left on device"}, {29, "Illegal seek"}, {30, "Read-only file system"}, {32, "Broken pipe"},
  {36, "File name too long"}, {39, "Directory not empty"}, {40, "Too many levels of symbolic links"},
};

int __xpg_strerror_r(int number, u8 *to, u64 room) {
  const char *words = "Unknown error";
  for (u64 row = 0; row < sizeof errors / sizeof errors[0]; row++)
    if (errors[row].number == number) words = errors[row].words;
  u64 size = length_of((const u8 *)words) + 1;
  if (size > room) return TOO_SHORT;
  __builtin_memcpy(to, words, size);
  return 0;
}

/* No thread can be started. The pool then does all jobs on one worker. */

int pthread_create(void *thread, void *attributes, void *function, void *argument) { return NO_THREAD; }
int pthread_attr_init(void *attributes) { return 0; }
int pthread_attr_setguardsize(void *attributes, u64 size) { return 0; }
int pthread_attr_setstacksize(void *attributes, u64 size) { return 0; }
int pthread_attr_destroy(void *attributes) { return 0; }
u64 pthread_self(void) { return 1; }
int pthread_join(u64 thread, void *answer) { return NO_SUCH_THREAD; }
int pthread_detach(u64 thread) { return NO_SUCH_THREAD; }
int sched_yield(void) { return 0; }

/* The program's begin and end. An instance runs once: its heap and its variables are fresh then, and only then. */

i64 __sysv_signal(int number, i64 handler) { return 0; }
void _exit(int status) { host_exit(status); }
void abort(void) { __builtin_trap(); }
extern int rattle_main(void);

FOR_HOST(start) int start(void) {
  static int has_run;
  if (has_run) __builtin_trap();
  has_run = 1;
  return rattle_main();
}

/* What LLVM calls for numbers of 128 bits. */

typedef __int128 i128;
union wide {
  i128 whole;
  struct {
    u64 low, high;
  } part;
};

i128 __multi3(i128 first, i128 second) {
  union wide a = {first}, b = {second}, product;
  const u64 LOWER = 0xffffffffUL;
  u64 a0 = a.part.low & LOWER, a1 = a.part.low >> 32, b0 = b.part.low & LOWER, b1 = b.part.low >> 32;
  u64 low = a0 * b0, first_middle = a0 * b1, second_middle = a1 * b0;
  u64 middle = (low >> 32) + (first_middle & LOWER) + (second_middle & LOWER);
  product.part.low = (low & LOWER) | (middle << 32);
  product.part.high = a1 * b1 + (first_middle >> 32) + (second_middle >> 32) + (middle >> 32);
  product.part.high += a.part.low * b.part.high + a.part.high * b.part.low;
  return product.whole;
}

i128 __ashlti3(i128 number, int by) {
  union wide a = {number};
  if (by == 0) return number;
  if (by >= 64) return ((union wide){.part = {0, a.part.low << (by - 64)}}).whole;
  return ((union wide){.part = {a.part.low << by, a.part.high << by | a.part.low >> (64 - by)}}).whole;
}

static i128 shifted_right(union wide a, int by, u64 sign) {
  if (by == 0) return a.whole;
  u64 high = by >= 64 ? sign : a.part.high >> by | (sign ? sign << (64 - by) : 0);
  u64 low = by > 64 ? a.part.high >> (by - 64) | (sign ? sign << (128 - by) : 0)
            : by == 64 ? a.part.high : a.part.low >> by | a.part.high << (64 - by);
  return ((union wide){.part = {low, high}}).whole;
}

i128 __lshrti3(i128 number, int by) { return shifted_right((union wide){number}, by, 0); }
i128 __ashrti3(i128 number, int by) { return shifted_right((union wide){number}, by, number < 0 ? -1UL : 0); }
