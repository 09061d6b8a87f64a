/* What tools/try_runtime calls of runtime.c: the heap, the entries of folders, and the arithmetic of 128 bits on numbers that stand in
   memory. */
#include "runtime.c"

int rattle_main(void) { return 0; }

FOR_HOST(malloc) void *try_malloc(u64 size) { return malloc(size); }
FOR_HOST(realloc) void *try_realloc(void *bytes, u64 size) { return realloc(bytes, size); }
FOR_HOST(free) void try_free(void *bytes) { free(bytes); }

FOR_HOST(multiply) void try_multiply(i128 *numbers) { numbers[2] = __multi3(numbers[0], numbers[1]); }
FOR_HOST(shift_left) void try_shift_left(i128 *numbers, int by) { numbers[2] = __ashlti3(numbers[0], by); }
FOR_HOST(shift_right) void try_shift_right(i128 *numbers, int by) { numbers[2] = __lshrti3(numbers[0], by); }
FOR_HOST(shift_signed) void try_shift_signed(i128 *numbers, int by) { numbers[2] = __ashrti3(numbers[0], by); }

FOR_HOST(words_of) int words_of(int number, u8 *to, u64 room) { return __xpg_strerror_r(number, to, room); }
FOR_HOST(compare) int try_compare(const void *first, const void *second, u64 size) { return memcmp(first, second, size); }
FOR_HOST(entries) i64 try_entries(int folder, u8 *to, u64 room) { return getdents64(folder, to, room); }
