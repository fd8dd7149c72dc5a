/* What the parts of the program share.  real.c says what it is for. */
#ifndef REAL_H
#define REAL_H

#ifndef _WIN32_WINNT
#define _WIN32_WINNT 0x0601 /* Windows 7 */
#endif
#include <windows.h>

#include <stddef.h>
#include <stdint.h>
#include <stdio.h>
#include <stdlib.h>
#include <string.h>

/* A number of a script; also the sum of an address and a size, without a bound. */
typedef unsigned long long number;

#define PAGE 0x1000ull
#define LOWEST 0x10000ull        /* the first user address of a 32-bit Windows */
#define SYSTEM_PAGES 0x7FFE0000ull /* from here on a 32-bit Windows has user pages of its own */
#define HIGHEST 0x7FFF0000ull    /* the end of user space there */
#define END 0x100000000ull       /* the end of all addresses there */

#define ANSWER 1024 /* room for an answer, in bytes */
#define LINE 2048   /* room for a line of the input, or of a request to a child */
#define CHILDREN 256

/* window.c: where a script's addresses lie in a process */
int window_choose(void);
void window_set(number distance, number end);
void window_tell(number *distance, number *end);
int window_is_free(void);
int place(number address, char **real);
int place_range(number address, number size, char **real, SIZE_T *length);
int script_address(const void *real, number *address);
number window_last(void);

/* touch.c: loads, stores and fetches that may raise */
void touch_start(void);
DWORD touch_load(const char *from, unsigned char *bytes, int count);
DWORD touch_store(char *to, const unsigned char *bytes, int count);
DWORD touch_fetch(const char *target);

/* calls.c: a child, which makes the calls of one process of a script */
int child(void);
number number_of(const char *word);

/* children.c: the processes, as the controller sees them */
int child_start(int pid);
void child_stop(int pid);
int child_ask(int pid, const char *request, char *answer);
int child_reset(int pid, const char *tag);
void children_reset(const char *tag);
void children_stop(void);

/* script.c: one line of a script, made by whom it concerns */
void script_begin(void);
void script_end(void);
void script_line(const char *line, const char *expected, char *answer);
extern int stacks_of_64_bits;

/* report.c: what the rows come to */
void report_row(const char *file, const char *name);
void report_line(int at, const char *line, const char *here, const char *windows, const char *answer);
int report_end(const char *result);
const char *report_system(void);

#endif
