/* SPDX-License-Identifier: Apache-2.0 */
/* The toolchain has a C library and no headers for it. For a build with the toolchain alone, this
 * folder declares what the programs beside it call; every other build uses the system's headers. */
#ifndef STDIO_H
#define STDIO_H
typedef unsigned long size_t;
typedef struct _IO_FILE FILE;
extern FILE *stdout, *stderr;
int printf(const char *format, ...);
int fprintf(FILE *to, const char *format, ...);
int fflush(FILE *to);
int ferror(FILE *of);
void perror(const char *what);
#endif
