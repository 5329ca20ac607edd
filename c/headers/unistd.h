/* SPDX-License-Identifier: Apache-2.0 */
/* see stdio.h */
#ifndef UNISTD_H
#define UNISTD_H
#define STDIN_FILENO 0
typedef unsigned long size_t;
typedef long ssize_t;
ssize_t read(int from, void *to, size_t length);
#endif
