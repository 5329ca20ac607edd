/* SPDX-License-Identifier: Apache-2.0 */
/* see stdio.h */
#ifndef SIGNAL_H
#define SIGNAL_H
#define SIGPIPE 13
#define SIG_IGN ((void (*)(int))1)
void (*signal(int number, void (*handler)(int)))(int);
#endif
