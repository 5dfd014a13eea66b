/* The console: a command is a line. */
#ifndef CONSOLE_H
#define CONSOLE_H

#include "cabinet.h"

/* A number in digits and nothing else, up to the greatest; that one and one more where the text is another. */
uint32_t console_number(const char *text, uint32_t greatest);
/* Bytes have come; 0 where it is closed. */
int console_read(cabinet *c);

#endif
