/* A message on standard error, and the end. */
#ifndef MESSAGE_H
#define MESSAGE_H

/* The program's name in messages; each program defines it. */
extern const char program[];

/* Says `NAME: TEXT` on standard error. */
void say(const char *format, ...);

/* Says it and ends the program with this status. */
#ifdef __GNUC__
__attribute__((noreturn))
#endif
void stop(int status, const char *format, ...);

#endif
