/* A message on standard error, and the end. */
#include "message.h"

#include <stdarg.h>
#include <stdio.h>
#include <stdlib.h>

static void say_values(const char *format, va_list values)
{
    fprintf(stderr, "%s: ", program);
    vfprintf(stderr, format, values);
    fprintf(stderr, "\n");
}

void say(const char *format, ...)
{
    va_list values;
    va_start(values, format);
    say_values(format, values);
    va_end(values);
}

void stop(int status, const char *format, ...)
{
    va_list values;
    va_start(values, format);
    say_values(format, values);
    va_end(values);
    exit(status);
}
