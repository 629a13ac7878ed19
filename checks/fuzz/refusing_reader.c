/* Reads of files to be preloaded that are short, refused, or end early. Standard input is read as ever.

   SHORT=N has each call read N bytes at most. REFUSE_AT=N refuses the Nth call, and END_AT=N has it read nothing, as
   at the end of a file. With COUNT_TO=PATH the number of calls is written there at the program's end. */
#define _GNU_SOURCE
#include <errno.h>
#include <fcntl.h>
#include <stdio.h>
#include <stdlib.h>
#include <sys/syscall.h>
#include <unistd.h>

static unsigned long calls;

/* The number in an environment variable, 0 where there is none. */
static unsigned long number_of(const char *name)
{
    const char *text = getenv(name);
    return text ? strtoul(text, NULL, 10) : 0;
}

__attribute__((destructor)) static void end(void)
{
    char line[32];
    const char *path = getenv("COUNT_TO");
    if (!path)
        return;
    int file = open(path, O_WRONLY | O_CREAT | O_TRUNC, 0600);
    int length = snprintf(line, sizeof line, "%lu\n", calls);
    if (write(file, line, length) != length)
        _exit(99);
    close(file);
}

ssize_t read(int file, void *buffer, size_t size)
{
    unsigned long most = number_of("SHORT");
    if (file <= 2)
        return syscall(SYS_read, file, buffer, size);
    calls++;
    if (calls == number_of("REFUSE_AT")) {
        errno = EIO;
        return -1;
    }
    if (calls == number_of("END_AT"))
        return 0;
    return syscall(SYS_read, file, buffer, most && most < size ? most : size);
}
