/*
 * Preloaded into a MariaDB server, this holds zlib at level 0: what it makes is then never shorter than what it was given, and by the
 * server's own rule such a frame goes out stored. No server has a setting for that. The prototypes are zlib's, with its stream as
 * void *, so that its headers are not needed.
 */
#define _GNU_SOURCE
#include <dlfcn.h>
#include <stdlib.h>

int deflateInit_(void *stream, int level, const char *version, int size);
int deflateInit2_(void *stream, int level, int method, int window, int memory, int strategy, const char *version, int size);
int compress(unsigned char *to, unsigned long *to_len, const unsigned char *from, unsigned long len);
int compress2(unsigned char *to, unsigned long *to_len, const unsigned char *from, unsigned long len, int level);

/* The way that POSIX gives to get a function out of dlsym's object pointer. A server without zlib has nothing to hold. */
static void find(void **function, const char *name)
{
    if (!*function)
        *function = dlsym(RTLD_NEXT, name);
    if (!*function)
        abort();
}

int deflateInit_(void *stream, int level, const char *version, int size)
{
    static int (*real)(void *, int, const char *, int);
    (void)level;
    find((void **)&real, "deflateInit_");
    return real(stream, 0, version, size);
}

int deflateInit2_(void *stream, int level, int method, int window, int memory, int strategy, const char *version, int size)
{
    static int (*real)(void *, int, int, int, int, int, const char *, int);
    (void)level;
    find((void **)&real, "deflateInit2_");
    return real(stream, 0, method, window, memory, strategy, version, size);
}

int compress2(unsigned char *to, unsigned long *to_len, const unsigned char *from, unsigned long len, int level)
{
    static int (*real)(unsigned char *, unsigned long *, const unsigned char *, unsigned long, int);
    (void)level;
    find((void **)&real, "compress2");
    return real(to, to_len, from, len, 0);
}

int compress(unsigned char *to, unsigned long *to_len, const unsigned char *from, unsigned long len)
{
    return compress2(to, to_len, from, len, 0);
}
