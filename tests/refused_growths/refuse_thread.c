/* Loaded into a program before the C library, this refuses one of its threads: the one whose number, counted from 1, is in the
   variable REFUSED_THREAD. It needs no header. */

typedef int create(void *thread, const void *attributes, void *(*body)(void *), void *argument);

extern char *getenv(const char *name);
extern unsigned long strtoul(const char *text, char **end, int base);
extern void *dlsym(void *handle, const char *symbol);

enum { TRY_AGAIN = 11 };

int pthread_create(void *thread, const void *attributes, void *(*body)(void *), void *argument)
{
    static unsigned long asked;
    const char *number = getenv("REFUSED_THREAD");
    unsigned long refused = number ? strtoul(number, 0, 10) : 0;
    create *next = (create *)dlsym((void *)-1, "pthread_create");
    if (__atomic_add_fetch(&asked, 1, __ATOMIC_SEQ_CST) == refused)
        return TRY_AGAIN;
    return next(thread, attributes, body, argument);
}
