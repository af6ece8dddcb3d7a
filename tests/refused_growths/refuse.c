/* Loaded into a program before the C library, this refuses one growth of its memory: the one whose number, counted from 1, is
   in the variable REFUSED_GROWTH. It says so by a line on descriptor 9. It needs no header. */

typedef __SIZE_TYPE__ size_t;

extern void *__libc_malloc(size_t size);
extern void *__libc_realloc(void *block, size_t size);
extern char *getenv(const char *name);
extern unsigned long strtoul(const char *text, char **end, int base);
extern long write(int descriptor, const void *bytes, size_t size);

static unsigned long growths;
static unsigned long refused;

__attribute__((constructor)) static void begin(void)
{
    const char *number = getenv("REFUSED_GROWTH");
    refused = number ? strtoul(number, 0, 10) : 0;
    growths = 0;
}

static int is_refused(void)
{
    if (__atomic_add_fetch(&growths, 1, __ATOMIC_SEQ_CST) != refused)
        return 0;
    write(9, "refused\n", 8);
    return 1;
}

void *malloc(size_t size)
{
    return is_refused() ? 0 : __libc_malloc(size);
}

void *realloc(void *block, size_t size)
{
    return is_refused() ? 0 : __libc_realloc(block, size);
}
