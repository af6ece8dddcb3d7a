/* Loaded into a program before the C library, this fails one of its waits for a disk, as a full quota or a disk over a network does: the
   one whose number, counted from 1, is in the variable FAILED_SYNC. The others succeed at once. It needs no header. */

extern char *getenv(const char *name);
extern unsigned long strtoul(const char *text, char **end, int base);
extern int *__errno_location(void);

static unsigned long syncs;

static int sync_file(void)
{
    const char *number = getenv("FAILED_SYNC");
    if (__atomic_add_fetch(&syncs, 1, __ATOMIC_SEQ_CST) != (number ? strtoul(number, 0, 10) : 0))
        return 0;
    *__errno_location() = 5;
    return -1;
}

int fdatasync(int descriptor)
{
    (void)descriptor;
    return sync_file();
}

int fsync(int descriptor)
{
    (void)descriptor;
    return sync_file();
}
