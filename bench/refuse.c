// Refuses memory to the program that it is loaded into, for bench/refused, by a page that both share: a growth is each call of malloc and realloc, and the one
// of a number is refused, alone or with all behind it. Where the program tells when it may be refused memory, by asking for room of one of two sizes
// (crates/mj_refused/src/listening.rt), no other growth is counted. It needs nothing but what the system's C library has.

typedef unsigned long size;

struct page {
    long first;    // the number of the growth that is refused, from 1; 0 is none
    long onwards;  // whether all behind it are refused too
    long told;     // whether the program tells when
    long growths;  // how many growths there were
    long refused;  // how many of them were refused
};

enum { MAY_REFUSE = 16777259, MAY_NOT_REFUSE = 16777289 };
enum { READ_WRITE = 3, SHARED = 1 };

void *__libc_malloc(size room);
void *__libc_realloc(void *old, size room);
char *getenv(const char *name);
void *mmap(void *at, size length, int rights, int how, int file, long from);

static struct page *page;
static int may_refuse;

__attribute__((constructor)) static void begin(void) {
    const char *digits = getenv("MJ_REFUSE");
    int file = 0;
    if (!digits)
        return;
    while (*digits >= '0' && *digits <= '9')
        file = file * 10 + (*digits++ - '0');
    void *there = mmap(0, sizeof *page, READ_WRITE, SHARED, file, 0);
    if (there != (void *)-1) {
        page = there;
        may_refuse = !page->told;
    }
}

static int is_refused(void) {
    if (!page || !may_refuse)
        return 0;
    long number = __atomic_add_fetch(&page->growths, 1, __ATOMIC_SEQ_CST);
    if (page->first == 0 || number < page->first || (number > page->first && !page->onwards))
        return 0;
    __atomic_add_fetch(&page->refused, 1, __ATOMIC_SEQ_CST);
    return 1;
}

void *malloc(size room) {
    if (page && page->told && (room == MAY_REFUSE || room == MAY_NOT_REFUSE)) {
        may_refuse = room == MAY_REFUSE;
        return 0;
    }
    return is_refused() ? 0 : __libc_malloc(room);
}

void *realloc(void *old, size room) {
    return is_refused() ? 0 : __libc_realloc(old, room);
}
