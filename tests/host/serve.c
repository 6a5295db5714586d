/* serve.c - the C edge under guard: reads inputs on standard input (two 32-bit lengths, the sheet, the trace), lends them to
 * nodbrize_run, and writes the answer (64 bits) and the trace for each.
 *
 *   serve guard    each lent block ends at a page that may not be touched, and begins behind one as nearly as its length allows;
 *                  the sheet's pages may only be read
 *   serve zones    each lent block is a heap block of exactly its length, under AddressSanitizer, between zones of known bytes that
 *                  are looked at after the call
 *
 * Ends with 1 where a zone was changed, and with 3 where the input is cut short. */
#include "nodbrize.h"
#include <stdio.h>
#include <stdlib.h>
#include <string.h>
#include <sys/mman.h>

enum { PAGE = 4096, ZONE = 4096, KNOWN = 0xA5 };

static void must(int good, const char *what)
{
    if (good) return;
    fprintf(stderr, "serve: %s\n", what);
    exit(3);
}

/* A block of n bytes with a forbidden page on each side; its end touches the second. */
static uint8_t *guarded(size_t n)
{
    size_t pages = (n + PAGE - 1) / PAGE * PAGE;
    uint8_t *all = mmap(NULL, pages + 2 * PAGE, PROT_NONE, MAP_PRIVATE | MAP_ANONYMOUS, -1, 0);
    must(all != MAP_FAILED, "no memory");
    if (pages) must(mprotect(all + PAGE, pages, PROT_READ | PROT_WRITE) == 0, "no protection");
    return all + PAGE + pages - n;
}

static void forget(uint8_t *block, size_t n)
{
    size_t pages = (n + PAGE - 1) / PAGE * PAGE;
    munmap(block + n - pages - PAGE, pages + 2 * PAGE);
}

static void read_only(uint8_t *block, size_t n)
{
    size_t pages = (n + PAGE - 1) / PAGE * PAGE;
    if (pages) must(mprotect(block + n - pages, pages, PROT_READ) == 0, "no protection");
}

/* A block of n bytes between two zones. */
static uint8_t *zoned(size_t n)
{
    uint8_t *all = malloc(n + 2 * ZONE);
    must(all != NULL, "no memory");
    memset(all, KNOWN, ZONE);
    memset(all + ZONE + n, KNOWN, ZONE);
    return all + ZONE;
}

static void look(const uint8_t *block, size_t n)
{
    for (size_t i = 0; i < ZONE; i++) {
        if (block[n + i] != KNOWN || block[-1 - (ptrdiff_t)i] != KNOWN) {
            fprintf(stderr, "serve: a byte outside what was lent was changed\n");
            exit(1);
        }
    }
}

static uint64_t with_guards(uint8_t *sheet, size_t m, uint8_t *trace, size_t n)
{
    uint8_t *s = guarded(m), *t = guarded(n);
    memcpy(s, sheet, m);
    memcpy(t, trace, n);
    read_only(s, m);
    uint64_t answer = nodbrize_run(s, m, t, n);
    memcpy(trace, t, n);
    forget(s, m);
    forget(t, n);
    return answer;
}

static uint64_t with_zones(uint8_t *sheet, size_t m, uint8_t *trace, size_t n)
{
    uint8_t *s = zoned(m), *t = zoned(n);
    memcpy(s, sheet, m);
    memcpy(t, trace, n);
    uint64_t answer = nodbrize_run(s, m, t, n);
    look(s, m);
    look(t, n);
    must(memcmp(s, sheet, m) == 0, "the sheet was changed");
    memcpy(trace, t, n);
    free(s - ZONE);
    free(t - ZONE);
    return answer;
}

int main(int argc, char **argv)
{
    int guard = argc == 2 && strcmp(argv[1], "guard") == 0;
    must(guard || (argc == 2 && strcmp(argv[1], "zones") == 0), "usage: serve guard|zones");
    uint32_t lengths[2];
    size_t got;
    while ((got = fread(lengths, 1, sizeof lengths, stdin)) == sizeof lengths) {
        size_t m = lengths[0], n = lengths[1];
        uint8_t *sheet = malloc(m + 1), *trace = malloc(n + 1);
        must(sheet && trace, "no memory");
        must(fread(sheet, 1, m, stdin) == m && fread(trace, 1, n, stdin) == n, "input cut short");
        uint64_t answer = guard ? with_guards(sheet, m, trace, n) : with_zones(sheet, m, trace, n);
        must(fwrite(&answer, 8, 1, stdout) == 1 && fwrite(trace, 1, n, stdout) == n, "cannot write");
        free(sheet);
        free(trace);
    }
    must(got == 0, "input cut short");
    return 0;
}
