"""A library that refuses allocations of a program. It is loaded before the C library, and refuses calls of malloc, calloc and realloc."""
import os
import shutil
import subprocess

# Environment variables name the first and the last call that it refuses, and the file descriptor to which it writes at
# the first call that it refuses.
SOURCE = r"""
#include <errno.h>
#include <stddef.h>
#include <stdlib.h>
#include <unistd.h>

void *__libc_malloc(size_t size);
void *__libc_calloc(size_t count, size_t size);
void *__libc_realloc(void *block, size_t size);

static unsigned long calls, first, last, told;

static unsigned long number(const char *name) {
    const char *text = getenv(name);
    return text == NULL ? 0 : strtoul(text, NULL, 10);
}

__attribute__((constructor)) static void begin(void) {
    first = number("REFUSED_FROM");
    last = number("REFUSED_TO");
    told = number("REFUSED_TOLD");
    calls = 0;
}

static int refuses(void) {
    calls++;
    if (calls < first || calls > last) return 0;
    if (calls == first && write((int)told, "!", 1) != 1) abort();
    errno = ENOMEM;
    return 1;
}

void *malloc(size_t size) { return refuses() ? NULL : __libc_malloc(size); }
void *calloc(size_t count, size_t size) { return refuses() ? NULL : __libc_calloc(count, size); }
void *realloc(void *block, size_t size) { return refuses() ? NULL : __libc_realloc(block, size); }
"""
# The number of the last call, if all calls after the first are refused, too.
ALL = 2**63


def library_in(folder):
    """Compiles the library in the folder and returns its path, or None if there is no C compiler `cc`."""
    compiler = shutil.which("cc")
    if compiler is None:
        return None
    library = os.path.join(folder, "refuser.so")
    words = ["-O2", "-fno-builtin", "-shared", "-fPIC", "-xc", "-", "-o", library]
    subprocess.run([compiler, *words], input=SOURCE.encode(), check=True)
    return library


def environment(library, first, last, told):
    """Returns the environment in which these calls are refused. The descriptor gets a byte at the first of them."""
    numbers = {"REFUSED_FROM": first, "REFUSED_TO": last, "REFUSED_TOLD": told}
    return {"LD_PRELOAD": library, **{name: str(number) for name, number in numbers.items()}}
