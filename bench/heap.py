"""Counts what a program holds on its heap, from the first time that it asks for the clock on.

A library that is loaded before the program's own takes the calls of `malloc`, `realloc` and `free`, adds up the blocks at the sizes
that they have, and hands them on to glibc.
"""
import subprocess

import unproved

COUNTER = """
typedef unsigned long size;
void *__libc_malloc(size), *__libc_realloc(void *, size);
void __libc_free(void *);
size malloc_usable_size(void *);
long syscall(long, ...);
int dprintf(int, const char *, ...);
static size held, most, begun;
static void *taken(void *block) {
    held += block ? malloc_usable_size(block) : 0;
    most = held > most ? held : most;
    return block;
}
static void *given(void *block) {
    held -= block ? malloc_usable_size(block) : 0;
    return block;
}
void *malloc(size bytes) { return taken(__libc_malloc(bytes)); }
void *realloc(void *block, size bytes) { return taken(__libc_realloc(given(block), bytes)); }
void free(void *block) { __libc_free(given(block)); }
int clock_gettime(int clock, void *time) {
    if (!begun) begun = most = held;
    return syscall(228, clock, time);
}
__attribute__((destructor)) static void told(void) { dprintf(2, "%lu %lu", begun, most); }
"""


def counter(folder):
    """The path of the library, made in this folder."""
    source, made = folder / "heap.c", folder / "heap.so"
    source.write_text(COUNTER)
    tools = unproved.kit() / "toolchain"
    words = [tools / "bin" / "clang", f"--target={unproved.TARGET}", "-O2", "-shared", "-fPIC", "-nostdlib", "-fuse-ld=lld"]
    subprocess.run([*words, "-fno-builtin", source, "-o", made, tools / "lib" / "libc.so.6"], check=True)
    return made


def held(program, folder, library, words):
    """The bytes that the program held when it first asked for the clock, and the most that it held from then on."""
    loaded = {"LD_PRELOAD": str(library)}
    ran = subprocess.run([program, *words], cwd=folder, env=loaded, capture_output=True, text=True, check=True)
    begun, most = ran.stderr.split()
    return int(begun), int(most)
