#!/usr/bin/env bash
# Runs verbs on examples once for each allocation of that run, with that one refused: the program must end with status 5 and nothing on
# standard output, or with status 0 and the whole output. With a path in PROGRAM that program is run, else this repository's, which is proved
# and built first. No part of the gate; it needs a C compiler.
set -euo pipefail

top=$(CDPATH='' cd -- "$(dirname -- "${BASH_SOURCE[0]}")/../.." && pwd)
scratch=$(mktemp -d)
trap 'rm -rf "$scratch"' EXIT

# A library that is loaded before the C library, and refuses one allocation, whose number it is given.
cat >"$scratch/refuse.c" <<'C'
#define _GNU_SOURCE
#include <dlfcn.h>
#include <errno.h>
#include <fcntl.h>
#include <stdlib.h>
#include <unistd.h>

static long count;

static int refused(void) {
    const char *at = getenv("REFUSE_AT");
    if (!at || ++count != atol(at)) return 0;
    int mark = open(getenv("REFUSE_MARK"), O_CREAT | O_WRONLY, 0600);
    if (mark >= 0) close(mark);
    return 1;
}

void *malloc(size_t size) {
    static void *(*next)(size_t);
    if (!next) next = dlsym(RTLD_NEXT, "malloc");
    return refused() ? NULL : next(size);
}

void *realloc(void *old, size_t size) {
    static void *(*next)(void *, size_t);
    if (!next) next = dlsym(RTLD_NEXT, "realloc");
    return refused() ? NULL : next(old, size);
}

void *aligned_alloc(size_t alignment, size_t size) {
    static void *(*next)(size_t, size_t);
    if (!next) next = dlsym(RTLD_NEXT, "aligned_alloc");
    return refused() ? NULL : next(alignment, size);
}

void *memalign(size_t alignment, size_t size) {
    static void *(*next)(size_t, size_t);
    if (!next) next = dlsym(RTLD_NEXT, "memalign");
    return refused() ? NULL : next(alignment, size);
}

int posix_memalign(void **to, size_t alignment, size_t size) {
    static int (*next)(void **, size_t, size_t);
    if (!next) next = dlsym(RTLD_NEXT, "posix_memalign");
    return refused() ? ENOMEM : next(to, alignment, size);
}

/* dlsym itself takes memory from here before the next one is known. */
void *calloc(size_t count, size_t size) {
    static void *(*next)(size_t, size_t);
    static char first[4096];
    static size_t taken;
    static int asking;
    if (!next && !asking) {
        asking = 1;
        next = dlsym(RTLD_NEXT, "calloc");
        asking = 0;
    }
    if (!next) {
        size_t from = taken;
        taken += (count * size + 15) / 16 * 16;
        return taken <= sizeof first ? first + from : NULL;
    }
    return refused() ? NULL : next(count, size);
}

C
cc -shared -fPIC -O1 -o "$scratch/refuse.so" "$scratch/refuse.c" -ldl

program=${PROGRAM:-$top/crates/hrthood/out/hrthood}
[ -n "${PROGRAM:-}" ] || "$top/tools/gate/prove_program.sh" >/dev/null
cd "$top/examples"

# Runs the program on these words, once for each allocation.
refuse_each() {
    local run=("$program" "$@")
    local number=0 want_memory=0 status told
    "${run[@]}" >"$scratch/whole"
    while :; do
        number=$((number + 1))
        rm -f "$scratch/mark"
        status=0
        REFUSE_AT=$number REFUSE_MARK="$scratch/mark" LD_PRELOAD="$scratch/refuse.so" "${run[@]}" >"$scratch/out" 2>"$scratch/err" || status=$?
        [ -e "$scratch/mark" ] || break
        # Where the words themselves can't be had, nothing is told.
        told=$(cat "$scratch/err")
        if [ "$status" -eq 5 ] && [ ! -s "$scratch/out" ] && { [ "$told" = 'no memory' ] || [ -z "$told" ]; }; then
            want_memory=$((want_memory + 1))
        elif [ "$status" -ne 0 ] || ! cmp -s "$scratch/out" "$scratch/whole"; then
            echo "$*: allocation $number refused: status $status" >&2
            exit 1
        fi
    done
    echo "$*: $((number - 1)) allocations, each refused once: $want_memory runs ended with status 5 and wrote nothing, the others wrote all"
}

refuse_each check mine_pump.design
refuse_each analyse mine_pump.design
refuse_each format mine_pump.design
refuse_each generate one_cyclic_object.design
refuse_each generate mine_pump.design
refuse_each replay one_cyclic_task.ada until_20.arrivals
refuse_each verify mine_pump.design one_water_alarm.arrivals
refuse_each sample 7
