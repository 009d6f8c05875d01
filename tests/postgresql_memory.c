/* For tests/postgresql.sh, linked into the extension with -Wl,--wrap=malloc,--wrap=realloc,--wrap=free, so that it sees
 * the allocations of the library, and not those of the server. */
#include "postgres.h"

#include "fmgr.h"

void *__real_malloc(size_t size);
void *__real_realloc(void *block, size_t size);
void __real_free(void *block);
void *__wrap_malloc(size_t size);
void *__wrap_realloc(void *block, size_t size);
void __wrap_free(void *block);

static int calls, at, failed, blocks;

static bool
fails(void)
{
    failed += ++calls == at;
    return calls == at;
}

void *
__wrap_malloc(size_t size)
{
    void *block = fails() ? NULL : __real_malloc(size);

    blocks += block != NULL;
    return block;
}

void *
__wrap_realloc(void *block, size_t size)
{
    void *moved = fails() ? NULL : __real_realloc(block, size);

    blocks += moved && !block;
    return moved;
}

void
__wrap_free(void *block)
{
    blocks -= block != NULL;
    __real_free(block);
}

/* From now on the allocation of this number fails, from 1, and none for 0. Returns how many have failed so far. */
PG_FUNCTION_INFO_V1(fail_at);
Datum
fail_at(PG_FUNCTION_ARGS)
{
    int before = failed;

    calls = failed = 0, at = PG_GETARG_INT32(0);
    PG_RETURN_INT32(before);
}

/* How many blocks of memory the library holds. */
PG_FUNCTION_INFO_V1(held);
Datum
held(PG_FUNCTION_ARGS)
{
    PG_RETURN_INT32(blocks);
}
