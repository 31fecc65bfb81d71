/* Whether `main` is found from a request for memory that a call of the library makes, through the frames of the library. The
 * linker puts the function below in the place of malloc. */
#define _GNU_SOURCE
#include <dlfcn.h>
#include <execinfo.h>
#include <string.h>

#include "bit_set.h"

void *__real_malloc(size_t size);
void *__wrap_malloc(size_t size);

static bool watches, is_found;

void *__wrap_malloc(size_t size) {
    void *frames[64];
    Dl_info caller;
    if (watches) {
        watches = false;
        for (int k = 0, count = backtrace(frames, 64); k < count; k++)
            if (dladdr(frames[k], &caller) && caller.dli_sname != NULL && strcmp(caller.dli_sname, "main") == 0)
                is_found = true;
    }
    return __real_malloc(size);
}

int main(void) {
    bit_set *set = NULL;
    if (!bit_set_new(&set))
        return 3;
    watches = true;
    int32_t inserted = bit_set_insert(set, 1000000);
    bit_set_free(set);
    return inserted == BIT_SET_YES && is_found ? 0 : 1;
}
