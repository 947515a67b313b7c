/* Calls the kernel of double.c: each word of `a` is doubled into `out`. */
#include <inttypes.h>
#include <stdint.h>
#include <stdio.h>

void loopw_kernel(int64_t v_n, const int32_t *v_a, int32_t *v_out);

int main(void) {
    const int32_t a[] = {1, -2, 2147483647};
    int32_t out[3] = {0};
    loopw_kernel(3, a, out);
    for (int i = 0; i < 3; ++i) {
        printf("%" PRId32 "\n", out[i]);
    }
    return 0;
}
