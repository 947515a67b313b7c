/* loopw c */
#include <stdint.h>
static int64_t lp_fd(int64_t a, int64_t b) { int64_t q = a / b; return a % b < 0 ? q - 1 : q; }
static int64_t lp_min(int64_t a, int64_t b) { return a < b ? a : b; }
static int64_t lp_max(int64_t a, int64_t b) { return a < b ? b : a; }
static int32_t lp_min_i32(int32_t a, int32_t b) { return a < b ? a : b; }
static int32_t lp_max_i32(int32_t a, int32_t b) { return a < b ? b : a; }
static int64_t lp_min_i64(int64_t a, int64_t b) { return a < b ? a : b; }
static int64_t lp_max_i64(int64_t a, int64_t b) { return a < b ? b : a; }
static uint32_t lp_min_u32(uint32_t a, uint32_t b) { return a < b ? a : b; }
static uint32_t lp_max_u32(uint32_t a, uint32_t b) { return a < b ? b : a; }
static uint64_t lp_min_u64(uint64_t a, uint64_t b) { return a < b ? a : b; }
static uint64_t lp_max_u64(uint64_t a, uint64_t b) { return a < b ? b : a; }
void loopw_kernel(int64_t v_n, int64_t v_m, const int32_t *v_a, int32_t *v_b)
{
  for (int64_t v_j_outer = 0; v_j_outer <= lp_fd(v_m - 1, 8); ++v_j_outer) {
    for (int64_t v_i_outer = 0; v_i_outer <= lp_fd(v_n - 1, 32); ++v_i_outer) {
      for (int64_t v_j_inner = lp_max(-8*v_j_outer + 2, 0); v_j_inner <= lp_min(v_m - 8*v_j_outer - 1, 7); ++v_j_inner) {
        for (int64_t v_i_inner = lp_max(-32*v_i_outer + 2, 0); v_i_inner <= lp_min(v_n - 32*v_i_outer - 1, 31); ++v_i_inner) {
          v_b[((8*v_j_outer + v_j_inner - 1)*(v_n) + (32*v_i_outer + v_i_inner - 1))] = (int32_t)((uint32_t)(int32_t)((uint32_t)(int32_t)((uint32_t)(int32_t)((uint32_t)v_a[((8*v_j_outer + v_j_inner - 1)*(v_n) + (32*v_i_outer + v_i_inner - 2))] + (uint32_t)v_a[((8*v_j_outer + v_j_inner - 1)*(v_n) + (32*v_i_outer + v_i_inner))]) + (uint32_t)v_a[((8*v_j_outer + v_j_inner - 2)*(v_n) + (32*v_i_outer + v_i_inner - 1))]) + (uint32_t)v_a[((8*v_j_outer + v_j_inner)*(v_n) + (32*v_i_outer + v_i_inner - 1))]) - (uint32_t)(int32_t)((uint32_t)(int32_t)4u * (uint32_t)v_a[((8*v_j_outer + v_j_inner - 1)*(v_n) + (32*v_i_outer + v_i_inner - 1))]));
        }
      }
    }
  }
}
