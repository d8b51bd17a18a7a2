// The same things as dependence.sh, by isl: a name and milliseconds a line. Built by dependence.sh where isl's headers are installed.
#include <isl/ctx.h>
#include <isl/flow.h>
#include <isl/map.h>
#include <isl/set.h>
#include <isl/union_map.h>
#include <isl/union_set.h>
#include <stdio.h>
#include <time.h>

struct loops {
    const char *name, *domain, *writes, *reads, *times;
};

static const struct loops nests[] = {
    {"last, stencil", "{ S[t, i] : 0 <= t < 4 and 0 <= i < 8 }", "{ S[t, i] -> A[t, i] }",
     "{ S[t, i] -> A[t - 1, j] : i - 1 <= j <= i + 1 }", "{ S[t, i] -> [t, i] : 0 <= t < 4 and 0 <= i < 8 }"},
    {"last, matrix product", "[n] -> { S[i, j, k] : 0 <= i, j, k < n }", "{ S[i, j, k] -> C[i, j] }",
     "{ S[i, j, k] -> C[i, j]; S[i, j, k] -> A[i, k]; S[i, j, k] -> B[k, j] }", "{ S[i, j, k] -> [i, j, k] }"},
    {"last, decomposition", "[n] -> { S[k, i] : 0 <= k < i < n; T[k, i, j] : 0 <= k < n and k < i < n and k < j < n }",
     "{ S[k, i] -> A[i, k]; T[k, i, j] -> A[i, j] }",
     "{ S[k, i] -> A[i, k]; S[k, i] -> A[k, k]; T[k, i, j] -> A[i, j]; T[k, i, j] -> A[i, k]; T[k, i, j] -> A[k, j] }",
     "{ S[k, i] -> [k, 0, i, 0]; T[k, i, j] -> [k, 1, i, j] }"},
    {"last, red and black",
     "[n, m] -> { R[t, i] : 0 <= t < m and 1 <= i <= n and i mod 2 = 0; B[t, i] : 0 <= t < m and 1 <= i <= n and i mod 2 = 1 }",
     "{ R[t, i] -> A[i]; B[t, i] -> A[i] }", "{ R[t, i] -> A[k] : i - 1 <= k <= i + 1; B[t, i] -> A[k] : i - 1 <= k <= i + 1 }",
     "{ R[t, i] -> [t, 0, i]; B[t, i] -> [t, 1, i] }"},
};

static isl_ctx *ctx;

static double milliseconds(void) {
    struct timespec t;
    clock_gettime(CLOCK_PROCESS_CPUTIME_ID, &t);
    return t.tv_sec * 1e3 + t.tv_nsec / 1e6;
}

static isl_union_map *of(const char *map, const char *domain) {
    return isl_union_map_intersect_domain(isl_union_map_read_from_str(ctx, map), isl_union_set_read_from_str(ctx, domain));
}

// The last source before each sink, and the sinks that have none.
static void last(isl_union_map *writes, isl_union_map *reads, isl_union_map *times) {
    isl_union_map *may = isl_union_map_empty(isl_union_map_get_space(writes));
    isl_union_map *must_have, *may_have, *must_lack, *may_lack;
    isl_union_map_compute_flow(isl_union_map_copy(reads), isl_union_map_copy(writes), may, isl_union_map_copy(times), &must_have, &may_have,
                               &must_lack, &may_lack);
    isl_union_map_free(must_have);
    isl_union_map_free(may_have);
    isl_union_map_free(must_lack);
    isl_union_map_free(may_lack);
}

static void time_nest(const struct loops *nest) {
    isl_union_map *writes = of(nest->writes, nest->domain), *reads = of(nest->reads, nest->domain);
    isl_union_map *times = isl_union_map_read_from_str(ctx, nest->times);
    int turns = 0;
    double begin = milliseconds();
    for (; milliseconds() - begin < 500; turns++) last(writes, reads, times);
    printf("%-28s %10.4f\n", nest->name, (milliseconds() - begin) / turns);
    isl_union_map_free(writes);
    isl_union_map_free(reads);
    isl_union_map_free(times);
}

static void time_images(const char *name, isl_union_map *(*first)(isl_union_map *)) {
    isl_union_map *m = isl_union_map_read_from_str(
        ctx, "[n] -> { S[i] -> A[j, k] : 0 <= i < n and i <= j < n and j <= k and k < n }");
    int turns = 0;
    double begin = milliseconds();
    for (; milliseconds() - begin < 500; turns++) isl_union_map_free(first(isl_union_map_copy(m)));
    printf("%-28s %10.4f\n", name, (milliseconds() - begin) / turns);
    isl_union_map_free(m);
}

static void time_order(void) {
    isl_union_set *s = isl_union_set_read_from_str(ctx, "[n] -> { [i, j, k] : 0 <= i, j, k < n }");
    int turns = 0;
    double begin = milliseconds();
    for (; milliseconds() - begin < 500; turns++)
        isl_union_map_free(isl_union_set_lex_lt_union_set(isl_union_set_copy(s), isl_union_set_copy(s)));
    printf("%-28s %10.4f\n", "order of sets", (milliseconds() - begin) / turns);
    isl_union_set_free(s);
}

int main(void) {
    ctx = isl_ctx_alloc();
    printf("%-28s %10s\n", "by isl", "ms each");
    for (unsigned i = 0; i < sizeof nests / sizeof *nests; i++) time_nest(&nests[i]);
    time_images("least images", isl_union_map_lexmin);
    time_images("greatest images", isl_union_map_lexmax);
    time_order();
    isl_ctx_free(ctx);
    return 0;
}
