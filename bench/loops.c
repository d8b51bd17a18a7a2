// The same things as loops.sh, by isl: a name and milliseconds a line. Built by loops.sh where isl's headers are installed.
#include <isl/ast.h>
#include <isl/ast_build.h>
#include <isl/ctx.h>
#include <isl/set.h>
#include <isl/union_map.h>
#include <stdio.h>
#include <string.h>
#include <time.h>

static const struct {
    const char *name, *times;
} schedules[] = {
    {"a triangle", "[n] -> { S[i, j] -> [i, j] : 0 <= j <= i < n }"},
    {"a skewed nest", "[n] -> { S[i, j] -> [i + j, j] : 0 <= i, j < n }"},
    {"two statements", "[n] -> { S[i] -> [i, 0] : 0 <= i < n; T[i] -> [i, 1] : 0 <= i < n }"},
    {"a decomposition", "[n] -> { S[k, i] -> [k, 0, i, 0] : 0 <= k < i < n; T[k, i, j] -> [k, 1, i, j] : 0 <= k < i < n and k < j < n }"},
    {"a product in tiles",
     "[n] -> { S[i, j, k] -> [floor(i/32), floor(j/32), floor(k/32), i, j, k] : 0 <= i, j, k < n }"},
    {"a stride", "{ S[i] -> [i] : 0 <= i < 100 and (i - 3) mod 7 = 0 }"},
};

static double milliseconds(void) {
    struct timespec t;
    clock_gettime(CLOCK_PROCESS_CPUTIME_ID, &t);
    return t.tv_sec * 1e3 + t.tv_nsec / 1e6;
}

int main(int count, char **words) {
    isl_ctx *ctx = isl_ctx_alloc();
    printf("%-28s %10s\n", "by isl", "ms each");
    for (unsigned i = 0; i < sizeof schedules / sizeof *schedules; i++) {
        isl_union_map *times = isl_union_map_read_from_str(ctx, schedules[i].times);
        int turns = 0;
        double begin = milliseconds();
        for (; milliseconds() - begin < 500; turns++) {
            isl_ast_build *build = isl_ast_build_from_context(isl_set_read_from_str(ctx, "{ : }"));
            isl_ast_node *node = isl_ast_build_node_from_schedule_map(build, isl_union_map_copy(times));
            if (count > 1 && !strcmp(words[1], "text") && !turns) puts(isl_ast_node_to_C_str(node));
            isl_ast_node_free(node);
            isl_ast_build_free(build);
        }
        printf("%-28s %10.4f\n", schedules[i].name, (milliseconds() - begin) / turns);
        isl_union_map_free(times);
    }
    isl_ctx_free(ctx);
    return 0;
}
