// One operation on the values of a row of growth.py, by isl: reads its name and one or two values, a line each, and writes the milliseconds of the
// call alone. Built by growth.py where isl's headers are installed.
#define _GNU_SOURCE
#include <isl/ctx.h>
#include <isl/union_map.h>
#include <isl/union_set.h>
#include <stdio.h>
#include <stdlib.h>
#include <string.h>
#include <time.h>

static double milliseconds(void) {
    struct timespec t;
    clock_gettime(CLOCK_PROCESS_CPUTIME_ID, &t);
    return t.tv_sec * 1e3 + t.tv_nsec / 1e6;
}

static char *line(void) {
    char *text = NULL;
    size_t room = 0;
    ssize_t length = getline(&text, &room, stdin);
    if (length <= 0) return NULL;
    if (text[length - 1] == '\n') text[length - 1] = 0;
    return text;
}

static void of_sets(const char *operation, isl_union_set *a, isl_union_set *b) {
    if (!strcmp(operation, "minus")) isl_union_set_free(isl_union_set_subtract(a, b));
    if (!strcmp(operation, "union")) isl_union_set_free(isl_union_set_union(a, b));
    if (!strcmp(operation, "meet")) isl_union_set_free(isl_union_set_intersect(a, b));
    if (!strcmp(operation, "subset")) isl_union_set_is_subset(a, b);
    if (!strcmp(operation, "coalesce")) isl_union_set_free(isl_union_set_coalesce(a));
    if (!strcmp(operation, "lexmin")) isl_union_set_free(isl_union_set_lexmin(a));
}

int main(void) {
    isl_ctx *ctx = isl_ctx_alloc();
    char *operation = line(), *first = line(), *second = line();
    if (!operation || !first) return 1;
    double begin;
    if (!strcmp(operation, "join")) {
        isl_union_map *a = isl_union_map_read_from_str(ctx, first), *b = isl_union_map_read_from_str(ctx, second);
        begin = milliseconds();
        isl_union_map_free(isl_union_map_apply_range(a, b));
    } else {
        isl_union_set *a = isl_union_set_read_from_str(ctx, first);
        isl_union_set *b = second ? isl_union_set_read_from_str(ctx, second) : NULL;
        begin = milliseconds();
        of_sets(operation, a, b);
    }
    printf("%.3f\n", milliseconds() - begin);
    return 0;
}
