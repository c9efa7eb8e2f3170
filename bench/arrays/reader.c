// A plain reader of files of one array: what array_text is measured against. It goes over the bytes once, passes over blanks and comments, counts
// lines and columns, takes a number of at most 19 digits digit by digit within the range of 64 bits, and stops at what is none.
#include <stdint.h>
#include <stdio.h>
#include <stdlib.h>
#include <string.h>
#include <time.h>

struct scanner {
    const unsigned char *at, *end;
    uint32_t line, column;
};

static int is_run_byte(unsigned char byte) {
    return (byte >= '0' && byte <= '9') || ((byte | 32) >= 'a' && (byte | 32) <= 'z') || byte == '_' || byte == '-';
}

static void skip(struct scanner *s) {
    for (; s->at < s->end; s->at++) {
        switch (*s->at) {
        case '\n': s->line++; s->column = 1; break;
        case ' ': case '\t': case '\r': s->column++; break;
        case '#': while (s->at + 1 < s->end && s->at[1] != '\n') s->at++; break;
        default: return;
        }
    }
}

// The number that comes next: 0 where none does.
static int number(struct scanner *s, int64_t *value) {
    skip(s);
    const unsigned char *p = s->at;
    int minus = p < s->end && *p == '-';
    p += minus;
    const unsigned char *first = p;
    uint64_t magnitude = 0;
    for (; p < s->end && *p >= '0' && *p <= '9'; p++)
        magnitude = magnitude * 10 + (*p - '0');
    if (p == first || p - first > 19 || (p < s->end && is_run_byte(*p)) || magnitude > (uint64_t)INT64_MAX + minus)
        return 0;
    s->column += p - s->at;
    s->at = p;
    *value = minus ? (int64_t)-magnitude : (int64_t)magnitude;
    return 1;
}

// The values of a file of one array of this name and extent: NULL where it is none.
__attribute__((noinline)) static int64_t *read_array(const unsigned char *text, size_t len, const char *head, size_t count) {
    size_t front = strlen(head);
    if (len < front || memcmp(text, head, front) != 0)
        return NULL;
    struct scanner s = { text + front, text + len, 1, front + 1 };
    int64_t *values = malloc(count * sizeof *values);
    if (values == NULL)
        return NULL;
    for (size_t i = 0; i < count; i++)
        if (!number(&s, values + i)) {
            free(values);
            return NULL;
        }
    skip(&s);
    if (s.at < s.end) {
        free(values);
        return NULL;
    }
    return values;
}

int main(void) {
    FILE *file = fopen("values", "rb");
    if (file == NULL)
        return 1;
    fseek(file, 0, SEEK_END);
    size_t len = ftell(file);
    rewind(file);
    unsigned char *text = malloc(len);
    if (text == NULL || fread(text, 1, len, file) != len)
        return 1;
    uint64_t best = UINT64_MAX;
    int made = 0;
    for (int run = 0; run < 11; run++) {
        struct timespec a, b;
        clock_gettime(CLOCK_MONOTONIC, &a);
        int64_t *values = read_array(text, len, "array A 1000000", 1000000);
        made = values != NULL;
        free(values);
        clock_gettime(CLOCK_MONOTONIC, &b);
        uint64_t nanos = (b.tv_sec - a.tv_sec) * 1000000000ull + b.tv_nsec - a.tv_nsec;
        best = nanos < best ? nanos : best;
    }
    printf("%llu %d\n", (unsigned long long)best, made);
    return 0;
}
