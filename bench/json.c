// What a check of a manifest costs: time per byte for plain manifests of 1, 4 and 16 KiB, and the factor of the worst ones of 16 KiB.
// Build: tools/staticlib package_json && cc -O2 bench/json.c target/staticlib/libpackage_json.a -o target/bench_json
#include <stdint.h>
#include <stdio.h>
#include <string.h>
#include <time.h>

uint8_t package_json_check(const uint8_t *m, size_t n);

#define MAX 16384
static uint8_t m[MAX + 64];
static size_t n;

static void put(const char *s) { size_t k = strlen(s); memcpy(m + n, s, k); n += k; }

static double now(void) {
    struct timespec t;
    clock_gettime(CLOCK_MONOTONIC, &t);
    return t.tv_sec * 1e9 + t.tv_nsec;
}

// best of 40 runs, in ns; the answer must be 0
static double cost(void) {
    double best = 1e18;
    for (int run = 0; run < 40; run++) {
        int turns = n < 8192 ? 20 : 4;
        double a = now();
        for (int i = 0; i < turns; i++) {
            if (package_json_check(m, n) != 0) { printf("refused: %d\n", package_json_check(m, n)); return 0; }
        }
        double b = (now() - a) / turns;
        if (b < best) best = b;
    }
    return best;
}

// a manifest as packages have them: texts, exports with conditions, dependencies
static void plain(size_t size) {
    char s[256];
    n = 0;
    put("{\n  \"name\": \"@scope/material\",\n  \"version\": \"4.17.21\",\n  \"description\": \"A library of parts.\",\n  \"private\": false,\n");
    put("  \"exports\": {\n");
    int i = 0;
    for (; i < 100 && n + 160 < size / 2; i++) {
        sprintf(s, "    \"./part%d\": { \"import\": \"./dist/part%d.mjs\", \"require\": \"./dist/part%d.cjs\" },\n", i, i, i);
        put(s);
    }
    put("    \".\": \"./index.js\"\n  }");
    for (int g = 0; n + 200 < size; g++) {
        sprintf(s, ",\n  \"dependencies%d\": {\n    \"first\": 10.25", g);
        put(s);
        for (int k = 0; k < 100 && n + 100 < size; k++) {
            sprintf(s, ",\n    \"package-%d\": \"^%d.%d.0\"", k, k % 7, k % 11);
            put(s);
        }
        put("\n  }");
    }
    while (n + 2 < size) m[n++] = ' ';
    put("\n}");
}

// 128 members of one object whose names are as long as 16 KiB allows: `stem` again and again, and at the end `last` with two digits
static void names(const char *stem, const char *last) {
    char s[64];
    size_t each = MAX / 128 - 6, tail;
    n = 0;
    put("{");
    for (int i = 0; i < 128; i++) {
        if (i) put(",");
        put("\"");
        sprintf(s, "%s%02x", last, i);
        tail = strlen(s);
        for (size_t k = 0; k + strlen(stem) + tail <= each; k += strlen(stem)) put(stem);
        put(s);
        put("\":0");
    }
    put("}");
}

// 128 members of one name, as long as 16 KiB allows
static void repeated(const char *stem) {
    size_t each = MAX / 128 - 6;
    n = 0;
    put("{");
    for (int i = 0; i < 128; i++) {
        if (i) put(",");
        put("\"");
        for (size_t k = 0; k + strlen(stem) <= each; k += strlen(stem)) put(stem);
        put("\":0");
    }
    put("}");
}

// `part` between commas, in arrays of at most 128 elements
static void many(const char *part) {
    n = 0;
    put("[");
    while (n + strlen(part) + 8 < MAX) {
        put("[");
        for (int i = 0; i < 127 && n + strlen(part) + 8 < MAX; i++) { put(part); put(","); }
        put("0],");
    }
    put("0]");
}

static void strings(const char *part, size_t decoded) {
    char s[8192];
    size_t k = 0;
    s[k++] = '"';
    for (size_t d = 0; d + decoded <= 1024; d += decoded) { memcpy(s + k, part, strlen(part)); k += strlen(part); if (k > 4000) break; }
    s[k++] = '"';
    s[k] = 0;
    many(s);
}

int main(void) {
    double base = 0;
    size_t sizes[] = {1024, 4096, 16384};
    for (int i = 0; i < 3; i++) {
        plain(sizes[i]);
        base = cost();
        printf("plain %zu: %.0f ns, %.2f ns a byte\n", n, base, base / n);
    }
    base = base / n;
#define WORST(label, make) make; { double c = cost(); printf("%-28s %zu: %.0f ns, %.2f ns a byte, factor %.1f\n", label, n, c, c / n, c / n / base); }
    WORST("names, plain", names("a", "z"));
    WORST("names, one escape at the end", names("a", "\\n"));
    WORST("names, one escape first", names("aaaaaaaaaaaaaaaa", "\\u0061"));
    WORST("names, all escapes", names("\\u0061", "\\u00"));
    WORST("names, all short escapes", names("\\n", "z"));
    WORST("names, pairs", names("\\ud83d\\ude00", "z"));
    WORST("names, UTF-8", names("\xc3\xa9", "z"));
    WORST("one name, plain", repeated("a"));
    WORST("one name, all escapes", repeated("\\u0061"));
    WORST("deep", many("[[[[[[[[[[[[[[]]]]]]]]]]]]]]"));
    WORST("deep objects", many("{\"\":{\"\":{\"\":{\"\":{\"\":{\"\":0}}}}}}"));
    WORST("small objects", many("{\"\":0}"));
    WORST("empty texts", many("\"\""));
    WORST("white space", many("                                        "
                              "                                        0"));
    WORST("numbers", many("-1.5e+7"));
    WORST("texts, plain", strings("a", 1));
    WORST("texts, two-byte escapes", strings("\\n", 1));
    WORST("texts, \\u", strings("\\u00e9", 2));
    WORST("texts, pairs", strings("\\ud83d\\ude00", 4));
    WORST("texts, UTF-8 of 2", strings("\xc3\xa9", 2));
    WORST("texts, UTF-8 of 4", strings("\xf0\x9f\x98\x80", 4));
    return 0;
}
