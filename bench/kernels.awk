# Writes C functions of twelve loops each over arrays: sums, products of two arrays, copies, searches, and a nest.
# -v functions=N
BEGIN {
    for (f = 0; f < functions; f++) {
        printf "int kernel%d(int *a, int *b, int n, int m) {\n  int s = %d;\n", f, f
        for (k = 0; k < 4; k++) {
            printf "  for (int i = 0; i < n; i++) s += a[i] * %d + b[i];\n", f + k
            printf "  for (int i = %d; i < n; i += 2) { a[i] = b[i] ^ s; if (a[i] == m) break; }\n", k
            printf "  for (int i = 0; i < m; i++)\n    for (int j = 0; j < i; j++) s -= a[j] / (i + %d) + (b[i] >> 3);\n", k + 1
        }
        printf "  return s;\n}\n"
    }
}
