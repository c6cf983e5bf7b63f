/* The sum of the entries of an array, each measured by a helper from elsewhere. */
int measure(int entry);

int sum(const int *entries, int count) {
  int total = 0;
  for (int i = 0; i < count; i++)
    total += measure(entries[i]);
  return total;
}
