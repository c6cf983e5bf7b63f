/* A nest of loops over an array. ROUNDS says how often the inner loop runs. */
unsigned cells[1024];

int main(void) {
  unsigned sum = 0;
  for (unsigned round = 0; round < ROUNDS; round++)
    for (unsigned i = 0; i < 1024; i++) {
      cells[i] += i ^ round;
      sum += cells[i];
    }
  return sum & 127;
}
