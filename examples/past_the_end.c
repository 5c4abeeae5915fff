// A loop that takes one element too many.
int primes _Checked[4] = {2, 3, 5, 7};

int main(void) {
  int sum = 0;
  for (int k = 0; k <= 4; k++) sum += primes[k];
  return sum;
}
