// The sum of the first ten squares.
int main(void) {
  array_ptr<int> a : count(10) = malloc<int>(10 * sizeof(int));
  int i = 0;
  int s = 0;
  while (i < 10) {
    a[i] = i * i;
    i = i + 1;
  }
  for (int j = 0; j < 10; j++) {
    s = s + a[j];
  }
  print_int(s);
  return 0;
}
