// The input numbers up to a 0, sorted with a heap, at most sixteen of them.
int numbers _Checked[16];

// Reads numbers up to a 0, or as many as there is room for, and returns how many they are.
int read_numbers(array_ptr<int> to : count(room), int room) {
  int n = 0;
  for (int number = next_input(); number != 0 && n < room; number = next_input()) {
    to[n] = number;
    n++;
  }
  return n;
}

void swap(ptr<int> a, ptr<int> b) {
  int number = *a;
  *a = *b;
  *b = number;
}

// Moves the number at a place down to where no number below it is greater. Below k stand 2k + 1 and 2k + 2.
void sift(array_ptr<int> heap : count(n), int n, int place) {
  while (2 * place + 1 < n) {
    int below = 2 * place + 1;
    if (below + 1 < n && heap[below] < heap[below + 1]) below++;
    if (heap[below] <= heap[place]) return;
    swap(&heap[place], &heap[below]);
    place = below;
  }
}

// The greatest number goes behind the others, which are a heap with one number less.
void sort(array_ptr<int> heap : count(n), int n) {
  for (int place = n / 2; place > 0; place--) sift(heap, n, place - 1);
  while (n > 1) {
    swap(&heap[0], &heap[n - 1]);
    n--;
    sift(heap, n, 0);
  }
}

int main(void) {
  int n = read_numbers(numbers, 16);
  if (n > 16) return -1;
  sort(numbers, n);
  for (int k = 0; k < n; k++) print_int(numbers[k]);
  return n;
}
