// A bundle assigns locals alone, and no members.
struct row { int n; array_ptr<int> cells; };
struct row numbers;

int main(void) {
  array_ptr<int> q : count(3) = calloc<int>(3, sizeof(int));
  _Bundled { numbers.n = 3; numbers.cells = q; }
  return numbers.n;
}
