// The product of two matrices. The input has the rows of the left one, its columns, which are the rows of the right one, and
// the columns of the right one, and then the numbers of both, row by row.
int left _Checked[64];
int right _Checked[64];
int product _Checked[64];

void read_numbers(array_ptr<int> to : count(n), int n) {
  for (int k = 0; k < n; k++) to[k] = next_input();
}

void show(array_ptr<int> from : count(n), int n) {
  for (int k = 0; k < n; k++) print_int(from[k]);
}

// A row of the left one times a column of the right one.
int cell(array_ptr<int> a : count(n), array_ptr<int> b : count(m), int n, int m, int inner, int columns, int row, int column) {
  int sum = 0;
  for (int k = 0; k < inner; k++) sum += a[row * inner + k] * b[k * columns + column];
  return sum;
}

void multiply(array_ptr<int> a : count(n), array_ptr<int> b : count(m), array_ptr<int> to : count(cells),
              int n, int m, int cells, int inner, int columns) {
  for (int k = 0; k < cells; k++) to[k] = cell(a, b, n, m, inner, columns, k / columns, k % columns);
}

int main(void) {
  int rows = next_input();
  int inner = next_input();
  int columns = next_input();
  int n = rows * inner;
  int m = inner * columns;
  int cells = rows * columns;
  if (n > 64 || m > 64 || cells > 64) return -1;
  read_numbers(left, n);
  read_numbers(right, m);
  multiply(left, right, product, n, m, cells, inner, columns);
  show(product, cells);
  return cells;
}
