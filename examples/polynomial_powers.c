// A power of a polynomial. The input is how many coefficients there are, these from the constant one on, and the exponent.
// Its coefficients are printed. Each polynomial on the way has a row of its own in one array, which no row leaves again.
#define CELLS 32

int cells _Checked[CELLS];
int used;

// So many of the cells behind the first ones, or null where there aren't so many.
array_ptr<int> behind(array_ptr<int> p : count(n), int n, int first, int wanted) : count(wanted) {
  if (first == 0) {
    if (wanted <= n) return p;
    return NULL;
  }
  if (n <= 0) return NULL;
  return behind(p + 1, n - 1, first - 1, wanted);
}

// A row of n cells that are zero, or null where there is no room.
array_ptr<int> take(int n) : count(n) {
  array_ptr<int> row : count(n) = behind(cells, CELLS, used, n);
  if (row && n > 0) used += n;
  return row;
}

// The product in a row of its own, which has so many coefficients, or null where there is no room.
array_ptr<int> product(array_ptr<int> p : count(n), int n, array_ptr<int> q : count(m), int m, int both) : count(both) {
  array_ptr<int> row : count(both) = take(both);
  if (!row) return NULL;
  for (int i = 0; i < n; i++) {
    for (int k = 0; k < m; k++) row[i + k] += p[i] * q[k];
  }
  return row;
}

int show(array_ptr<int> p : count(n), int n) {
  for (int i = 0; i < n; i++) print_int(p[i]);
  return n;
}

// Multiplies q so many times by p, and shows what comes of it; -1 where there is no room.
int times(array_ptr<int> q : count(m), int m, array_ptr<int> p : count(n), int n, int exponent) {
  if (exponent <= 0) return show(q, m);
  int both = m + n - 1;
  array_ptr<int> next : count(both) = product(q, m, p, n, both);
  if (!next) return -1;
  return times(next, both, p, n, exponent - 1);
}

int main(void) {
  take(1)[0] = 1;
  int n = next_input();
  array_ptr<int> p : count(n) = take(n);
  if (!p) return -1;
  for (int i = 0; i < n; i++) p[i] = next_input();
  return times(cells, 1, p, n, next_input());
}
