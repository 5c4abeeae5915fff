// A count, and a pointer whose bounds name it, are assigned together: the bounds are asked for behind both.
int main(void) {
  int n = 0;
  array_ptr<int> p : count(n) = 0;
  array_ptr<int> q : count(3) = calloc<int>(3, sizeof(int));
  _Bundled { n = 3; p = q; }
  p[2] = 8;
  return p[2];
}
