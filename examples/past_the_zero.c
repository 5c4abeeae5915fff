// A loop that takes one byte too many.
char name _Nt_checked[4];

int main(void) {
  for (int k = 0; k <= 3; k++) name[k] = 'a' + k;
  return strlen(name);
}
