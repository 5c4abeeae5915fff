// Which words of the input have the letters of the first one. A word is its bytes from 'a' to 'z' with a 0 behind them, and an
// empty one ends the input. Prints 1 for a word that has them and 0 for another one. A byte that is no letter ends the run.
#define LETTERS 26

// Counts the letters of the next word, and returns how many they are.
int count_letters(array_ptr<int> counts : count(LETTERS)) {
  int letters = 0;
  for (int byte = next_input(); byte != 0; byte = next_input()) {
    counts[byte - 'a']++;
    letters++;
  }
  return letters;
}

int are_same(array_ptr<int> p : count(LETTERS), array_ptr<int> q : count(LETTERS)) {
  for (int k = 0; k < LETTERS; k++) {
    if (p[k] != q[k]) return 0;
  }
  return 1;
}

int main(void) {
  int first _Checked[LETTERS];
  int found = 0;
  count_letters(first);
  while (1) {
    // Each turn has counters of its own, which begin as zeros.
    int counts _Checked[LETTERS];
    if (count_letters(counts) == 0) return found;
    int same = are_same(first, counts);
    print_int(same);
    found += same;
  }
}
