// What two files of words have in common, as `comm` tells it of sorted lines: comm FIRST SECOND
//
// The words may stand in any order. Prints three columns: words of the first file alone, of the second alone, and of
// both. A word is a run of letters, in lower case.
#include <cctype>
#include <fstream>
#include <iostream>
#include <tree_index.hpp>

static tree_index::byte_index words_of(const char *path) {
  tree_index::byte_index words;
  std::ifstream file(path);
  if (!file) throw std::runtime_error(std::string("can't read ") + path);
  std::string word;
  auto end = [&] {
    // How often each word occurs is its value.
    if (!word.empty()) words.upsert(word, words.find(word).value_or(0) + 1);
    word.clear();
  };
  for (char letter; file.get(letter);) {
    if (std::isalpha(static_cast<unsigned char>(letter))) word += static_cast<char>(std::tolower(letter));
    else end();
  }
  end();
  return words;
}

int main(int count, char **names) {
  if (count != 3) {
    std::cerr << "usage: comm FIRST SECOND\n";
    return 2;
  }
  try {
    tree_index::byte_index first = words_of(names[1]), second = words_of(names[2]);
    // Both walks go up, and the smaller word is taken.
    std::size_t alone[2] = {0, 0}, both = 0;
    auto a = first.begin(), b = second.begin();
    while (a != first.end() || b != second.end()) {
      if (b == second.end() || (a != first.end() && a->first < b->first)) {
        std::cout << a->first << '\n';
        alone[0]++;
        ++a;
      } else if (a == first.end() || b->first < a->first) {
        std::cout << '\t' << b->first << '\n';
        alone[1]++;
        ++b;
      } else {
        std::cout << "\t\t" << a->first << '\n';
        both++;
        ++a;
        ++b;
      }
    }
    std::cerr << first.size() << " and " << second.size() << " words: " << alone[0] << " and " << alone[1] << " alone, " << both << " in both\n";
    return 0;
  } catch (const std::exception &error) {
    std::cerr << "comm: " << error.what() << '\n';
    return 1;
  }
}
