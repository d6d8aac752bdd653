// The program of main.c in C++.
#include <hlcstore/file.hpp>
#include <iostream>
#include <string>
#include <string_view>

namespace {

constexpr std::uint64_t steps = 5, last_counter = 3, long_step = 10000;
constexpr std::string_view long_key("\0\xff", 2);

void write_step(hlcstore::file& file, const std::string& step, const std::string& name, const std::string& old) {
  const std::uint64_t number = std::stoull(step);
  hlcstore::file_batch batch;
  batch.write("who", name);
  batch.write(name, step);
  batch.erase(old);
  batch.write(long_key, std::string(long_step * number, 'v'));
  file.append(batch, {0, 10 * number});
}

void print_step(hlcstore::file& file, std::uint64_t step) {
  const hlcstore::file_snapshot snapshot = file.open_snapshot(hlcstore::timestamp::of(10 * step, last_counter));
  std::cout << 10 * step << '.' << last_counter << ": ";
  for (const auto& [key, value] : snapshot.range("a")) std::cout << key << '=' << value << ' ';
  std::cout << "long=" << snapshot.get(long_key).value().size() << '\n';
}

void print_steps(hlcstore::file& file) {
  for (std::uint64_t step = 1; step <= steps; step++) print_step(file, step);
  try {
    file.open_snapshot(hlcstore::timestamp::of(10 * (steps + 1)));
  } catch (const hlcstore::file_error& refused) {
    const hlcstore::timestamp floor{refused.word()};
    std::cout << "refused above " << floor.physical() << '.' << floor.counter() << '\n';
  }
}

}  // namespace

int main(int many, char** words) {
  hlcstore::file file(words[2]);
  if (many == 6) {
    write_step(file, words[3], words[4], words[5]);
  } else {
    print_steps(file);
  }
  file.close();
}
