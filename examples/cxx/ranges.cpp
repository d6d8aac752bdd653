// One key space over four stores, and two machines: a message, a scan at one cut, and a vacuum. It prints ranges.out.
#include <hlcstore.hpp>
#include <iostream>

namespace {

void show(const hlcstore::ranges_snapshot& snapshot) {
  for (const auto& [key, value] : snapshot) std::cout << key << '=' << value << '\n';
}

void run() {
  // Keys below "g", from "g" on, from "n" on, and from "t" on.
  hlcstore::ranges ranges(hlcstore::division::by_keys({"g", "n", "t"}), 2);
  hlcstore::machine first = ranges.machine(0), second = ranges.machine(1);

  // What the second machine writes comes after the message, and so after the apple, whichever stores they are in.
  ranges.write(first, 10, "apple", "red");
  const hlcstore::timestamp sent = first.send(11);
  second.receive(sent, 12);
  const hlcstore::timestamp pear = ranges.write(second, 13, "pear", "green");
  ranges.write(second, 13, "plum", "blue");
  ranges.write(second, 13, "quince", "yellow");
  ranges.write(second, 13, "zucchini", "green");
  ranges.erase(first, 14, "apple");

  // Each machine reports to each store. Up to the least floor all is there: that is the cut.
  ranges.report_all(first, 20);
  ranges.report_all(second, 20);
  std::cout << "cut " << to_string(ranges.cut()) << '\n';
  show(ranges.open_snapshot(pear));
  show(ranges.open_snapshot());

  // The snapshots are closed, so that the apple and its deletion can go.
  ranges.vacuum_to(ranges.cut());
  std::cout << "rows " << ranges.rows() << '\n';

  // An item that another process made is routed by that process. A wrong route is refused.
  const hlcstore::routed_item made = first.write(21, "fig", "purple");
  try {
    ranges.accept(made.store + 1, made.item);
  } catch (const hlcstore::wrong_store&) {
    std::cout << "refused\n";
  }
}

}  // namespace

int main() try {
  run();
} catch (const std::exception& failed) {
  std::cerr << failed.what() << '\n';
  return 1;
}
