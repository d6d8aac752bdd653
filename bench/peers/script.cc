// Does the same as `hlcstore run` with a peer's store: a script on standard input, its replies on standard output. It
// is for the scripts of the bench, in which nothing is refused: at any other line it ends with status 1. The reply of a
// vacuum has no counts and no witnesses; `rows` is answered only if there is the argument `count`.
#include PEER

#include <algorithm>
#include <charconv>
#include <map>
#include <memory>

namespace {
using Word = string_view;

uint64_t number(Word word) {
  uint64_t value = 0;
  auto [end, error] = std::from_chars(word.data(), word.data() + word.size(), value);
  if (error != std::errc() || end != word.data() + word.size()) give_up("no number");
  return value;
}

int digit(char c) { return c >= '0' && c <= '9' ? c - '0' : c >= 'A' && c <= 'F' ? c - 'A' + 10 : -1; }

string bytes(Word word) {
  if (word == "%") return "";
  if (word.find('%') == Word::npos) return string(word);
  string made;
  for (size_t at = 0; at < word.size(); at++) {
    if (word[at] != '%') {
      made.push_back(word[at]);
      continue;
    }
    if (at + 2 >= word.size() || digit(word[at + 1]) < 0 || digit(word[at + 2]) < 0) give_up("no bytes");
    made.push_back(static_cast<char>(digit(word[at + 1]) * 16 + digit(word[at + 2])));
    at += 2;
  }
  return made;
}

struct Item {
  uint64_t stamp;
  bool is_write, has_value;
  string key, value;
};

struct Node {
  uint64_t last = 0, head = 0, accepted = 0;
  std::vector<Item> issued;
};

// A delivered write that waits until the floor (closed timestamp) has passed it, for a store that needs the order of
// stamps.
struct Waiting {
  uint64_t stamp, node;
  Item item;
};

class World {
 public:
  World(uint64_t nodes, bool counts) : nodes_(nodes), counts_(counts) {}

  // Answers the words of a line.
  void answer(const std::vector<Word>& words) {
    const Word verb = words[0];
    if (verb == "write" && words.size() == 5) {
      issue(words, true, bytes(words[3]), bytes(words[4]), true);
    } else if (verb == "delete" && words.size() == 4) {
      issue(words, true, bytes(words[3]), "", false);
    } else if (verb == "report" && words.size() == 3) {
      issue(words, false, "", "", false);
    } else if (verb == "deliver" && words.size() == 3) {
      deliver(number(words[1]), number(words[2]));
    } else if (verb == "open" && words.size() == 2 && words[1] == "floor") {
      hand_over(floor());
      snapshots_[++opened_] = floor();
      store_.open(opened_, floor());
      put("snapshot ").put(opened_).put(" at ").stamp(floor());
    } else if (verb == "read" && words.size() == 3) {
      read(number(words[1]), bytes(words[2]));
    } else if (verb == "close" && words.size() == 2) {
      auto found = snapshots_.find(number(words[1]));
      if (found == snapshots_.end()) give_up("no such snapshot");
      put("closed ").stamp(found->second);
      store_.close(found->first);
      snapshots_.erase(found);
    } else if (verb == "vacuum" && words.size() == 1) {
      hand_over(floor());
      store_.flush();
      store_.vacuum(points(), floor());
      put("vacuum ").stamp(floor());
    } else if (verb == "rows" && words.size() == 1) {
      put("rows ");
      if (counts_) put(store_.rows());
    } else {
      give_up("a line that is not for it");
    }
    put("\n");
  }

  World& put(Word text) {
    out_ += text;
    if (out_.size() >= 8192) write();
    return *this;
  }

  World& put(uint64_t value) {
    char digits[20];
    return put(Word(digits, std::to_chars(digits, digits + 20, value).ptr - digits));
  }

  void end() {
    hand_over(UINT64_MAX);
    store_.flush();
    write();
  }

 private:
  void write() {
    if (std::fwrite(out_.data(), 1, out_.size(), stdout) != out_.size()) give_up("a write failed");
    out_.clear();
  }

  void stamp(uint64_t stamp) { put(stamp >> 16).put(".").put(stamp & 0xffff); }

  void spelled(Word value) {
    if (value.empty()) put("%");
    const auto is_plain = [](char c) { return c >= 33 && c <= 126 && c != '%'; };
    if (std::all_of(value.begin(), value.end(), is_plain)) {
      put(value);
      return;
    }
    for (const char c : value) {
      char escape[4] = {c, 0, 0, 0};
      if (!is_plain(c)) std::snprintf(escape, 4, "%%%02X", static_cast<unsigned char>(c));
      put(escape);
    }
  }

  uint64_t floor() const {
    uint64_t least = UINT64_MAX;
    for (const Node& node : nodes_) least = std::min(least, node.head);
    return least;
  }

  Points points() const {
    Points points{floor()};
    for (const auto& snapshot : snapshots_) points.push_back(snapshot.second);
    std::sort(points.begin(), points.end());
    points.erase(std::unique(points.begin(), points.end()), points.end());
    return points;
  }

  void issue(const std::vector<Word>& words, bool is_write, string key, string value, bool has_value) {
    Node& node = nodes_.at(number(words[1]));
    const uint64_t reading = number(words[2]);
    if (reading >> 42) give_up("a reading of more than 42 bits");
    node.last = reading > node.last >> 16 ? reading << 16 : node.last + 1;
    node.issued.push_back({node.last, is_write, has_value, std::move(key), std::move(value)});
    put("stamp ").stamp(node.last);
    put(" item ").put(node.issued.size() - 1);
  }

  void deliver(uint64_t from, uint64_t at) {
    Node& node = nodes_.at(from);
    if (at != node.accepted || at >= node.issued.size()) give_up("not the next item");
    const Item& item = node.issued[at];
    if (item.is_write) accept(from, item);
    node.accepted++;
    node.head = item.stamp;
    put("accepted ").stamp(item.stamp);
  }

  void accept(uint64_t node, const Item& item) {
    if (!Store::wants_order) {
      put_in(node, item);
      return;
    }
    waiting_.push_back({item.stamp, node, item});
    if (waiting_.size() >= BATCH) hand_over(floor());
  }

  void put_in(uint64_t node, const Item& item) {
    const string_view value = item.value;
    store_.put(item.stamp, node, item.key, item.has_value ? &value : nullptr);
  }

  // Passes what waits at or below the floor to the store, in the order of stamps and nodes.
  void hand_over(uint64_t floor) {
    const auto below = [](const Waiting& a, const Waiting& b) {
      return a.stamp != b.stamp ? a.stamp < b.stamp : a.node < b.node;
    };
    std::sort(waiting_.begin(), waiting_.end(), below);
    size_t many = 0;
    for (; many < waiting_.size() && waiting_[many].stamp <= floor; many++) {
      put_in(waiting_[many].node, waiting_[many].item);
    }
    waiting_.erase(waiting_.begin(), waiting_.begin() + many);
  }

  void read(uint64_t id, const string& key) {
    const auto found = snapshots_.find(id);
    if (found == snapshots_.end()) give_up("no such snapshot");
    string_view value;
    if (store_.read(id, found->second, key, &value)) {
      put("value ").spelled(value);
    } else {
      put("none");
    }
  }

  std::vector<Node> nodes_;
  bool counts_;
  Store store_;
  std::map<uint64_t, uint64_t> snapshots_;
  uint64_t opened_ = 0;
  std::vector<Waiting> waiting_;
  string out_;
};
}  // namespace

int main(int argc, char** argv) {
  string input;
  static char block[65536];
  while (const size_t taken = std::fread(block, 1, sizeof block, stdin)) input.append(block, taken);
  std::unique_ptr<World> world;
  std::vector<Word> words;
  for (size_t at = 0; at < input.size();) {
    const size_t end = std::min(input.find('\n', at), input.size());
    words.clear();
    for (size_t next = at; next <= end;) {
      const size_t space = std::min(Word(input).substr(0, end).find(' ', next), end);
      words.push_back(Word(input).substr(next, space - next));
      next = space + 1;
    }
    if (world) {
      world->answer(words);
    } else if (words.size() == 2 && words[0] == "nodes") {
      world = std::make_unique<World>(number(words[1]), argc == 2 && std::strcmp(argv[1], "count") == 0);
      world->put("nodes ").put(number(words[1])).put("\n");
    } else {
      give_up("no header");
    }
    at = end + 1;
  }
  if (!world) give_up("no header");
  world->end();
}
