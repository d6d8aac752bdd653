// What the story does not show of hlcstore.hpp: moving and closing, ranges in pieces, as views and of temporary
// snapshots, changes of many keys, the longest keys and values, long certificates, lists of items, batches, also beside
// a model, items with their keys and values, the methods of a shared store, increments, restores that are given up, and
// refusals as exceptions.
#include <algorithm>
#include <cstdio>
#include <cstdlib>
#include <hlcstore.hpp>
#include <iterator>
#include <map>
#include <optional>
#include <random>
#include <sstream>
#include <stdexcept>
#include <string>
#include <string_view>
#include <type_traits>
#include <unordered_set>
#include <utility>
#include <vector>

namespace {

using hlcstore::error_kind;
using hlcstore::node;
using hlcstore::store;
using hlcstore::timestamp;
using std::string;
using std::string_view;

int wrong = 0;

#define EXPECT(condition) expect(condition, #condition, __LINE__)

void expect(bool holds, const char* condition, int line) {
  if (holds) return;
  std::printf("line %d: %s\n", line, condition);
  wrong++;
}

// Makes a call, and returns the number of its refusal.
template <class Call>
std::uint32_t refusal_of(Call call) {
  try {
    call();
  } catch (const hlcstore::error& refused) {
    return refused.code();
  }
  return HLC_OK;
}

void write(store& store, node& node, std::uint64_t reading, string_view key, string_view value) {
  store.accept_write(node.write(reading, key, value), key, value);
}

string key_of(int number) {
  char key[16];
  std::snprintf(key, sizeof key, "key%05d", number);
  return key;
}

// Pairs of 10 to 60,000 bytes, which take several pieces.
std::map<string, string> many_pairs() {
  std::map<string, string> pairs;
  for (int i = 0; i < 2000; i++) pairs[key_of(i)] = string(i % 7 * 10, 'v');
  for (int i = 0; i < 2000; i += 300) pairs[key_of(i)] = string(60000 + i, 'w');
  return pairs;
}

// Pairs of the longest keys and values at the ends and in the middle, with short ones between.
std::map<string, string> longest_pairs() {
  const string key(254, 'k'), value(65535, 'v');
  return {{'a' + key, value}, {"b", "x"}, {'c' + key, value}, {'d' + key, ""}, {"e", value}, {'f' + key, value}};
}

store filled(const std::map<string, string>& pairs) {
  store filled(1);
  node writer(0);
  hlcstore::item_list items;
  for (const auto& [key, value] : pairs) items.write(writer.write(1, key, value), key, value);
  const hlcstore::list_answer made = filled.accept(items);
  EXPECT(made && made.many == pairs.size() && items.size() == pairs.size());
  return filled;
}

void ranges() {
  const std::map<string, string> pairs = many_pairs();
  store store = filled(pairs);
  const hlcstore::snapshot snapshot = store.open_snapshot();
  EXPECT((std::map<string, string>(snapshot.begin(), snapshot.end()) == pairs));
  const auto low = pairs.lower_bound("key00100"), high = pairs.lower_bound("key00900");
  const auto range = snapshot.range("key00100", "key00900");
  EXPECT(std::equal(low, high, range.begin(), range.end(),
                    [](const auto& a, const auto& b) { return a.first == b.first && a.second == b.second; }));
  auto expected = low;
  for (const string& key : snapshot.keys("key00100", "key00900")) EXPECT(key == (expected++)->first);
  EXPECT(expected == high);
  EXPECT(snapshot.count() == pairs.size() && snapshot.count("key00100", "key00900") == 800);
  EXPECT(snapshot.digest("key00100").size() == 32 && snapshot.digest("key00100") != snapshot.digest());
  auto place = snapshot.range("key00001").begin();
  EXPECT((*place++).first == "key00001" && place->first == "key00002");
  const auto none = snapshot.range("l");
  EXPECT(none.begin() == none.end());
}

void longest() {
  const std::map<string, string> pairs = longest_pairs();
  store store = filled(pairs);
  const hlcstore::snapshot snapshot = store.open_snapshot();
  EXPECT((std::map<string, string>(snapshot.begin(), snapshot.end()) == pairs));
  auto expected = pairs.begin();
  for (const string& key : snapshot.keys()) EXPECT(key == (expected++)->first);
  EXPECT(expected == pairs.end());
  std::vector<string_view> keys;
  for (const auto& pair : pairs) keys.push_back(pair.first);
  const auto values = snapshot.get_all(keys);
  for (std::size_t at = 0; at < keys.size(); at++) EXPECT(values[at] == pairs.at(string(keys[at])));
  for (const auto& [key, value] : pairs) EXPECT(snapshot.get(key) == value);
  // A pair takes its bytes and two lengths of eight bytes, and an answer its bytes, a length and a byte.
  EXPECT(snapshot.scan("", "", 65806).many == 1 && snapshot.scan("", "", 65805).many == 0);
}

template <class Type, class = void>
constexpr bool has_begin = false;
template <class Type>
constexpr bool has_begin<Type, std::void_t<decltype(std::declval<Type>().begin())>> = true;
template <class Type, class = void>
constexpr bool opens_snapshots = false;
template <class Type>
constexpr bool opens_snapshots<Type, std::void_t<decltype(std::declval<Type>().open_snapshot(timestamp()))>> = true;

// What refers to a temporary object does not compile, or owns it.
void temporaries() {
  static_assert(has_begin<const hlcstore::snapshot&> && !has_begin<hlcstore::snapshot>);
  static_assert(has_begin<hlcstore::pair_range> && has_begin<hlcstore::key_range>);
  static_assert(has_begin<hlcstore::owning_key_range&> && !has_begin<hlcstore::owning_key_range>);
  static_assert(opens_snapshots<store&> && !opens_snapshots<store>);
  static_assert(opens_snapshots<hlcstore::shared_store&> && !opens_snapshots<hlcstore::shared_store>);
  const std::map<string, string> pairs = many_pairs();
  const std::map<string, string> some(pairs.lower_bound("key00100"), pairs.lower_bound("key00900"));
  store store = filled(pairs);
  std::map<string, string> found;
  for (const auto& pair : store.open_snapshot().range("key00100", "key00900")) found.insert(pair);
  EXPECT(found == some && store.snapshots().empty());
  found.clear();
  for (const auto& pair : store.open_snapshot()) found.insert(pair);
  EXPECT(found == pairs && store.snapshots().empty());
  auto expected = pairs.begin();
  for (const string& key : store.open_snapshot().keys()) EXPECT(key == (expected++)->first);
  EXPECT(expected == pairs.end() && store.snapshots().empty());
  {
    hlcstore::snapshot snapshot = store.open_snapshot();
    const hlcstore::owning_pair_range owned = std::move(snapshot).range("key00100", "key00900");
    EXPECT((store.snapshots().size() == 1 && std::map<string, string>(owned.begin(), owned.end()) == some));
    EXPECT(refusal_of([&] { snapshot.get("key00100"); }) == HLC_NO_SNAPSHOT);
  }
  EXPECT(store.snapshots().empty());
}

void reads() {
  const std::map<string, string> pairs = many_pairs();
  store store = filled(pairs);
  const hlcstore::snapshot snapshot = store.open_snapshot();
  for (const auto& [key, value] : pairs) EXPECT(snapshot.get(key) == value);
  EXPECT(snapshot.get("other") == std::nullopt && snapshot.get("") == std::nullopt);
  std::vector<string_view> keys = {"other"};
  for (const auto& pair : pairs) keys.push_back(pair.first);
  const auto values = snapshot.get_all(keys);
  EXPECT(values.size() == keys.size() && values[0] == std::nullopt);
  for (std::size_t at = 1; at < keys.size(); at++) EXPECT(values[at] == pairs.at(string(keys[at])));
  EXPECT(snapshot.get_all({}).empty());
}

// A value where it lies is the copy that `get` makes, of each length, and stays there while nothing changes the store.
void values_in_place() {
  store taken(1);
  node from(0);
  const std::map<string, string> pairs = {
      {"a", ""}, {"b", "x"}, {"c", string(30, 'c')}, {"d", string(31, '\0')}, {"e", string(65535, 'e')}};
  for (const auto& [key, value] : pairs) write(taken, from, 1, key, value);
  write(taken, from, 2, "f", "gone");
  taken.accept_erase(from.erase(3, "f"), "f");
  hlcstore::snapshot snapshot = taken.open_snapshot();
  std::map<string, string_view> seen;
  for (const auto& [key, value] : pairs) seen[key] = *snapshot.view(key);
  const store moved = std::move(taken);
  for (const auto& [key, value] : pairs) {
    EXPECT(seen[key] == value && seen[key] == snapshot.get(key));
    EXPECT(seen[key].data() == snapshot.view(key)->data());
  }
  EXPECT(!snapshot.view("f") && !snapshot.view("g") && !snapshot.view(""));
  snapshot.close();
  EXPECT(refusal_of([&] { snapshot.view("a"); }) == HLC_NO_SNAPSHOT);

  hlcstore::shared_store shared{store(1)};
  shared.accept_write(node(0).write(1, "a", "shared"), "a", "shared");
  const auto length = [](const hlcstore::snapshot& open) { return open.view("a")->size(); };
  EXPECT(shared.open_snapshot().read(length) == 6);
}

void ownership() {
  static_assert(!std::is_copy_constructible_v<store> && std::is_nothrow_move_constructible_v<store>);
  static_assert(!std::is_copy_assignable_v<store> && std::is_nothrow_move_assignable_v<store>);
  static_assert(!std::is_copy_constructible_v<hlcstore::snapshot>);
  static_assert(std::is_trivially_copyable_v<node>);
  store first(1);
  node writer(0);
  write(first, writer, 1, "a", "x");
  hlcstore::snapshot early = first.open_snapshot();
  store moved = std::move(first);
  write(moved, writer, 2, "a", "y");
  {
    const hlcstore::snapshot late = moved.open_snapshot();
    EXPECT(early.get("a") == "x" && late.get("a") == "y" && moved.snapshots().size() == 2);
  }
  EXPECT(moved.snapshots().size() == 1 && moved.snapshots()[0].id == early.id());
  EXPECT(refusal_of([&] { moved.open(1); }) == HLC_IS_OPEN);
  EXPECT(refusal_of([&] { moved.restore(moved.checkpoint(0)); }) == HLC_IS_OPEN);
  hlcstore::restoring pieces;
  const string saved = moved.checkpoint(7);
  for (std::size_t at = 0; at < saved.size(); at += 10) pieces.feed(string(saved, at, 10));
  EXPECT(refusal_of([&] { moved.restore(pieces); }) == HLC_IS_OPEN);
  store copy;
  EXPECT(copy.restore(pieces) == 7 && copy.checkpoint(7) == saved);
  std::ostringstream written;
  copy.checkpoint_to(written, 7);
  EXPECT(written.str() == saved);
  EXPECT(refusal_of([&] { pieces.feed("more"); }) == HLC_NOT_UNDER_WAY);
  early = moved.open_snapshot();
  EXPECT(moved.snapshots().size() == 1 && early.get("a") == "y");
  early.close();
  early.close();
  EXPECT(moved.snapshots().empty() && refusal_of([&] { early.get("a"); }) == HLC_NO_SNAPSHOT);
  hlcstore::snapshot last = moved.open_snapshot();
  moved = store(2);
  EXPECT(moved.nodes() == 2 && refusal_of([&] { last.get("a"); }) == HLC_CLOSED);
  // The number of a snapshot of the old store is one of the new store too.
  const hlcstore::snapshot other = moved.open_snapshot();
  last.close();
  EXPECT(moved.snapshots().size() == 1);
  moved.close();
  moved.close();
  EXPECT(moved.raw() == nullptr && refusal_of([&] { moved.rows(); }) == HLC_CLOSED);
  hlcstore::shared_store shared{store(1)};
  hlcstore::shared_snapshot left = shared.open_snapshot();
  const hlcstore::shared_snapshot taken = std::move(left);
  const auto count = [](const hlcstore::snapshot& open) { return open.count(); };
  EXPECT(taken.read(count) == 0 && refusal_of([&] { left.read(count); }) == HLC_NO_SNAPSHOT);
}

// A snapshot of a store that was closed, and opened again with a snapshot of the same number.
void reopened() {
  store store(1);
  node writer(0);
  write(store, writer, 1, "a", "one");
  hlcstore::snapshot old = store.open_snapshot();
  hlcstore::store other(1);
  node other_writer(0);
  write(other, other_writer, 1, "a", "two");
  EXPECT(other.open_snapshot().release() == old.id());
  const auto place = old.begin();
  store.close();
  EXPECT(store.restore(other.checkpoint(7)) == 7 && store.snapshots().size() == 1);
  EXPECT(refusal_of([&] { old.get("a"); }) == HLC_CLOSED && refusal_of([&] { old.list(); }) == HLC_CLOSED);
  EXPECT(place->second == "one");
  old.close();
  EXPECT(store.snapshots().size() == 1 && store.attach_snapshot(1).get("a") == "two");
}

// Restores that are given up, or refused. Valgrind looks for what they leave.
void restores_that_fail() {
  store store = filled(longest_pairs());
  const string saved = store.checkpoint(7);
  {
    hlcstore::restoring begun;
    hlcstore::restoring fed;
    fed.feed(saved.substr(0, saved.size() / 2));
  }
  hlcstore::store copy;
  {
    hlcstore::restoring cut;
    cut.feed(saved.substr(0, saved.size() - 1));
    EXPECT(refusal_of([&] { copy.restore(cut); }) == HLC_BAD_BYTES);
    EXPECT(refusal_of([&] { cut.feed("more"); }) == HLC_NOT_UNDER_WAY);
  }
  {
    hlcstore::restoring whole;
    whole.feed(saved);
    EXPECT(refusal_of([&] { store.restore(whole); }) == HLC_IS_OPEN);
  }
  EXPECT(refusal_of([&] { copy.restore(string_view(saved).substr(1)); }) == HLC_BAD_BYTES);
  EXPECT(copy.restore(saved) == 7 && copy.checkpoint(7) == saved);
}

void refusals() {
  store store(1);
  node writer(0);
  const hlcstore::item made = writer.write(1, "a", "x");
  store.accept_write(made, "a", "x");
  try {
    store.accept_write(made, "a", "x");
    EXPECT(false);
  } catch (const std::exception& caught) {
    const auto& refused = dynamic_cast<const hlcstore::error&>(caught);
    EXPECT(refused.code() == HLC_NOT_NEXT && refused.word() == 1);
    EXPECT(caught.what() == hlcstore::error_text(HLC_NOT_NEXT) + " (1)");
    EXPECT(hlcstore::error_name(refused.code()) == "HLC_NOT_NEXT" && refused.kind() == error_kind::not_next);
  }
  // The word of a stamp is written as one, and none where there is no word.
  EXPECT(hlcstore::error(HLC_ABOVE_FLOOR, 65538).what() == hlcstore::error_text(HLC_ABOVE_FLOOR) + " (1.2)");
  EXPECT(hlcstore::error(HLC_NO_INCREMENT, 3).what() == hlcstore::error_text(HLC_NO_INCREMENT) + " (3)");
  EXPECT(hlcstore::error(HLC_NOT_PARTS, 4).what() == hlcstore::error_text(HLC_NOT_PARTS) + " (4)");
  EXPECT(hlcstore::error(HLC_NOT_PARTS, 4).kind() == error_kind::not_parts);
  for (const error_kind kind : {error_kind::no_increment, error_kind::closed, error_kind::no_memory}) {
    const auto code = static_cast<std::uint32_t>(kind);
    EXPECT(hlcstore::error(code).what() == hlcstore::error_text(code) && !hlcstore::error_text(code).empty());
  }
  EXPECT(hlcstore::error_name(4).empty() && hlcstore::error_text(4).empty());
  for (std::uint32_t code = 0; code < 200; code++) {
    EXPECT(hlcstore::error_text(code).empty() == hlcstore::error_name(code).empty());
  }
  EXPECT(!store.check_write(made, "a", "x") && store.check_write(made, "a", "x").word == 1);
  EXPECT(store.check_write(made, "a", "x").kind() == error_kind::not_next);
  EXPECT(store.check_erase(writer.erase(2, "a"), "a") && store.check_report({0, 1, timestamp::of(2)}));
  EXPECT(refusal_of([&] { writer.write(std::uint64_t{1} << 48, "a", ""); }) == HLC_READING_TOO_LARGE);
  EXPECT(refusal_of([&] { node::restore(0, {1}, 2); }) == HLC_NO_SUCH_NODE);
  EXPECT(refusal_of([&] { store.link(1); }) == HLC_NO_NODE && store.link(0).next == 1);
}

// A list whose third item is refused, and a log of the same items, which goes on after those that were accepted.
void partly_accepted() {
  store store(1);
  node writer(0);
  hlcstore::item_list items;
  string log;
  for (const char* key : {"a", "b", "", "c"}) {
    const hlcstore::item made = *key != '\0' ? writer.write(1, key, "x") : hlcstore::item{0, 9, timestamp::of(1)};
    items.write(made, *key != '\0' ? key : "b", "x");
    if (*key != '\0') log += hlcstore::encode_write(made, key, "x");
  }
  const hlcstore::list_answer some = store.accept(items);
  EXPECT(!some && some.code == HLC_NOT_NEXT && some.many == 2 && some.word == 2);
  const hlcstore::log_answer rest = store.accept_log(log);
  EXPECT(rest && rest.many == 3 && rest.used == log.size() && store.rows() == 3);
  items.clear();
  EXPECT(store.accept(items) && items.size() == 0);
  store.accept_retire(writer.retire(3));
  EXPECT(store.floor_node() == std::nullopt && store.link(0).retired);
  const string more = hlcstore::encode_threshold(timestamp::of(2)) + hlcstore::encode_join(1, timestamp::of(9));
  const hlcstore::records_answer again = store.apply_records(log + more);
  EXPECT(again && again.many == 5 && again.used == log.size() + more.size() && again.threshold == timestamp::of(2));
  const hlcstore::records_answer gap = store.apply_records(hlcstore::encode_join(3, timestamp::of(9)));
  EXPECT(!gap && gap.code == HLC_NOT_NEXT && gap.word == 2 && gap.many == 0 && store.nodes() == 2);
}

// Ranges from their ends, in pieces, with the longest keys and values.
void ranges_back() {
  for (const std::map<string, string>& pairs : {many_pairs(), longest_pairs()}) {
    store store = filled(pairs);
    const hlcstore::snapshot snapshot = store.open_snapshot();
    auto expected = pairs.rbegin();
    for (const auto& [key, value] : snapshot.range_back()) {
      EXPECT(expected != pairs.rend() && key == expected->first && value == expected->second);
      expected++;
    }
    EXPECT(expected == pairs.rend());
    for (const auto& pair : pairs) {
      const auto below = snapshot.last_below(pair.first);
      const auto at = pairs.find(pair.first);
      EXPECT(at == pairs.begin() ? !below : below->first == std::prev(at)->first);
    }
    EXPECT(snapshot.last_below()->first == pairs.rbegin()->first && !snapshot.last_below("a"));
    // A pair takes its bytes and two lengths of eight bytes.
    EXPECT(snapshot.scan_back("", "", 65806).many > 0 && snapshot.scan_back("", "", 0).more);
  }
  const std::map<string, string> pairs = many_pairs();
  store store = filled(pairs);
  const std::map<string, string> some(pairs.lower_bound("key00100"), pairs.lower_bound("key00900"));
  auto expected = some.rbegin();
  for (const auto& pair : store.open_snapshot().range_back("key00100", "key00900")) {
    EXPECT(pair.first == (expected++)->first);
  }
  EXPECT(expected == some.rend() && store.snapshots().empty());
}

// The pairs of a snapshot with its changes to another one, each of which is needed, are the pairs of that.
bool lead_on(const hlcstore::snapshot& before, const hlcstore::snapshot& after) {
  std::map<string, string> pairs(before.begin(), before.end());
  string last;
  for (const auto& [key, value] : before.changes(after)) {
    const auto at = pairs.find(key);
    if (key <= last || (value ? at != pairs.end() && at->second == *value : at == pairs.end())) return false;
    if (value) {
      pairs[key] = *value;
    } else {
      pairs.erase(at);
    }
    last = key;
  }
  return pairs == std::map<string, string>(after.begin(), after.end());
}

void changes() {
  const std::map<string, string> pairs = many_pairs();
  store store = filled(pairs), other(1);
  node writer = node::restore(0, store.link(0).head, store.link(0).next);
  const hlcstore::snapshot first = store.open_snapshot(), none = store.open_snapshot(timestamp());
  for (int i = 0; i < 2000; i += 3) write(store, writer, 2, key_of(i), i % 2 == 0 ? pairs.at(key_of(i)) : "new");
  for (int i = 1; i < 2000; i += 3) store.accept_erase(writer.erase(3, key_of(i)), key_of(i));
  write(store, writer, 4, 'k' + string(254, 'z'), string(65535, 'v'));
  const hlcstore::snapshot second = store.open_snapshot();
  for (const hlcstore::snapshot* before : {&first, &second, &none}) {
    for (const hlcstore::snapshot* after : {&first, &second, &none}) EXPECT(lead_on(*before, *after));
  }
  int many = 0;
  for (const auto& [key, value] : first.changes(second, key_of(100), key_of(106))) {
    EXPECT(value ? key == key_of(105) && *value == "new" : key == key_of(100) || key == key_of(103));
    many++;
  }
  EXPECT(many == 3 && first.changes(first).begin() == first.changes(first).end());
  hlcstore::snapshot closed = store.open_snapshot();
  closed.close();
  const hlcstore::snapshot apart = other.open_snapshot();
  EXPECT(refusal_of([&] { first.changes(closed); }) == HLC_NO_SNAPSHOT);
  EXPECT(refusal_of([&] { closed.changes(first); }) == HLC_NO_SNAPSHOT);
  EXPECT(refusal_of([&] { first.changes(apart); }) == HLC_NO_SNAPSHOT);
}

// The rows of a key, of two nodes with the same stamp too.
void versions() {
  store store(2);
  node one(0), two(1);
  const string value(65535, 'v');
  write(store, one, 1, "a", "x");
  write(store, one, 2, "a", value);
  store.accept_erase(two.erase(2, "a"), "a");
  const auto all = store.versions("a");
  EXPECT(all.size() == 3 && all[0].stamp == timestamp::of(2) && all[0].node == 1 && !all[0].value);
  EXPECT(all[1].stamp == timestamp::of(2) && all[1].node == 0 && all[1].value == value);
  EXPECT(all[2].stamp == timestamp::of(1) && all[2].node == 0 && all[2].value == "x");
  EXPECT(store.versions("a", timestamp::of(1)).size() == 2 && store.versions("a", {}, timestamp::of(1)).size() == 1);
  EXPECT(store.versions("b").empty() && store.versions("").empty());
}

// A long certificate, with the numbers of the vacuum before it.
void certificates() {
  std::map<string, string> pairs;
  for (int i = 0; i < 500; i++) pairs[key_of(i)] = "x";
  store store = filled(pairs);
  node writer = node::restore(0, store.link(0).head, store.link(0).next);
  for (int i = 0; i < 100; i++) write(store, writer, 2, key_of(i), "y");
  EXPECT(refusal_of([&] { store.certificate(store.floor()); }) == HLC_NOT_FEWEST);
  const hlcstore::vacuum_report vacuumed = store.vacuum();
  EXPECT(vacuumed.kept == 500 && vacuumed.dropped == 100 && vacuumed.stamp == store.floor());
  const hlcstore::certified made = store.certificate(vacuumed.stamp);
  EXPECT(made.certificate.size() > 4096 && made.kept == 500 && made.bytes == vacuumed.bytes);
  const hlcstore::shown shown = hlcstore::check_certificate(made.certificate);
  EXPECT(shown.rows == 500 && shown.bytes == made.bytes && store.horizon() == vacuumed.stamp);
  EXPECT(store.vacuum_to(vacuumed.stamp).dropped == 0);
  EXPECT(store.certificate(vacuumed.stamp).certificate == made.certificate);
  EXPECT(refusal_of([&] { store.certificate({vacuumed.stamp.word + 1}); }) == HLC_ABOVE_FLOOR);
  EXPECT(refusal_of([&] { store.certificate({vacuumed.stamp.word - 1}); }) == HLC_BELOW_HORIZON);
  const hlcstore::store_sizes left = store.sizes();
  EXPECT(left.rows == 500 && left.keys == 500 && left.value_bytes == 500);
  EXPECT(left.key_bytes + left.value_bytes + 10 * left.rows == made.bytes);
}

hlcstore::batch batch_of(const std::vector<std::pair<string, std::optional<string>>>& writes) {
  hlcstore::batch made;
  for (const auto& [key, value] : writes) {
    if (value) {
      made.write(key, *value);
    } else {
      made.erase(key);
    }
  }
  return made;
}

// Items with their keys and values are equal where all of them is, and stores take them as they take the parts.
void owned_items() {
  using hlcstore::item_kind;
  using hlcstore::owned_item;
  node writer(0);
  const owned_item write{writer.write(1, "a", "x"), item_kind::write, "a", "x"};
  const owned_item erase{writer.erase(2, "b"), item_kind::erase, "b", ""};
  const owned_item report{writer.report(3), item_kind::report, "", ""};
  const owned_item retire{writer.retire(4), item_kind::retire, "", ""};
  owned_item other = write;
  EXPECT(other == write && !(other != write) && write != erase);
  other.value = "y";
  EXPECT(other != write);
  other = write;
  other.kind = item_kind::erase;
  EXPECT(other != write);
  other = write;
  other.stamp = {1};
  EXPECT(other != write && hlcstore::item(other) != hlcstore::item(write));
  other = write;
  other.number = 9;
  EXPECT(other != write);
  store taken(1);
  string log;
  for (const owned_item& item : {write, erase, report, retire}) {
    taken.accept(item);
    log += encode(item);
  }
  const string saved = taken.checkpoint(0);
  EXPECT(taken.rows() == 2 && taken.link(0).retired && taken.open_snapshot().get("a") == "x");
  store replayed(1);
  EXPECT(replayed.accept_log(log) && replayed.checkpoint(0) == saved);
  hlcstore::shared_store shared{store(1)};
  for (const owned_item& item : {write, erase, report, retire}) shared.accept(item);
  EXPECT(shared.checkpoint(0) == saved);
}

// What a log says, item by item, is what was encoded; and of bytes with one change, or cut, that which a store says.
void decoded_items() {
  using hlcstore::item_kind;
  using hlcstore::owned_item;
  node writer(3);
  std::vector<owned_item> items;
  for (const string& value : {string(), string("x\0y", 3), string(65535, 'v')}) {
    items.push_back({writer.write(1, string(255, 'k'), value), item_kind::write, string(255, 'k'), value});
    items.push_back({writer.erase(2, "b"), item_kind::erase, "b", ""});
    items.push_back({writer.report(3), item_kind::report, "", ""});
  }
  items.push_back({writer.retire(4), item_kind::retire, "", ""});
  string log;
  for (const owned_item& item : items) log += encode(item);
  const hlcstore::log_items read(log);
  EXPECT(std::equal(read.begin(), read.end(), items.begin(), items.end()));
  EXPECT(read.begin() != read.end() && read.begin() == read.begin() && read.begin()->number == 0);
  EXPECT(hlcstore::log_items("").begin() == read.end());
  string_view rest = log;
  for (const owned_item& item : items) EXPECT(owned_item::decode(rest) == item);
  EXPECT(rest.empty());
  hlcstore::log_items::iterator place = read.begin();
  EXPECT(place.rest().size() == log.size() - encode(items[0]).size() && (++place)->kind == item_kind::erase);

  const owned_item first{{0, 0, {1}}, item_kind::write, "key", "value"};
  const owned_item second{{0, 1, {2}}, item_kind::erase, "key", ""};
  const owned_item third{{0, 2, {3}}, item_kind::batch, "", "", batch_of({{"key", "x"}, {"k", {}}, {"longer", ""}})};
  const string some = encode(first) + encode(second) + encode(third);
  const auto is_read_alike = [](string_view bytes) {
    store taken(1);
    const hlcstore::log_answer answer = taken.accept_log(bytes);
    std::size_t many = 0, left = bytes.size();
    try {
      for (auto at = hlcstore::log_items(bytes).begin(); at != hlcstore::log_items::iterator(); ++at) {
        left = at.rest().size();
        many++;
      }
    } catch (const hlcstore::error& refused) {
      EXPECT(refused.code() == HLC_BAD_BYTES && many >= answer.many);
      // The store may refuse an item before the bad bytes.
      if (answer.code != HLC_BAD_BYTES) return answer.code != HLC_OK;
      return refused.word() == answer.word && many == answer.many && bytes.size() - left == answer.used;
    }
    return answer.code != HLC_BAD_BYTES;
  };
  for (std::size_t at = 0; at < some.size(); at++) {
    EXPECT(is_read_alike(string_view(some).substr(0, at)));
    string changed = some;
    for (int byte = 0; byte < 256; byte++) {
      changed[at] = static_cast<char>(byte);
      EXPECT(is_read_alike(changed));
    }
  }
  rest = string_view(some).substr(0, 9);
  EXPECT(refusal_of([&] { owned_item::decode(rest); }) == HLC_BAD_BYTES && rest.size() == 9);
  const string cut = some.substr(0, encode(first).size() + encode(second).size() - 1);
  hlcstore::log_items::iterator last(cut);
  const owned_item before = *last;
  EXPECT(refusal_of([&] { ++last; }) == HLC_BAD_BYTES && *last == before && last != read.end());
}

// ---- Batches ----

// What a batch has, and what it does not take.
void batches_as_values() {
  hlcstore::batch batch;
  EXPECT(batch.empty() && batch.size() == 0 && batch.begin() == batch.end() && batch.bytes().empty());
  EXPECT(refusal_of([&] { batch.write("", "x"); }) == HLC_BAD_KEY);
  EXPECT(refusal_of([&] { batch.write(string(256, 'k'), "x"); }) == HLC_BAD_KEY);
  EXPECT(refusal_of([&] { batch.erase(""); }) == HLC_BAD_KEY);
  EXPECT(refusal_of([&] { batch.write("a", string(65536, 'v')); }) == HLC_VALUE_TOO_LONG && batch.empty());
  batch.write("a", "x");
  batch.erase("b");
  batch.write("c", string("\0\1", 2));
  EXPECT(batch.size() == 3 && batch.bytes() == string("\1a\1\0\1x\1b\0\1c\1\0\2\0\1", 16));
  std::vector<hlcstore::batch_write> found;
  for (const hlcstore::batch_write& write : batch) found.push_back(write);
  EXPECT(found.size() == 3 && found[0].key == "a" && found[0].value == "x" && found[1].key == "b" && !found[1].value);
  EXPECT(found[2] == (hlcstore::batch_write{"c", string_view("\0\1", 2)}) && found[0] != found[1]);
  hlcstore::batch copy = batch, moved = std::move(batch);
  EXPECT(copy == moved && moved.size() == 3);
  copy.clear();
  EXPECT(copy.empty() && copy != moved);
  const string key(255, 'k'), value(65535, 'v');
  copy.write(key, value);
  EXPECT(copy.size() == 1 && copy.begin()->key == key && copy.begin()->value == value);
  for (int i = 1; i < 256; i++) copy.erase(key_of(i));
  EXPECT(copy.size() == 256 && refusal_of([&] { copy.erase("one more"); }) == HLC_TOO_MANY_WRITES);
  EXPECT(copy.size() == 256 && std::distance(copy.begin(), copy.end()) == 256);
}

// The keys and values of a batch are written to it again, while its bytes fit where they are and while they do not.
void batches_of_themselves() {
  for (const std::size_t size : {0, 1, 9, 100, 65535}) {
    hlcstore::batch batch;
    const string value(size, 'v');
    batch.write("k", value);
    for (int number = 0; number < 50; number++) {
      const hlcstore::batch_write first = *batch.begin();
      if (number % 2 == 0) {
        batch.write(key_of(number), *first.value);
      } else {
        batch.write(first.key, first.key);
      }
    }
    int number = -1;
    for (const auto& [key, found] : batch) {
      const bool is_copy = number % 2 != 0 && number > 0;
      EXPECT(key == (number < 0 || is_copy ? "k" : key_of(number)) && found == (is_copy ? "k" : value));
      number++;
    }
    EXPECT(number == 50 && batch.size() == 51);
  }
}

// A snapshot has all writes of a batch or none, and a refused batch leaves nothing.
void batches() {
  store store(1);
  node writer(0);
  write(store, writer, 1, "b", "old");
  const node before = writer;
  EXPECT(refusal_of([&] { writer.write_batch(2, {}); }) == HLC_NO_WRITES);
  EXPECT(refusal_of([&] { writer.write_batch(2, batch_of({{"a", "x"}, {"a", {}}})); }) == HLC_KEY_TWICE);
  EXPECT(writer.next() == before.next() && writer.last() == before.last());
  const hlcstore::batch batch = batch_of({{"a", "x"}, {"b", {}}, {"c", ""}});
  const hlcstore::item made = writer.write_batch(2, batch);
  EXPECT(made.number == 1 && made.stamp == timestamp::of(2));
  EXPECT(refusal_of([&] { store.accept_batch(made, {}); }) == HLC_NO_WRITES);
  EXPECT(refusal_of([&] { store.accept_batch(made, batch_of({{"a", "x"}, {"a", {}}})); }) == HLC_KEY_TWICE);
  EXPECT(refusal_of([&] { store.accept_batch({1, 0, {9}}, batch); }) == HLC_NO_NODE);
  EXPECT(refusal_of([&] { store.accept_batch({0, 1, {9}}, batch); }) == HLC_STAMP_NOT_RISING && store.rows() == 1);
  EXPECT(store.check_batch(made, {}).kind() == error_kind::no_writes);
  EXPECT(store.check_batch(made, batch_of({{"a", "x"}, {"a", {}}})).kind() == error_kind::key_twice);
  const hlcstore::answer early_one = store.check_batch({0, 2, {}}, {});
  EXPECT(early_one.kind() == error_kind::not_next && early_one.word == 1);
  EXPECT(store.check_batch(made, batch) && store.check_batch(made, batch).word == 0);
  store.accept_batch(made, batch);
  EXPECT(store.rows() == 4 && refusal_of([&] { store.accept_batch(made, batch); }) == HLC_NOT_NEXT);
  const hlcstore::snapshot early = store.open_snapshot({made.stamp.word - 1}), late = store.open_snapshot();
  EXPECT(!early.get("a") && early.get("b") == "old" && !early.get("c"));
  EXPECT(late.get("a") == "x" && !late.get("b") && late.get("c") == "");
  for (const error_kind kind : {error_kind::no_writes, error_kind::too_many_writes, error_kind::key_twice}) {
    const auto code = static_cast<std::uint32_t>(kind);
    EXPECT(hlcstore::error(code).what() == hlcstore::error_text(code) && !hlcstore::error_text(code).empty());
  }
  hlcstore::shared_store shared{hlcstore::store(1)};
  EXPECT(bool(shared.check_batch({0, 0, made.stamp}, batch)));
  shared.accept_batch({0, 0, made.stamp}, batch);
  EXPECT(shared.open_snapshot().get("a") == "x" && shared.rows() == 3);
}

// A batch as an item of a log: it is read as it was written, and stores take it as they take its parts.
void batches_in_logs() {
  using hlcstore::item_kind;
  using hlcstore::owned_item;
  node writer(0);
  const hlcstore::batch batch = batch_of({{"a", string(60000, 'x')}, {"b", {}}, {string(255, 'k'), ""}});
  const owned_item item{writer.write_batch(7, batch), item_kind::batch, "", "", batch};
  const string log = encode(item);
  EXPECT(log == encode_batch(item, batch) && log.size() == 21 + batch.bytes().size());
  string_view rest = log;
  EXPECT(owned_item::decode(rest) == item && rest.empty());
  owned_item other = item;
  other.writes = batch_of({{"a", "x"}});
  EXPECT(other != item && hlcstore::item(other) == hlcstore::item(item));
  store taken(1), replayed(1);
  taken.accept(item);
  EXPECT(replayed.accept_log(log) && replayed.checkpoint(0) == taken.checkpoint(0) && taken.rows() == 3);
  hlcstore::shared_store shared{store(1)};
  shared.accept(item);
  EXPECT(shared.checkpoint(0) == taken.checkpoint(0));
  // A part of the bytes is none of the batch.
  for (std::size_t len = 1; len < log.size(); len += len < 40 || len + 300 > log.size() ? 1 : 997) {
    rest = string_view(log).substr(0, len);
    store none(1);
    const hlcstore::log_answer answer = none.accept_log(rest);
    EXPECT(answer.code == HLC_BAD_BYTES && answer.word == 1 && answer.many == 0 && none.rows() == 0);
    EXPECT(refusal_of([&] { owned_item::decode(rest); }) == HLC_BAD_BYTES && rest.size() == len);
  }
  EXPECT(refusal_of([] { hlcstore::encode_batch({}, {}); }) == HLC_NO_WRITES);
  EXPECT(refusal_of([] { hlcstore::encode_batch({}, batch_of({{"a", ""}, {"a", ""}})); }) == HLC_KEY_TWICE);
}

// Writes of several nodes, by key, stamp and node.
using history = std::map<string, std::map<std::pair<std::uint64_t, std::uint16_t>, std::optional<string>>>;

std::map<string, string> pairs_at(const history& past, timestamp stamp) {
  std::map<string, string> found;
  for (const auto& [key, versions] : past) {
    const auto later = versions.upper_bound({stamp.word, UINT16_MAX});
    if (later == versions.begin()) continue;
    if (const auto& value = std::prev(later)->second) found[key] = *value;
  }
  return found;
}

// A random batch, or one write or deletion, of a node.
hlcstore::owned_item random_item(std::mt19937& random, node& writer, std::uint64_t reading) {
  using hlcstore::item_kind;
  const auto value = [&] { return string(random() % 50, static_cast<char>('a' + random() % 26)); };
  const string key = key_of(random() % 12);
  const std::uint32_t kind = random() % 6;
  if (kind == 0) return {writer.erase(reading, key), item_kind::erase, key, "", {}};
  if (kind == 1) return {writer.report(reading), item_kind::report, "", "", {}};
  if (kind == 2) {
    const string text = value();
    return {writer.write(reading, key, text), item_kind::write, key, text, {}};
  }
  hlcstore::batch batch;
  for (int i = 0; i < 12; i++) {
    if (random() % 3 == 0) batch.write(key_of(i), value());
    else if (random() % 4 == 0) batch.erase(key_of(i));
  }
  if (batch.empty()) batch.erase(key);
  return {writer.write_batch(reading, batch), item_kind::batch, "", "", batch};
}

void remember(history& past, const hlcstore::owned_item& item) {
  using hlcstore::item_kind;
  const std::pair<std::uint64_t, std::uint16_t> place{item.stamp.word, item.node};
  if (item.kind == item_kind::write) past[item.key][place] = item.value;
  if (item.kind == item_kind::erase) past[item.key][place] = std::nullopt;
  for (const hlcstore::batch_write& write : item.writes) {
    past[string(write.key)][place] = write.value ? std::optional(string(*write.value)) : std::nullopt;
  }
}

// Compares snapshots at random stamps with the model.
void look(std::mt19937& random, store& taken, const history& past) {
  const std::uint64_t floor = taken.floor().word, least = taken.horizon().word;
  for (int i = 0; i < 4; i++) {
    const timestamp stamp{i == 0 ? floor : least + random() % (floor - least + 1)};
    const hlcstore::snapshot snapshot = taken.open_snapshot(stamp);
    EXPECT((std::map<string, string>(snapshot.begin(), snapshot.end()) == pairs_at(past, stamp)));
  }
}

// Random histories of three nodes, whose items come late and in any order between nodes, beside the model: whatever
// the stamp of a snapshot is, it never has a part of a batch. Items come by themselves, or as bytes.
void random_batches(unsigned seed) {
  std::mt19937 random(seed);
  store taken(3);
  history past;
  std::vector<node> nodes = {node(0), node(1), node(2)};
  std::vector<std::vector<hlcstore::owned_item>> waiting(3);
  for (int turn = 0; turn < 300; turn++) {
    const std::size_t acting = random() % 3, giving = random() % 3;
    waiting[acting].push_back(random_item(random, nodes[acting], static_cast<std::uint64_t>(turn) / 5));
    remember(past, waiting[acting].back());
    if (random() % 8 == 0) nodes[acting].receive(nodes[giving].last(), 0);
    string log;
    for (const hlcstore::owned_item& item : waiting[giving]) {
      if (random() % 2 == 0) {
        EXPECT(bool(taken.accept_log(log)));
        log.clear();
        taken.accept(item);
      } else {
        log += encode(item);
      }
    }
    EXPECT(bool(taken.accept_log(log)));
    waiting[giving].clear();
    look(random, taken, past);
    if (random() % 20 == 0) taken.vacuum_to({(taken.horizon().word + taken.floor().word) / 2});
    if (random() % 40 == 0) {
      const string saved = taken.checkpoint(0);
      taken.close();
      taken.restore(saved);
    }
  }
}

// A shared store has the methods of a store, and can be moved, as its snapshots can.
void shared_stores() {
  const std::map<string, string> pairs = many_pairs();
  store plain = filled(pairs);
  const string saved = plain.checkpoint(7);
  hlcstore::shared_store shared(filled(pairs));
  EXPECT(shared.checkpoint(7) == saved && shared.rows() == pairs.size() && shared.nodes() == 1);
  EXPECT(shared.floor() == plain.floor() && shared.horizon() == timestamp() && shared.floor_node() == 0);
  EXPECT(shared.link(0).next == pairs.size() && shared.sizes().keys == pairs.size());
  EXPECT(refusal_of([&] { shared.link(1); }) == HLC_NO_NODE);
  hlcstore::shared_snapshot first = shared.open_snapshot(), none;
  EXPECT(first.stamp() == shared.floor() && first.id() == 1 && shared.snapshots().size() == 1);
  EXPECT((std::map<string, string>(first.begin(), first.end()) == pairs) && first.count() == pairs.size());
  auto last = pairs.rbegin();
  for (const auto& pair : first.range_back()) EXPECT(pair.first == (last++)->first);
  auto next = pairs.lower_bound("key00100");
  for (const string& key : first.keys("key00100", "key00900")) EXPECT(key == (next++)->first);
  EXPECT(last == pairs.rend() && next == pairs.lower_bound("key00900"));
  const hlcstore::snapshot other = plain.open_snapshot();
  EXPECT(first.digest() == other.digest() && first.list() == other.list());
  EXPECT(first.get("key00001") == pairs.at("key00001") && first.last_below()->first == pairs.rbegin()->first);
  EXPECT(first.get_all({"key00001", "other"})[1] == std::nullopt);
  EXPECT(refusal_of([&] { none.get("a"); }) == HLC_NO_SNAPSHOT && refusal_of([&] { none.range().begin(); }) != HLC_OK);
  node writer = node::restore(0, shared.link(0).head, shared.link(0).next);
  const hlcstore::item made = writer.write(2, "a", "x");
  EXPECT(shared.check_write(made, "a", "x") && !shared.check_report({0, 0, timestamp::of(2)}));
  shared.accept_write(made, "a", "x");
  shared.accept_erase(writer.erase(3, "a"), "a");
  EXPECT(shared.versions("a").size() == 2 && shared.check_vacuum(shared.floor()));
  none = std::move(first);
  EXPECT(none.count() == pairs.size() && refusal_of([&] { first.count(); }) == HLC_NO_SNAPSHOT);
  none = shared.open_snapshot();
  EXPECT(shared.snapshots().size() == 1 && shared.snapshots()[0].id == 2);
  const hlcstore::vacuum_report vacuumed = shared.vacuum_in_parts(shared.floor(), 100);
  EXPECT(vacuumed.kept == pairs.size() && vacuumed.dropped == 2 && shared.vacuum().dropped == 0);
  EXPECT(shared.certificate(shared.floor()).kept == pairs.size() && shared.join().id() == 1);
  hlcstore::shared_store moved = std::move(shared);
  EXPECT(moved.rows() == pairs.size() && refusal_of([&] { shared.rows(); }) == HLC_CLOSED);
  EXPECT(none.count() == pairs.size());
  moved = hlcstore::shared_store(store(3));
  EXPECT(moved.nodes() == 3 && refusal_of([&] { none.count(); }) == HLC_CLOSED);
  moved.close_all();
  moved.close();
  EXPECT(refusal_of([&] { moved.rows(); }) == HLC_CLOSED);
}

// Before version 16 clang does not take the adaptors of libstdc++.
#if defined(__cpp_lib_ranges) && (!defined(__clang__) || __clang_major__ >= 16)
// In C++20 ranges are views, also those that own their snapshot.
void views() {
  static_assert(std::ranges::view<hlcstore::pair_range> && std::ranges::input_range<hlcstore::pair_range>);
  static_assert(std::ranges::view<hlcstore::owning_key_range> && std::ranges::view<hlcstore::joint_pair_range>);
  static_assert(std::ranges::view<hlcstore::shared_back_range> && std::ranges::input_range<hlcstore::snapshot>);
  static_assert(std::ranges::view<hlcstore::log_items> && std::ranges::input_range<hlcstore::log_items>);
  store store = filled(many_pairs());
  string found;
  for (const string& key : store.open_snapshot().keys("key00100") | std::views::take(2)) found += key;
  EXPECT(found == "key00100key00101" && store.snapshots().empty());
}
#else
void views() {}
#endif

void parts() {
  std::map<string, string> pairs;
  for (int i = 0; i < 500; i++) pairs[key_of(i)] = "x";
  store store = filled(pairs);
  node writer = node::restore(0, store.link(0).head, store.link(0).next);
  for (const auto& [key, value] : pairs) write(store, writer, 2, key, "y");
  const timestamp stamp = store.floor();
  std::optional<string> after = "";
  std::uint64_t kept = 0;
  while (after) {
    const hlcstore::partial_vacuum made = store.vacuum_part(stamp, *after, 200);
    EXPECT(made.stamp == stamp && made.kept == made.dropped && store.horizon() == stamp);
    kept += made.kept;
    EXPECT(store.rows() == 1000 - kept && made.next.has_value() == (made.kept == 200));
    after = made.next;
  }
  EXPECT(kept == 500 && !store.vacuum_part(stamp).next && store.vacuum_to(stamp).dropped == 0);
  const hlcstore::partial_vacuum none = store.vacuum_part(stamp, string(300, 'z'), 0);
  EXPECT(none.kept == 0 && none.next == string(300, 'z'));
  EXPECT(refusal_of([&] { store.vacuum_part(timestamp::of(1)); }) == HLC_BELOW_HORIZON);
}

// Parts that end at the longest keys. Each key has two rows, and a part leaves one. The part after the last key is
// empty.
void parts_of_longest_keys() {
  const std::map<string, string> pairs = longest_pairs();
  store store = filled(pairs);
  node writer = node::restore(0, store.link(0).head, store.link(0).next);
  for (const auto& [key, value] : pairs) write(store, writer, 2, key, "y");
  const timestamp stamp = store.floor();
  std::optional<string> after = "";
  for (const auto& pair : pairs) {
    const hlcstore::partial_vacuum made = store.vacuum_part(stamp, after.value_or("z"), 1);
    after = made.next;
    EXPECT(made.kept == 1 && made.dropped == 1 && after == pair.first);
  }
  EXPECT(after && !store.vacuum_part(stamp, *after, 1).next && store.rows() == pairs.size());
}

void restarts() {
  hlcstore::store store = filled(many_pairs());
  store.open_snapshot().release();
  hlcstore::store copy;
  EXPECT(copy.restore(store.checkpoint(7)) == 7);
  const hlcstore::snapshot kept = copy.attach_snapshot(1), other = store.attach_snapshot(1);
  EXPECT(kept.list() == other.list() && kept.digest() == other.digest());
  EXPECT(refusal_of([&] { copy.attach_snapshot(2); }) == HLC_NO_SNAPSHOT);
  copy.close_all();
  EXPECT(copy.snapshots().empty() && store.snapshots().size() == 1);
}

// A chain of increments, with a vacuum between, and the refusals.
void increments() {
  hlcstore::store store(1);
  node writer(0);
  write(store, writer, 1, "a", "x");
  write(store, writer, 2, "a", "y");
  hlcstore::snapshot early = store.open_snapshot();
  const string older = store.checkpoint(1);
  const timestamp floor = store.floor();
  write(store, writer, 3, "a", "z");
  const string first = hlcstore::apply_increment(older, store.increment(floor, 2));
  EXPECT(first == store.checkpoint(2));
  const timestamp second = store.floor();
  early.close();
  store.vacuum_to(second);
  write(store, writer, 4, "b", "x");
  const string increment = store.increment(second, 3), newer = hlcstore::apply_increment(first, increment);
  hlcstore::store copy;
  EXPECT(copy.restore(newer) == 3 && copy.rows() == 4 && store.rows() == 2);
  EXPECT(copy.horizon() == second && copy.floor() == store.floor() && copy.snapshots().empty());
  EXPECT(copy.vacuum_to(second).dropped == 2 && copy.checkpoint(3) == store.checkpoint(3));
  EXPECT(refusal_of([&] { store.increment(floor, 4); }) == HLC_BELOW_HORIZON);
  const auto parts = hlcstore::split_checkpoint(newer, "b");
  EXPECT(parts.first.size() < newer.size() && parts.second.size() < newer.size());
  EXPECT(hlcstore::merge_checkpoints(parts.first, parts.second) == newer);
  hlcstore::store below;
  EXPECT(below.restore(parts.first) == 3 && below.floor() == store.floor());
  EXPECT(refusal_of([&] { hlcstore::split_checkpoint("", "b"); }) == HLC_BAD_BYTES);
  EXPECT(refusal_of([&] { hlcstore::merge_checkpoints(parts.second, parts.first); }) == HLC_NOT_PARTS);
  EXPECT(refusal_of([&] { hlcstore::apply_increment("", increment); }) == HLC_BAD_BYTES);
  EXPECT(refusal_of([&] { hlcstore::apply_increment(first, ""); }) == HLC_NO_INCREMENT);
  EXPECT(refusal_of([&] { hlcstore::apply_increment(first, first); }) == HLC_NO_INCREMENT);
  EXPECT(refusal_of([&] { hlcstore::apply_increment(hlcstore::store(2).checkpoint(1), increment); }) == HLC_NOT_LATER);
  try {
    hlcstore::apply_increment(older, increment);
    EXPECT(false);
  } catch (const hlcstore::error& refused) {
    EXPECT(refused.code() == HLC_ABOVE_FLOOR && refused.word() == floor.word);
  }
  try {
    store.increment(floor, 4);
    EXPECT(false);
  } catch (const hlcstore::error& refused) {
    EXPECT(refused.word() == second.word);
  }
  store.close();
  EXPECT(refusal_of([&] { store.increment(floor, 4); }) == HLC_CLOSED);
}

bool is_out_of_range(std::uint64_t physical, std::uint64_t counter) {
  try {
    timestamp::of(physical, counter);
  } catch (const std::out_of_range&) {
    return true;
  }
  return false;
}

void stamps() {
  node writer(3, timestamp::of(5, 9));
  const timestamp sent = writer.send(5);
  EXPECT(sent.physical() == 5 && sent.counter() == 10 && sent == timestamp::of(5, 10) && sent > timestamp::of(5));
  EXPECT(writer.receive(timestamp::of(8), 6) == timestamp::of(8, 1) && writer.id() == 3 && writer.next() == 0);
  writer.raise(timestamp::of(9));
  EXPECT(writer.report(1).stamp == timestamp::of(9, 1) && writer.next() == 1 && !writer.retired());
  static_assert(timestamp::of(1, 2).word == 65538);
  static_assert(timestamp::of(1) < timestamp::of(2) && timestamp::of(2, 1) >= timestamp::of(2, 1));
  static_assert(timestamp::of(1) != timestamp::of(2) && timestamp::of(2) > timestamp::of(1, 9));
#if __cplusplus >= 202002L
  static_assert((timestamp::of(1) <=> timestamp::of(2)) == std::strong_ordering::less);
#endif
  EXPECT((std::unordered_set<timestamp>{{1}, {2}, {1}}.size() == 2));
  EXPECT(to_string(timestamp::of(5, 9)) == "5.9" && to_string(timestamp()) == "0.0");
  EXPECT(timestamp::of((std::uint64_t{1} << 48) - 1, 65535).word == UINT64_MAX);
  EXPECT(is_out_of_range(std::uint64_t{1} << 48, 0) && is_out_of_range(std::uint64_t{1} << 50, 0));
  EXPECT(is_out_of_range(UINT64_MAX, 0) && is_out_of_range(1, 65536) && is_out_of_range(1, UINT64_MAX));
}

}  // namespace

// Plays so many random histories, or ten.
int main(int many, char** words) {
  const unsigned seeds = many > 1 ? static_cast<unsigned>(std::atoi(words[1])) : 10;
  ranges();
  longest();
  ranges_back();
  changes();
  versions();
  temporaries();
  reads();
  values_in_place();
  ownership();
  reopened();
  restores_that_fail();
  refusals();
  partly_accepted();
  certificates();
  parts();
  parts_of_longest_keys();
  restarts();
  increments();
  stamps();
  owned_items();
  decoded_items();
  batches_as_values();
  batches_of_themselves();
  batches();
  batches_in_logs();
  for (unsigned seed = 1; seed <= seeds; seed++) random_batches(seed);
  shared_stores();
  views();
  std::puts(wrong == 0 ? "all right" : "wrong");
  return wrong != 0;
}
