// What the compiler must refuse: with MISUSE, each line that is marked. Without it, it takes the file.
#include <hlcstore.hpp>

constexpr hlcstore::timestamp greatest = hlcstore::timestamp::of((std::uint64_t{1} << 48) - 1, 65535);
static_assert(greatest.word == UINT64_MAX);

void use(hlcstore::store& store, hlcstore::shared_store& shared, hlcstore::ranges& ranges) {
  for (const auto& pair : store.open_snapshot().range("a", "b")) static_cast<void>(pair);
  for (const auto& pair : store.open_snapshot()) static_cast<void>(pair);
  for (const auto& pair : store.open_snapshot().range_back()) static_cast<void>(pair);
  const hlcstore::snapshot snapshot = store.open_snapshot();
  for (const auto& change : snapshot.changes(snapshot)) static_cast<void>(change);
  shared.read([](const hlcstore::store& asked) { return asked.floor(); });
  static_cast<void>(snapshot.view("a"));
  shared.open_snapshot().read([](const hlcstore::snapshot& open) { return open.get("a"); });
  shared.open_snapshot().read([](const hlcstore::snapshot& open) { return open.view("a").has_value(); });
  for (const auto& pair : shared.open_snapshot()) static_cast<void>(pair);
  for (const auto& pair : ranges.open_snapshot()) static_cast<void>(pair);
}

#ifdef MISUSE
constexpr hlcstore::timestamp too_large = hlcstore::timestamp::of(std::uint64_t{1} << 48);  // refused

void misuse(hlcstore::store& store, hlcstore::shared_store& shared, hlcstore::ranges& ranges) {
  shared.change([](hlcstore::store& changed) { return changed.open_snapshot(); });                  // refused
  shared.open_snapshot().read([](const hlcstore::snapshot& open) { return open.range(); });         // refused
  shared.open_snapshot().read([](const hlcstore::snapshot& open) { return open.keys().begin(); });  // refused
  shared.open_snapshot().read([](const hlcstore::snapshot& open) { return open.range_back(); });    // refused
  shared.open_snapshot().read([](const hlcstore::snapshot& open) { return open.changes(open); });   // refused
  shared.open_snapshot().read([](const hlcstore::snapshot& open) { return open.view("a"); });       // refused
  static_cast<void>(store.open_snapshot().view("a"));                                               // refused
  for (const auto& pair : hlcstore::store(1).open_snapshot()) static_cast<void>(pair);              // refused
  static_cast<void>(store.open_snapshot().begin());                                                 // refused
  for (const auto& pair : shared.open_snapshot().range("a")) static_cast<void>(pair);               // refused
  for (const auto& pair : ranges.open_snapshot().range("a")) static_cast<void>(pair);               // refused
  for (const auto& key : ranges.open_snapshot().keys()) static_cast<void>(key);                     // refused
  for (const auto& pair : std::move(ranges).open_snapshot()) static_cast<void>(pair);               // refused
  const hlcstore::snapshot snapshot = store.open_snapshot();
  for (const auto& change : snapshot.changes(store.open_snapshot())) static_cast<void>(change);  // refused
  for (const auto& change : store.open_snapshot().changes(snapshot)) static_cast<void>(change);  // refused
}
#endif
