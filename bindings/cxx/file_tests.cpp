// Stores in a file: what is written is there, also after the file is opened again, and each refusal is thrown. The
// arguments are an empty folder, and the name of a test where only that shall run.
#include <sys/resource.h>

#include <atomic>
#include <csignal>
#include <cstdio>
#include <cstdlib>
#include <fstream>
#include <functional>
#include <hlcstore/file.hpp>
#include <iostream>
#include <map>
#include <sstream>
#include <string>
#include <thread>
#include <vector>

namespace {

using hlcstore::file;
using hlcstore::file_batch;
using hlcstore::file_error;
using hlcstore::file_options;
using hlcstore::file_snapshot;
using hlcstore::origin;
using hlcstore::promise;
using hlcstore::timestamp;
using pairs = std::vector<std::pair<std::string, std::string>>;

void expect(bool holds, const char* what, int line) {
  if (holds) return;
  std::cout << "line " << line << ": " << what << '\n';
  std::exit(1);
}
#define EXPECT(condition) expect((condition), #condition, __LINE__)

// The answer of a call that is refused, with its word; or HLC_OK.
file_error refusal(const std::function<void()>& call) {
  try {
    call();
  } catch (const file_error& refused) {
    return refused;
  }
  return file_error(HLC_OK);
}

timestamp at(std::uint64_t physical, std::uint64_t counter = 0) { return timestamp::of(physical, counter); }

template <class Range>
pairs listed(const Range& range) {
  pairs found;
  for (const auto& pair : range) found.push_back(pair);
  return found;
}

file_options with(promise given) {
  file_options options{};
  options.promise = static_cast<std::uint32_t>(given);
  return options;
}

void past_stamps_are_read(const std::string& path) {
  file store(path);
  EXPECT(store.write("capital", "Lyon", {0, 5}) == at(5));
  EXPECT(store.erase("capital", {0, 6}) == at(6));
  EXPECT(store.write("capital", "Paris", {0, 6}) == at(6, 1));
  EXPECT(store.floor() == at(6, 1));
  EXPECT(store.open_snapshot(at(5)).get("capital") == "Lyon");
  EXPECT(!store.open_snapshot(at(6)).get("capital"));
  EXPECT(store.open_snapshot().get("capital") == "Paris");
  EXPECT(store.write("clock", "of the system") > at(6, 1));
}

void batches_are_appended_whole(const std::string& path) {
  file store(path);
  file_batch batch;
  store.write("c", "old", {0, 4});
  batch.write("a", "1");
  batch.erase("c");
  EXPECT(batch.size() == 2);
  EXPECT(store.append(batch, {0, 5}, promise::group) == at(5, 1));
  EXPECT(batch.size() == 0);
  EXPECT(listed(store.open_snapshot(at(5, 1))).size() == 1);
  batch.write("d", "4");
  EXPECT(refusal([&] { batch.write("", ""); }).code() == HLC_BAD_KEY);
  EXPECT(refusal([&] { store.append(batch, {7}); }).code() == HLC_NO_NODE);
  EXPECT(batch.size() == 1);
  file_batch moved = std::move(batch);
  store.append(moved);
  EXPECT(store.open_snapshot().count() == 2);
  moved.write("e", "5");
  moved.clear();
  EXPECT(moved.size() == 0);
}

// All writes of a batch have one stamp, also after an opening.
void batches_are_written_at_one_stamp(const std::string& path) {
  {
    file store(path);
    file_batch batch;
    store.write("c", "old", {0, 4});
    EXPECT(refusal([&] { store.write_batch(batch); }).code() == HLC_NO_WRITES);
    for (const char* key : {"a", "b", "b"}) batch.write(key, "1");
    EXPECT(refusal([&] { store.write_batch(batch, {0, 5}); }).code() == HLC_KEY_TWICE && batch.size() == 3);
    batch.clear();
    for (const char* key : {"a", "b"}) batch.write(key, "1");
    batch.erase("c");
    EXPECT(refusal([&] { store.write_batch(batch, {7}); }).code() == HLC_NO_NODE);
    EXPECT(store.write_batch(batch, {0, 5}, promise::group) == at(5) && batch.size() == 0);
    for (int number = 0; number <= 256; number++) batch.write(std::to_string(number), "");
    EXPECT(refusal([&] { store.write_batch(batch); }).code() == HLC_TOO_MANY_WRITES && batch.size() == 257);
  }
  file store(path);
  EXPECT(store.status().applied == 2);
  EXPECT((listed(store.open_snapshot(at(4, 65535))) == pairs{{"c", "old"}}));
  EXPECT((listed(store.open_snapshot(at(5))) == pairs{{"a", "1"}, {"b", "1"}}));
}

// Each call passes on what it is promised, since one that does not exist is refused.
void promises_are_those_of_the_calls(const std::string& path) {
  file store(path);
  file_batch batch;
  batch.write("a", "1");
  const auto none = static_cast<promise>(9);
  EXPECT(refusal([&] { store.append(batch, {0, 5}, none); }).code() == HLC_FILE_BAD_OPTION);
  EXPECT(refusal([&] { store.write_batch(batch, {0, 5}, none); }).code() == HLC_FILE_BAD_OPTION && batch.size() == 1);
  EXPECT(store.append_records(hlcstore::encode_report({0, 0, at(5)}), none).code == HLC_FILE_BAD_OPTION);
  EXPECT(refusal([&] { file(path + "2", with(none)); }).code() == HLC_FILE_BAD_OPTION);
}

void all_is_there_after_opening_again(const std::string& path) {
  {
    file store(path);
    EXPECT(store.status().created == 1);
    store.write("a", "1", {0, 5});
    store.write("a", "2", {0, 6});
    EXPECT(store.checkpoint() == 2);
    store.write("b", "3", {0, 7});
  }
  file store(path);
  const hlcstore::file_state state = store.status();
  EXPECT(state.created == 0 && state.applied == 1 && state.place == 3 && state.checkpoint_place == 2);
  EXPECT(state.failure == HLC_OK && state.writes == HLC_OK);
  EXPECT(store.open_snapshot(at(5)).get("a") == "1");
  const file_snapshot newest = store.open_snapshot();
  EXPECT((listed(newest) == pairs{{"a", "2"}, {"b", "3"}}));
  EXPECT(store.write("a", "4", {0, 1}) > at(7));
}

void states_are_written_as_checkpoints(const std::string& path) {
  file store(path, with(promise::written));
  for (std::uint64_t reading = 1; reading <= 8; reading++) {
    store.write(std::to_string(reading), std::string(60'000, 'v'), {0, reading});
  }
  std::ostringstream saved;
  store.checkpoint_to(saved, 7);
  hlcstore::store copy;
  EXPECT(copy.restore(saved.str()) == 7 && copy.floor() == at(8));
  EXPECT(copy.checkpoint(7) == saved.str());
  std::ofstream none;
  store.checkpoint_to(none);
  EXPECT(!none && store.status().checkpoint_place == 0);
  store.close();
  EXPECT(refusal([&] { store.checkpoint_to(saved); }).code() == HLC_CLOSED);
}

void ranges_have_the_pairs_of_a_model(const std::string& path) {
  file store(path);
  std::map<std::string, std::string> model;
  file_batch batch;
  for (int number = 0; number < 3000; number++) {
    char key[8];
    std::snprintf(key, sizeof key, "%05d", number);
    model[key] = std::string(number % 300, 'v');
    batch.write(key, model[key]);
  }
  store.append(batch);
  const file_snapshot snapshot = store.open_snapshot();
  const pairs all(model.begin(), model.end());
  EXPECT(listed(snapshot) == all);
  EXPECT(listed(snapshot.range_back()) == pairs(all.rbegin(), all.rend()));
  EXPECT(listed(snapshot.range("00100", "01200")) == pairs(all.begin() + 100, all.begin() + 1200));
  EXPECT(snapshot.count("02990") == 10);
  const std::string key(255, 'z'), value(65535, 'v');
  store.write(key, value);
  const file_snapshot longest = store.open_snapshot();
  EXPECT(longest.get(key) == value);
  EXPECT((listed(longest.range("z")) == pairs{{key, value}}));
  EXPECT(snapshot.count() == 3000);
  EXPECT(store.read([](hlc_store* mine) {
    std::uint64_t rows = 0;
    return hlc_store_rows(mine, &rows) == HLC_OK ? rows : 0;
  }) == 3001);
}

void nodes_have_clocks(const std::string& path) {
  file_options options{};
  options.nodes = 2;
  file store(path, options);
  store.write("a", "1", {0, 5});
  EXPECT(store.floor() == at(0));
  EXPECT(store.report({1, 6}) == at(6));
  EXPECT((store.join() == std::pair<std::uint16_t, timestamp>(2, at(5))));
  EXPECT(store.retire({2, 7}) == at(7));
  const timestamp sent = store.send({0, 8});
  EXPECT(store.receive(sent, {1, 1}) > sent);
  EXPECT(refusal([&] { store.write("a", "1", {2}); }).code() == HLC_RETIRED);
}

void records_of_other_machines_are_appended(const std::string& path) {
  file store(path);
  hlcstore::node node(0);
  std::string log;
  for (const std::uint64_t reading : {5, 6}) log += hlcstore::encode_write(node.write(reading, "a", "1"), "a", "1");
  EXPECT(store.append_records(log).many == 2);
  EXPECT(store.append_records(log, promise::written).code == HLC_OK);
  const hlcstore::log_answer refused = store.append_records(log + hlcstore::encode_report({0, 9, at(9)}));
  EXPECT(refused.code == HLC_NOT_NEXT && refused.many == 2 && refused.word == 2);
}

void vacuums_drop_what_no_snapshot_needs(const std::string& path) {
  file store(path);
  for (std::uint64_t reading = 1; reading < 10; reading++) store.write("city", std::to_string(reading), {0, reading});
  file_snapshot kept = store.open_snapshot(at(4));
  // Of the stamps 1 to 6 the snapshot at 4 needs a row, and the stamp 6.
  const hlcstore::vacuum_report made = store.vacuum_to(at(6));
  EXPECT(made.stamp == at(6) && made.kept == 2 && made.bytes == 2 * (4 + 1 + 10) && made.dropped == 4);
  EXPECT(kept.get("city") == "4" && store.horizon() == at(6));
  kept.close();
  EXPECT(refusal([&] { kept.get("city"); }).code() == HLC_NO_SNAPSHOT);
  EXPECT(store.vacuum_to(at(9)).dropped == 4);
  EXPECT(store.vacuum_older(std::chrono::hours(1)).stamp == at(9));
  EXPECT(refusal([&] { store.vacuum_older(std::chrono::hours(24 * 100'000)); }).code() == HLC_FILE_NO_STAMP);
}

void calls_are_refused(const std::string& path) {
  file store(path);
  store.vacuum_to(store.write("a", "1", {0, 5}));
  const std::string too_long(65536, 'v');
  EXPECT(refusal([&] { store.write("", ""); }).code() == HLC_BAD_KEY);
  EXPECT(refusal([&] { store.erase(std::string(256, 'k')); }).code() == HLC_BAD_KEY);
  EXPECT(refusal([&] { store.write("a", too_long); }).code() == HLC_VALUE_TOO_LONG);
  EXPECT(refusal([&] { store.write("a", "", {0, std::uint64_t{1} << 48}); }).code() == HLC_READING_TOO_LARGE);
  const file_error above = refusal([&] { store.open_snapshot(at(6)); });
  EXPECT(above.code() == HLC_ABOVE_FLOOR && above.word() == at(5).word);
  EXPECT(refusal([&] { store.open_snapshot(at(4)); }).code() == HLC_BELOW_HORIZON);
  EXPECT(refusal([&] { store.vacuum_to(at(4)); }).word() == at(5).word);
  file_batch batch;
  for (int more = 0; more < 1023; more++) batch.write("a", std::string_view(too_long).substr(1));
  EXPECT(refusal([&] { batch.write("a", std::string_view(too_long).substr(1)); }).code() == HLC_FILE_TOO_LONG);
  EXPECT(store.open_snapshot().count() == 1);
}

void openings_are_refused(const std::string& path) {
  std::ofstream(path + "-text") << std::string(9000, 't');
  EXPECT(refusal([&] { file(path + "-text"); }).code() == HLC_FILE_NOT_OURS);
  EXPECT(refusal([&] { file(path + "/none"); }).code() == HLC_FILE_CANNOT_OPEN);
  EXPECT(refusal([&] { file(path + std::string("\0none", 5)); }).code() == HLC_FILE_CANNOT_OPEN);
  file_options options{};
  options.flags = HLC_FILE_MUST_EXIST;
  EXPECT(refusal([&] { file(path, options); }).code() == HLC_FILE_CANNOT_OPEN);
  options = {};
  options.nodes = 65;
  EXPECT(refusal([&] { file(path, options); }).code() == HLC_FILE_BAD_OPTION);
  file store(path);
  const file_error in_use = refusal([&] { file again(path); });
  EXPECT(in_use.code() == HLC_FILE_IN_USE);
  EXPECT(in_use.what() == std::string("another process, or this one, has the file open"));
  EXPECT(hlcstore::file_error_name(in_use.code()) == "HLC_FILE_IN_USE" && in_use.sqlite() == 0);
}

void closed_and_moved_files_refuse(const std::string& path) {
  file store(path);
  file_snapshot snapshot = store.open_snapshot();
  const auto rest = snapshot.range();
  file moved = std::move(store);
  moved.write("a", "1");
  EXPECT(refusal([&] { store.floor(); }).code() == HLC_CLOSED);
  store = std::move(moved);
  EXPECT(store.open_snapshot().get("a") == "1");
  store.close();
  store.close();
  EXPECT(refusal([&] { store.write("a", "1"); }).code() == HLC_CLOSED);
  EXPECT(refusal([&] { snapshot.get("a"); }).code() == HLC_CLOSED);
  EXPECT(refusal([&] { listed(rest); }).code() == HLC_CLOSED);
  store = file(path);
  snapshot = store.open_snapshot();
  EXPECT(snapshot.get("a") == "1");
}

// A file that may not grow refuses writes. What was there stays, and is read on.
void a_full_disk_loses_nothing(const std::string& path) {
  const rlimit unlimited{RLIM_INFINITY, RLIM_INFINITY}, limited{1 << 20, RLIM_INFINITY};
  file store(path);
  std::signal(SIGXFSZ, SIG_IGN);
  setrlimit(RLIMIT_FSIZE, &limited);
  std::uint64_t written = 0;
  file_error refused(HLC_OK);
  while (refused.code() == HLC_OK && written < 1000) {
    refused = refusal([&] { store.write(std::to_string(written), std::string(60'000, 'v')); });
    if (refused.code() == HLC_OK) written++;
  }
  setrlimit(RLIMIT_FSIZE, &unlimited);
  EXPECT(refused.code() == HLC_FILE_FULL || refused.code() == HLC_FILE_IO || refused.code() == HLC_FILE_UNKNOWN);
  EXPECT(store.open_snapshot().count() == written);
  EXPECT(store.status().failure == refused.code());
  store.close();
  file again(path);
  EXPECT(again.open_snapshot().count() >= written);
}

void readers_run_beside_a_writer(const std::string& path) {
  file store(path, with(promise::written));
  std::atomic<bool> is_done{false};
  std::atomic<int> wrong{0};
  std::vector<std::thread> readers;
  for (int more = 0; more < 3; more++) {
    readers.emplace_back([&] {
      while (!is_done) {
        const file_snapshot snapshot = store.open_snapshot();
        const pairs found = listed(snapshot);
        for (const auto& [key, value] : found) wrong += value != found[0].second;
        wrong += !found.empty() && (found.size() != 3 || snapshot.get("b") != found[1].second);
      }
    });
  }
  file_batch batch;
  for (int number = 0; number < 200; number++) {
    for (const char* key : {"a", "b", "c"}) batch.write(key, std::to_string(number));
    if (number % 2 == 0) {
      store.append(batch);
    } else {
      store.write_batch(batch);
    }
    if (number % 100 == 0) store.vacuum_older(std::chrono::milliseconds(0));
  }
  is_done = true;
  for (std::thread& reader : readers) reader.join();
  EXPECT(wrong == 0);
  EXPECT(store.open_snapshot().get("c") == "199");
}

}  // namespace

int main(int many, char** arguments) {
  const std::pair<const char*, void (*)(const std::string&)> tests[] = {
      {"past", past_stamps_are_read},
      {"batches", batches_are_appended_whole},
      {"one stamp", batches_are_written_at_one_stamp},
      {"promises", promises_are_those_of_the_calls},
      {"reopened", all_is_there_after_opening_again},
      {"states", states_are_written_as_checkpoints},
      {"ranges", ranges_have_the_pairs_of_a_model},
      {"nodes", nodes_have_clocks},
      {"records", records_of_other_machines_are_appended},
      {"vacuums", vacuums_drop_what_no_snapshot_needs},
      {"refused", calls_are_refused},
      {"openings", openings_are_refused},
      {"closed", closed_and_moved_files_refuse},
      {"full", a_full_disk_loses_nothing},
      {"threads", readers_run_beside_a_writer},
  };
  for (const auto& [name, test] : tests) {
    if (many < 3 || arguments[2] == std::string(name)) test(std::string(arguments[1]) + "/" + name);
  }
  std::cout << "all right\n";
}
