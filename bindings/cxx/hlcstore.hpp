// hlcstore for C++17: a header over hlcstore.h, which describes each call, its refusals and its costs.
//
// Keys, values and other bytes go in as std::string_view, which need to live only during the call, and come out as
// std::string. A refusal is thrown as hlcstore::error. Where there is no memory outside the library, std::bad_alloc is
// thrown.
//
// Lifetimes. The calls of a snapshot that outlives its store throw HLC_CLOSED, and so do those of its ranges and their
// iterators. Where they outlive the snapshot, they throw HLC_NO_SNAPSHOT. The range of a temporary snapshot owns it.
//
// Threads. Methods that are const only ask: they may run beside each other on one store, while nothing changes the
// store. All other methods need the store alone, and so do the destructors of a store, of its snapshots, and of ranges
// that own one. hlcstore::shared_store orders the calls of several threads, and hlcstore::ranges is one key space over
// several such stores.
#ifndef HLCSTORE_HPP
#define HLCSTORE_HPP
#include <cstdint>

#include "hlcstore.h"

// The parts, in the order of reading.
#include "hlcstore/error.hpp"
#include "hlcstore/call.hpp"
#include "hlcstore/node.hpp"
#include "hlcstore/items.hpp"
#include "hlcstore/snapshot.hpp"
#include "hlcstore/store.hpp"
#include "hlcstore/slots.hpp"
#include "hlcstore/shared.hpp"
#include "hlcstore/ranges.hpp"

namespace hlcstore {

// The version of the library: 10,000 times its first number, 100 times the second, and the third.
inline std::uint32_t version() noexcept { return hlc_version(); }

}  // namespace hlcstore
#endif
