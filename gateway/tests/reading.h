// Reads requests from bytes that arrive in pieces, for the unit tests and the fuzzer.
#pragma once

#include <algorithm>
#include <functional>
#include <string>

#include "incoming.h"
#include "refusal.h"

// Returns a line for each request in the bytes, up to the one after which the server closes a connection that goes on as long as it
// may. `next` gives the size of the piece that arrives after so many bytes.
inline std::string read_requests(const std::string& bytes, const std::function<size_t(size_t)>& next) {
  Incoming incoming;
  std::string found;
  size_t at = 0;
  auto more = [&] {
    if (at == bytes.size()) return false;
    size_t count = std::min(std::max<size_t>(next(at), 1), bytes.size() - at);
    incoming.add(bytes.data() + at, count);
    at += count;
    return true;
  };
  try {
    while (true) {
      auto head = incoming.take_head();
      while (!head && more()) head = incoming.take_head();
      if (!head) return found + (incoming.is_empty() ? "end" : "half a head");
      found += head->method + " " + head->target;
      Framing framing = framing_of(*head);
      bool is_whole = incoming.take_body(framing);
      while (!is_whole && more()) is_whole = incoming.take_body(framing);
      found += is_whole ? " [" + incoming.body + "]\n" : " half a body";
      if (!is_whole || head->is_old || head->asks_to_close()) return found;
    }
  } catch (const Refusal& refusal) {
    return found + " " + std::to_string(refusal.status);
  }
}
