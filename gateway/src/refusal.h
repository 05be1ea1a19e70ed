// What the gateway itself answers in place of the service.
#pragma once

#include <stdexcept>
#include <string>

// What is to be done about a change that may be made or not. In a pool a read does not tell.
constexpr const char* kOpen =
    "the change may be made or not: send the request again, unchanged, through this gateway, until it succeeds or is denied by P7 or a later rule";

struct Refusal : std::runtime_error {
  Refusal(int status, const std::string& message, std::string allow = "")
      : std::runtime_error(message), status(status), allow(std::move(allow)) {}
  int status;
  std::string allow;  // the methods that are taken, with 405
};

// Of an outline, by what knows nothing of its place in a body.
struct GeometryRefusal : Refusal {
  using Refusal::Refusal;
};
