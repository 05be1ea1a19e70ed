// A request's head and an answer, as the server and the gateway hand them to each other.
#pragma once

#include <string>
#include <utility>
#include <vector>

struct Head {
  std::string method, target;
  std::vector<std::pair<std::string, std::string>> fields;  // values to the letter
  bool is_old = false;                                      // of HTTP/1.0

  size_t count(const char* name) const;
  // Of the first field of that name, which has no case; empty where there is none.
  std::string value(const char* name) const;
  // Returns true if a field Connection says `close`.
  bool asks_to_close() const;
};

struct Reply {
  int status;
  std::string body;
  std::string allow;  // the field Allow, where it is not empty
  std::string type = "application/json";
  std::string fields = {};  // more fields, each with the end of its line
};
