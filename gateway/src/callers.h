// Who calls: a supplier by its signed JWT, and the tokens that the service knows it by.
#pragma once

#include <ctime>
#include <map>
#include <set>
#include <string>
#include <utility>

#include "keys.h"
#include "tokens.h"

struct Caller {
  std::string uss;
  std::string token;  // of the service, with exactly the scopes of the JWT
};

class Callers {
 public:
  struct Files {
    std::string tokens, keys, issuer, audience;
    Keys::Form form = Keys::Form::pem;
  };
  // Of the service's own token file, in which a token may also have `sub`, the JWT's name of its supplier where that is another.
  explicit Callers(const Files& files);

  // The caller of a field Authorization, else a Refusal. On one thread.
  Caller caller(const std::string& authorization, std::time_t now);
  // A token of the service that may read availabilities; empty where there is none.
  std::string reader() const;

 private:
  std::string issuer_, audience_;
  Keys keys_;
  std::map<std::pair<std::string, Scopes>, Caller> callers_;  // by `sub` and scopes
  std::set<std::string> subjects_;
};
