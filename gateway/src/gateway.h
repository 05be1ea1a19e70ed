// The gateway: whom it lets in, and what it does for each path.
#pragma once

#include <ctime>
#include <map>
#include <memory>
#include <optional>
#include <string>

#include "budget.h"
#include "callers.h"
#include "health.h"
#include "intents.h"
#include "map.h"
#include "route.h"
#include "server.h"
#include "tokens.h"
#include "turns.h"
#include "upstream.h"

class Gateway {
 public:
  struct Options {
    Callers::Files files;
    std::string secret;
    NewSubscription wish;
    int service;
    size_t kept;
    std::optional<Place> admin;  // the operator's port of the service
    std::optional<Map::Options> map;
  };
  explicit Gateway(const Options& options)
      : secret_(options.secret),
        callers_(options.files),
        wish_(options.wish),
        service_(options.service, options.kept),
        health_(options.admin ? Health(*options.admin) : Health::of_service(options.service, callers_.reader())) {
    if (options.map) map_ = std::make_unique<Map>(*options.map, service_);
  }

  // What a request is to have done, by its head; else a Refusal. On one thread, and soon.
  Task admit(const Head& head, Note& note);

 private:
  struct Call;  // what is asked by whom

  Reply health();
  static Reply report(const std::string& uss, const std::string& text);
  Reply pass(const Call& call, const std::string& text, const std::atomic<bool>& is_gone);
  Answer ask(const Call& call, Upstream& service, const json& body, const Budget& budget);
  Answer change_intent(const Call& call, Upstream& service, const json& body, const Budget& budget);

  Secret secret_;
  Callers callers_;
  NewSubscription wish_;
  Service service_;
  Health health_;
  Turns turns_;
  std::unique_ptr<Map> map_;  // where there is one
};
