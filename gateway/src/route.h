// The standard's paths, and what each takes.
#pragma once

#include <optional>
#include <string>

struct Route {
  std::string kind, word;              // such as `subscriptions`, and `query` or an id
  std::optional<std::string> version;  // of an entity or a subscription

  bool is_query() const { return word == "query" && kind != "uss_availability"; }
  std::string methods() const;
  // That the words have their form; else a Refusal.
  void check_words() const;
  // Without the version, which only its manager may know.
  std::string shown() const { return kind + "/" + word + (version ? "/*" : ""); }
};

// The route of a request's target. Nothing is decoded.
std::optional<Route> route_of(const std::string& target);
