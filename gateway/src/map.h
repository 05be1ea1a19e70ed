// The map: a page, and what it shows of the airspace as JSON and as GeoJSON.
#pragma once

#include <memory>
#include <mutex>
#include <optional>
#include <string>

#include "instances.h"
#include "server.h"
#include "sight.h"

class Map {
 public:
  struct Options {
    std::string tokens;  // a file: a line with the token of the service that it asks with, and one with the token of its viewers
    std::string area;    // tokens of cells, with commas; may be empty where there is an airspace
    std::string airspace;  // the URL of the operator's port of the service, where the airspace is taken from there
    std::string ground;    // a GeoJSON file that the page draws on the ground; may be empty
    std::string instances;  // names and URLs of the operator's ports of a pool; may be empty
  };
  Map(const Options& options, Service& service);

  // What a request for a path of the map is to have done; none for other paths, a Refusal where it is not let in.
  std::optional<Task> admit(const Head& head, Note& note);

 private:
  struct Tokens {
    std::string service, viewer;
  };
  Map(const Tokens& tokens, const Options& options, Service& service);
  static Tokens tokens_of(const std::string& file);
  static std::unique_ptr<Sight> sight_of(const std::string& token, const Options& options, Service& service);
  std::string changes_of(const std::string& target);
  void check_viewer(const Head& head) const;

  std::string viewer_, ground_;
  std::unique_ptr<Sight> sight_;
  Instances instances_;
  std::mutex mutex_;  // of the changes
  Changes changes_;
};

// For a new file of `tokens`: the token of a supplier of the service's token file that opens queries, and a drawn one.
std::string make_map_tokens(const std::string& token_file, const std::string& uss);
