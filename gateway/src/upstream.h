// The service behind, and the connections to it that are kept open.
#pragma once

#include <chrono>
#include <memory>
#include <mutex>
#include <optional>
#include <string>
#include <vector>

#include "translate.h"

// A port of this machine.
struct Place {
  int port;
  bool is_v6 = false;

  // As a URL and the field Host have it, such as `127.0.0.1:8078`.
  std::string host() const { return (is_v6 ? "[::1]:" : "127.0.0.1:") + std::to_string(port); }
};

// Of `http://127.0.0.1:PORT` or `http://[::1]:PORT`; an exception for any other text, which names the option.
Place place_of(const std::string& url, const std::string& option);

// What the operator's port of the service answers to a reading; a Refusal where that is none.
json read_operators(const Place& place, const std::string& target);

struct Said {
  int status;
  std::string body;
};
// What a place answers to a reading; none where no whole answer came within so long.
std::optional<Said> read_within(std::chrono::milliseconds limit, const Place& place, const std::string& target, const std::string& token = "");

struct Answer {
  int status;
  json body;
  std::shared_ptr<void> alone;  // as long as a large one stands, no other request's does

  bool is_done() const { return status == 200 || status == 201; }
};

class Connection;

class Service {
 public:
  // On this port of the machine. Of connections that nothing is asked on, so many are kept.
  Service(int port, size_t kept);
  ~Service();

 private:
  friend class Upstream;
  // One that is kept and still stands, or none.
  std::unique_ptr<Connection> take();
  void give_back(std::unique_ptr<Connection> connection);

  int port_;
  size_t kept_;
  std::mutex mutex_;
  std::recursive_mutex large_;
  std::vector<std::unique_ptr<Connection>> connections_;
};

// What one request asks of the service, one after the other on one connection, which no other request has meanwhile.
class Upstream {
 public:
  Upstream(Service& service, std::string token);
  ~Upstream();

  // A Refusal where no answer came: 503 where nothing was sent, 504 where the change may be done.
  Answer ask(const std::string& method, const std::string& path, const json& body = nullptr);

 private:
  void connect();

  Service& service_;
  std::string token_;
  std::unique_ptr<Connection> connection_;
};
