// A server of HTTP/1.1 on a port of this machine or a Unix socket: requests on a connection one after the other, within limits. One
// thread reads and writes for all clients, so a slow one delays only itself; a few others process the requests.
#pragma once

#include <atomic>
#include <functional>
#include <string>

#include "http.h"

// What the log says of a request.
struct Note {
  std::string uss = "-", route = "-";
};

// What is to be done for a request that is let in.
struct Task {
  std::string supplier;  // in whose share it is done
  bool wants_body;
  // With the body, on a thread of its own; a Refusal is answered as such. `is_gone` tells whether nobody waits any more.
  std::function<Reply(const std::string& body, const std::atomic<bool>& is_gone)> run;
};

// Lets in by the head alone, before anything of a body is read; else a Refusal.
using Admit = std::function<Task(const Head& head, Note& note)>;

// Sockets that listen, else a std::runtime_error.
int listening_port(int port);
// Of the user and the group of this process, and nobody else.
int listening_path(const std::string& path);

// Answers on a listening socket until SIGTERM or SIGINT, and ends what it has begun. Beyond so many connections, or as many as the
// process has descriptors for, others wait.
void serve(int listening, size_t connections, const Admit& admit);
