// The files of the map's page, which are part of the program.
#pragma once

#include <optional>
#include <string_view>

struct PageFile {
  std::string_view text;
  const char* type;
};

// By the path after the gateway's own, such as `/map/map.js`.
std::optional<PageFile> page_file(std::string_view path);
