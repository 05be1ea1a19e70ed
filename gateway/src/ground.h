// The ground that the operator adds to the map.
#pragma once

#include <string>

// A GeoJSON as the page takes it, of the text of a file; an exception where it is none.
std::string ground_of(const std::string& text, const std::string& file);
