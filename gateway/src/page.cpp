#include "page.h"

#include <array>

// The assembler finds them by the folder that the Makefile gives it.
#define PAGE_FILE(name, file) \
  asm(".pushsection .rodata\n" name "_begin:\n.incbin \"" file "\"\n" name "_end:\n.byte 0\n.popsection\n")

PAGE_FILE("page_html", "map.html");
PAGE_FILE("page_css", "map.css");
PAGE_FILE("page_js", "map.js");
PAGE_FILE("page_drawing", "drawing.js");
PAGE_FILE("page_airspace", "airspace.js");
PAGE_FILE("page_ground_js", "ground.js");
PAGE_FILE("page_cells", "cells.js");
PAGE_FILE("page_conflicts", "conflicts.js");
PAGE_FILE("page_warnings", "warnings.js");
PAGE_FILE("page_filter", "filter.js");
PAGE_FILE("page_pointing", "pointing.js");
PAGE_FILE("page_session", "session.js");
PAGE_FILE("page_units", "units.js");
PAGE_FILE("page_instances", "instances.js");
PAGE_FILE("page_ground", "ground.json");

extern "C" {
extern const char page_html_begin[], page_html_end[], page_css_begin[], page_css_end[], page_js_begin[], page_js_end[];
extern const char page_drawing_begin[], page_drawing_end[], page_airspace_begin[], page_airspace_end[];
extern const char page_ground_js_begin[], page_ground_js_end[], page_ground_begin[], page_ground_end[];
extern const char page_cells_begin[], page_cells_end[], page_conflicts_begin[], page_conflicts_end[];
extern const char page_warnings_begin[], page_warnings_end[], page_filter_begin[], page_filter_end[];
extern const char page_pointing_begin[], page_pointing_end[], page_session_begin[], page_session_end[];
extern const char page_units_begin[], page_units_end[], page_instances_begin[], page_instances_end[];
}

std::optional<PageFile> page_file(std::string_view path) {
  struct Named {
    std::string_view path;
    const char *begin, *end, *type;
  };
  static const std::array<Named, 15> files = {{
      {"/map", page_html_begin, page_html_end, "text/html; charset=utf-8"},
      {"/map/map.css", page_css_begin, page_css_end, "text/css; charset=utf-8"},
      {"/map/map.js", page_js_begin, page_js_end, "text/javascript; charset=utf-8"},
      {"/map/drawing.js", page_drawing_begin, page_drawing_end, "text/javascript; charset=utf-8"},
      {"/map/airspace.js", page_airspace_begin, page_airspace_end, "text/javascript; charset=utf-8"},
      {"/map/ground.js", page_ground_js_begin, page_ground_js_end, "text/javascript; charset=utf-8"},
      {"/map/cells.js", page_cells_begin, page_cells_end, "text/javascript; charset=utf-8"},
      {"/map/conflicts.js", page_conflicts_begin, page_conflicts_end, "text/javascript; charset=utf-8"},
      {"/map/warnings.js", page_warnings_begin, page_warnings_end, "text/javascript; charset=utf-8"},
      {"/map/filter.js", page_filter_begin, page_filter_end, "text/javascript; charset=utf-8"},
      {"/map/pointing.js", page_pointing_begin, page_pointing_end, "text/javascript; charset=utf-8"},
      {"/map/session.js", page_session_begin, page_session_end, "text/javascript; charset=utf-8"},
      {"/map/instances.js", page_instances_begin, page_instances_end, "text/javascript; charset=utf-8"},
      {"/map/units.js", page_units_begin, page_units_end, "text/javascript; charset=utf-8"},
      {"/map/ground.json", page_ground_begin, page_ground_end, "application/json"},
  }};
  for (const Named& it : files)
    if (it.path == path) return PageFile{{it.begin, size_t(it.end - it.begin)}, it.type};
  return std::nullopt;
}
