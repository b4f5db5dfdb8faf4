// A twin of pgr in C++, as one would write it for speed alone: the same words, the same tables, the same rows.
//
// It judges no table, refuses nothing and takes any route among equals, so it is what the time of pgr is divided by, and no
// judge of its answers. Sums must fit in 63 bits. Words and columns are those that bench.py writes: twin FUNCTION --NAME=VALUE ..
#include "network.h"
#include "routes.h"
#include "classes.h"
#include "flows.h"
#include "contraction.h"

static bool over_routes(const string& function) {
  if (function == "pgr_dijkstra" || function == "pgr_withPoints") routes(list("start"), list("end"), true);
  else if (function == "pgr_dijkstraCost") routes(list("start"), list("end"), false);
  else if (function == "pgr_dijkstraCostMatrix") routes(list("vids"), list("vids"), false);
  else if (function == "pgr_aStar") a_star(list("start"), list("end"));
  else if (function == "pgr_trsp") turns(list("start"), list("end"), read_restrictions(given["restrictions"]));
  else if (function == "pgr_KSP") several(list("start"), list("end"), atoi(given["K"].c_str()));
  else if (function == "pgr_drivingDistance") reach(list("start"), strtoll(given["distance"].c_str(), nullptr, 10));
  else return false;
  return true;
}

int main(int count, char** words) {
  if (count < 2) return 2;
  string function = words[1];
  for (int i = 2; i < count; i++) { string w = words[i]; size_t at = w.find('='); given[w.substr(2, at - 2)] = w.substr(at + 1); }
  read_rows(given["edges"]);
  if (function == "read") { I sum = 0; for (auto& row : rows) sum += row.cost; printf("%lld\n", (long long)sum); return 0; }
  if (function == "pgr_maxFlow" || function == "pgr_edmondsKarp" || function == "minCut") { flow(function, list("start"), list("end")); return 0; }
  bool whole = function.find("omponents") != string::npos && function != "pgr_strongComponents";
  bool both = whole || function == "pgr_articulationPoints" || function == "pgr_bridges" || given["directed"] == "false";
  if (function == "pgr_withPoints") pointed_parts(both, given["driving_side"].empty() ? 'b' : given["driving_side"][0], read_points(given["points"]));
  else plain_parts(both);
  number_vertices();
  make_links();
  if (over_routes(function)) return 0;
  if (function == "pgr_connectedComponents") connected();
  else if (function == "pgr_strongComponents") strong();
  else if (function == "pgr_biconnectedComponents") blocks('c');
  else if (function == "pgr_articulationPoints") blocks('p');
  else if (function == "pgr_bridges") blocks('b');
  else if (function == "pgr_contraction") contraction(numbers(given["order"]), max(1, atoi(given["max_cycles"].c_str())), list("forbidden"), given["directed"] != "false");
  else return 2;
  return 0;
}
