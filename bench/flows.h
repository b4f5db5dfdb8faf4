// A greatest flow by levels, and the least source side of a least cut. Capacities are the costs of the rows.

struct Arc { int to, back; I left, whole; I edge; };

struct Network {
  vector<vector<Arc>> out;
  vector<int> level, next;
  void add(int a, int b, I capacity, I edge) {
    out[a].push_back({b, int(out[b].size()), capacity, capacity, edge});
    out[b].push_back({a, int(out[a].size()) - 1, 0, 0, -1});
  }
  bool levels(int s, int t) {
    level.assign(out.size(), -1); level[s] = 0;
    vector<int> order{s};
    for (size_t i = 0; i < order.size(); i++)
      for (auto& arc : out[order[i]]) if (arc.left && level[arc.to] < 0) { level[arc.to] = level[order[i]] + 1; order.push_back(arc.to); }
    return level[t] >= 0;
  }
  // sends what one way along rising levels takes, and answers how much that is
  I send(int s, int t) {
    vector<Arc*> way; int v = s;
    while (v != t) {
      Arc* on = nullptr;
      for (; next[v] < int(out[v].size()) && !on; next[v]++) { Arc& arc = out[v][next[v]]; if (arc.left && level[arc.to] == level[v] + 1) { on = &arc; break; } }
      if (on) { way.push_back(on); v = on->to; continue; }
      if (way.empty()) return 0;
      v = out[way.back()->to][way.back()->back].to; way.pop_back(); next[v]++;
    }
    I most = INT64_MAX;
    for (Arc* arc : way) most = min(most, arc->left);
    for (Arc* arc : way) { arc->left -= most; out[arc->to][arc->back].left += most; }
    return most;
  }
};

static void flow(const string& function, const vector<I>& starts, const vector<I>& ends) {
  for (auto& row : rows) {
    if (row.source == row.target) continue;
    if (row.cost > 0) parts.push_back({row.source, row.target, row.cost, 0});
    if (row.reverse > 0) parts.push_back({row.target, row.source, row.reverse, 0});
  }
  number_vertices();
  int n = ids.size(), s = n, t = n + 1; I value = 0, seq = 0;
  bool met = false, cut = function == "minCut";
  for (I a : starts) met |= number(a) >= 0 && count(ends.begin(), ends.end(), a);
  Network net; net.out.resize(n + 2);
  for (I a : starts) if (number(a) >= 0) net.add(s, number(a), INT64_MAX, -1);
  for (I b : ends) if (number(b) >= 0) net.add(number(b), t, INT64_MAX, -1);
  for (auto& row : rows) {
    if (row.source == row.target) continue;
    if (row.cost > 0) net.add(number(row.source), number(row.target), row.cost, row.id);
    if (row.reverse > 0) net.add(number(row.target), number(row.source), row.reverse, row.id);
  }
  while (!met && net.levels(s, t)) { net.next.assign(n + 2, 0); for (I more; (more = net.send(s, t)) > 0;) value += more; }
  if (function == "pgr_maxFlow") { printf("max_flow\n%lld\n", (long long)value); return; }
  vector<pair<vector<I>, I>> found;
  for (int v = 0; v < n && !met; v++) for (auto& arc : net.out[v]) if (arc.edge >= 0) {
    bool shown = cut ? net.level[v] >= 0 && net.level[arc.to] < 0 : arc.whole > arc.left;
    if (shown) found.push_back({{arc.edge, ids[v], ids[arc.to]}, arc.whole - arc.left});
    if (shown && !cut) found.back().first.push_back(arc.left);
  }
  sort(found.begin(), found.end());
  puts(cut ? "seq,edge,start_vid,end_vid,capacity" : "seq,edge,start_vid,end_vid,flow,residual_capacity");
  for (auto& [at, amount] : found) {
    printf("%lld,%lld,%lld,%lld,%lld", (long long)++seq, (long long)at[0], (long long)at[1], (long long)at[2], (long long)amount);
    if (cut) puts(""); else printf(",%lld\n", (long long)at[3]);
  }
}
