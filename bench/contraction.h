// Contraction: the least vertex that may go goes first. Links between two vertices are kept by their least cost each way.

struct Between { I out = -1, in = -1; vector<int> shortcuts; };

struct Contraction {
  struct Shortcut { int from, to; I cost; vector<int> inside; bool left; };
  vector<map<int, Between>> near;
  vector<vector<int>> inside;
  vector<Shortcut> made;
  vector<char> forbidden, gone;
  bool directed;

  static void lower(I& at, I cost) { if (at < 0 || cost < at) at = cost; }
  void add(int a, int b, I cost) { lower(near[a][b].out, cost); lower(near[b][a].in, cost); }
  static void take(vector<int>& into, vector<int>& from) {
    if (into.size() < from.size()) swap(into, from);
    into.insert(into.end(), from.begin(), from.end());
    from.clear();
  }
  // what a vertex and its links hold, and the vertex; it goes with its links
  vector<int> remove(int v) {
    vector<int> held; take(held, inside[v]); held.push_back(v);
    for (auto& [w, between] : near[v]) {
      for (int k : between.shortcuts) if (made[k].left) { made[k].left = false; vector<int> more = made[k].inside; take(held, more); made[k].inside.clear(); }
      near[w].erase(v);
    }
    near[v].clear(); gone[v] = 1;
    return held;
  }
  void shortcut(int a, int b, I cost, const vector<int>& held) {
    int k = made.size();
    made.push_back({a, b, cost, held, true});
    add(a, b, cost); if (!directed) add(b, a, cost);
    near[a][b].shortcuts.push_back(k); near[b][a].shortcuts.push_back(k);
  }
  bool step(int method, int v) {
    if (gone[v] || forbidden[v] || int(near[v].size()) != method) return false;
    int u = near[v].begin()->first, w = near[v].rbegin()->first;
    if (method == 1) { vector<int> held = remove(v); take(inside[u], held); return true; }
    Between a = near[v][u], b = near[v][w];
    bool there = a.in >= 0 && b.out >= 0, back = b.in >= 0 && a.out >= 0;
    if (!there && !back) return false;
    vector<int> held = remove(v);
    if (there) shortcut(u, w, a.in + b.out, held);
    if (back && directed) shortcut(w, u, b.in + a.out, held);
    return true;
  }
  void phase(int method) {
    set<int> waiting;
    for (int v = 0; v < int(near.size()); v++) if (!gone[v] && !forbidden[v]) waiting.insert(waiting.end(), v);
    while (!waiting.empty()) {
      int v = *waiting.begin(); waiting.erase(waiting.begin());
      vector<int> others; for (auto& [w, between] : near[v]) { others.push_back(w); if (others.size() > 2) break; }
      if (step(method, v)) for (int w : others) if (!forbidden[w]) waiting.insert(w);
    }
  }
};

static void print_held(vector<int> held) {
  sort(held.begin(), held.end()); held.erase(unique(held.begin(), held.end()), held.end());
  printf(held.size() > 1 ? "\"{" : "{");
  for (size_t i = 0; i < held.size(); i++) printf(i ? ",%lld" : "%lld", (long long)ids[held[i]]);
  printf(held.size() > 1 ? "}\"" : "}");
}

static void contraction(const vector<I>& order, int cycles, const vector<I>& forbidden, bool directed) {
  int n = ids.size();
  Contraction c; c.directed = directed;
  c.near.resize(n); c.inside.resize(n); c.forbidden.assign(n, 0); c.gone.assign(n, 0);
  for (I v : forbidden) if (number(v) >= 0) c.forbidden[number(v)] = 1;
  for (int v = 0; v < n; v++) for (int k = first[v]; k < first[v + 1]; k++) if (adjacent[k].to != v) c.add(v, adjacent[k].to, adjacent[k].cost);
  for (int i = 0; i < cycles; i++) for (I method : order) c.phase(method);
  puts("type,id,contracted_vertices,source,target,cost");
  for (int v = 0; v < n; v++) if (!c.inside[v].empty()) { printf("v,%lld,", (long long)ids[v]); print_held(c.inside[v]); puts(",-1,-1,-1"); }
  int id = 0;
  for (auto& s : c.made) if (s.left) {
    printf("e,%d,", --id); print_held(s.inside); printf(",%lld,%lld,%lld\n", (long long)ids[s.from], (long long)ids[s.to], (long long)s.cost);
  }
}
