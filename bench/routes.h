// Least costs and routes: by a heap alone, guided by places, over prefixes of restrictions, and several of a pair.

struct Search { vector<I> cost; vector<int> pred, edge, depth; };
typedef pair<I, int> Entry;
typedef priority_queue<Entry, vector<Entry>, greater<Entry>> Heap;

// least costs from a vertex, up to a limit, and until `left` of the marked vertices are settled
static void search(int root, I limit, const vector<char>& wanted, int left, Search& s) {
  int n = ids.size();
  s.cost.assign(n, INT64_MAX); s.pred.assign(n, -1); s.edge.assign(n, -1); s.depth.assign(n, 0);
  Heap queue;
  s.cost[root] = 0; queue.push({0, root});
  while (!queue.empty()) {
    auto [cost, v] = queue.top(); queue.pop();
    if (cost != s.cost[v]) continue;
    if (!wanted.empty() && wanted[v] && --left == 0) return;
    for (int k = first[v]; k < first[v + 1]; k++) {
      I through = cost + adjacent[k].cost; int w = adjacent[k].to;
      if (through < s.cost[w] && through <= limit) {
        s.cost[w] = through; s.pred[w] = v; s.edge[w] = k; s.depth[w] = s.depth[v] + 1; queue.push({through, w});
      }
    }
  }
}

// the rows of a route by the places of its links; `path` is its number, where routes of a pair are numbered
static void print_route(I& seq, int from, int to, const vector<int>& way, int path = 0) {
  I k = 0, total = 0; int v = from;
  auto row = [&](I node, I edge, I cost) {
    printf("%lld,", (long long)++seq);
    if (path) printf("%d,", path);
    printf("%lld,%lld,%lld,%lld,%lld,%lld,%lld\n", (long long)++k, (long long)ids[from], (long long)ids[to], (long long)node, (long long)edge,
           (long long)cost, (long long)total);
  };
  for (int at : way) { Link& link = adjacent[at]; row(ids[v], rows[link.edge].id, link.cost); total += link.cost; v = link.to; }
  row(ids[to], -1, 0);
}

static vector<int> way_to(const Search& s, int from, int to) {
  vector<int> way;
  for (int v = to; v != from; v = s.pred[v]) way.push_back(s.edge[v]);
  reverse(way.begin(), way.end());
  return way;
}

static void routes(const vector<I>& starts, const vector<I>& ends, bool whole) {
  vector<char> wanted(ids.size(), 0); int marked = 0;
  for (I e : ends) if (number(e) >= 0) { wanted[number(e)] = 1; marked++; }
  puts(whole ? "seq,path_seq,start_vid,end_vid,node,edge,cost,agg_cost" : "start_vid,end_vid,agg_cost");
  Search s; I seq = 0;
  for (I a : starts) {
    int from = number(a); if (from < 0) continue;
    search(from, INT64_MAX, wanted, marked, s);
    for (I b : ends) {
      int to = number(b); if (to < 0 || a == b || s.cost[to] == INT64_MAX) continue;
      if (whole) print_route(seq, from, to, way_to(s, from, to));
      else printf("%lld,%lld,%lld\n", (long long)a, (long long)b, (long long)s.cost[to]);
    }
  }
}

static void reach(const vector<I>& starts, I limit) {
  puts("seq,depth,start_vid,pred,node,edge,cost,agg_cost");
  Search s; I seq = 0;
  for (I a : starts) {
    int root = number(a); if (root < 0) continue;
    search(root, limit, {}, 0, s);
    vector<pair<I, int>> found;
    for (int v = 0; v < int(ids.size()); v++) if (s.cost[v] != INT64_MAX) found.push_back({s.cost[v], v});
    sort(found.begin(), found.end());
    for (auto& [cost, v] : found) {
      bool is_root = v == root;
      printf("%lld,%d,%lld,%lld,%lld,%lld,%lld,%lld\n", (long long)++seq, s.depth[v], (long long)a, (long long)ids[is_root ? v : s.pred[v]],
             (long long)ids[v], is_root ? -1LL : (long long)rows[adjacent[s.edge[v]].edge].id, is_root ? 0LL : (long long)adjacent[s.edge[v]].cost, (long long)cost);
    }
  }
}

// guided by the sum of the distances along the axes; costs are at least as far as that
static void a_star(const vector<I>& starts, const vector<I>& ends) {
  int n = ids.size(); I seq = 0;
  vector<pair<I, I>> at(n);
  for (int i = rows.size() - 1; i >= 0; i--) {
    int a = number(rows[i].source), b = number(rows[i].target);
    if (b >= 0) at[b] = {places[i].x2, places[i].y2};
    if (a >= 0) at[a] = {places[i].x1, places[i].y1};
  }
  puts("seq,path_seq,start_vid,end_vid,node,edge,cost,agg_cost");
  for (I a : starts) for (I b : ends) {
    int from = number(a), to = number(b); if (from < 0 || to < 0 || a == b) continue;
    Search s; s.cost.assign(n, INT64_MAX); s.pred.assign(n, -1); s.edge.assign(n, -1);
    auto left = [&](int v) { return llabs(at[v].first - at[to].first) + llabs(at[v].second - at[to].second); };
    vector<char> done(n, 0); Heap queue;
    s.cost[from] = 0; queue.push({left(from), from});
    while (!queue.empty() && !done[to]) {
      int v = queue.top().second; queue.pop();
      if (done[v]) continue;
      done[v] = 1;
      for (int k = first[v]; k < first[v + 1]; k++) {
        I through = s.cost[v] + adjacent[k].cost; int w = adjacent[k].to;
        if (through < s.cost[w]) { s.cost[w] = through; s.pred[w] = v; s.edge[w] = k; queue.push({through + left(w), w}); }
      }
    }
    if (done[to]) print_route(seq, from, to, way_to(s, from, to));
  }
}

// the restrictions as a tree of prefixes, where `next` goes on by an edge, over shorter prefixes too
struct Prefixes {
  vector<unordered_map<I, int>> next{1};
  vector<int> back{0}; vector<char> met{0};
  void add(const vector<I>& path) {
    int q = 0;
    for (I edge : path) {
      auto it = next[q].find(edge);
      if (it == next[q].end()) { next[q][edge] = next.size(); q = next.size(); next.push_back({}); back.push_back(0); met.push_back(0); }
      else q = it->second;
    }
    if (q) met[q] = 1;
  }
  int go(int q, I edge) const {
    for (;; q = back[q]) { auto it = next[q].find(edge); if (it != next[q].end()) return it->second; if (!q) return 0; }
  }
  void link() {
    vector<int> order{0};
    for (size_t i = 0; i < order.size(); i++)
      for (auto& [edge, q] : next[order[i]]) {
        if (order[i]) back[q] = go(back[order[i]], edge);
        met[q] |= met[back[q]]; order.push_back(q);
      }
  }
};

static Prefixes read_restrictions(const string& name) {
  Prefixes found; string text = content(name);
  for (size_t at = text.find('{'); at != string::npos; at = text.find('{', at + 1))
    found.add(numbers(text.substr(at + 1, text.find('}', at) - at - 1)));
  found.link();
  return found;
}

// a state is a vertex and a prefix; those of the empty prefix have the numbers of their vertices, others are numbered as they come
static void turns(const vector<I>& starts, const vector<I>& ends, const Prefixes& prefixes) {
  int n = ids.size(); I seq = 0;
  puts("seq,path_seq,start_vid,end_vid,node,edge,cost,agg_cost");
  for (I a : starts) for (I b : ends) {
    int from = number(a), to = number(b); if (from < 0 || to < 0 || a == b) continue;
    Search s; s.cost.assign(n, INT64_MAX); s.pred.assign(n, -1); s.edge.assign(n, -1);
    vector<pair<int, int>> of; unordered_map<I, int> names; Heap queue; int last = -1;
    auto state = [&](int v, int q) {
      if (!q) return v;
      auto [it, fresh] = names.insert({I(q) * n + v, n + int(of.size())});
      if (fresh) { of.push_back({v, q}); s.cost.push_back(INT64_MAX); s.pred.push_back(-1); s.edge.push_back(-1); }
      return it->second;
    };
    s.cost[from] = 0; queue.push({0, from});
    while (!queue.empty()) {
      auto [cost, x] = queue.top(); queue.pop();
      if (cost != s.cost[x]) continue;
      auto [v, q] = x < n ? make_pair(x, 0) : of[x - n];
      if (v == to) { last = x; break; }
      for (int k = first[v]; k < first[v + 1]; k++) {
        int r = prefixes.go(q, rows[adjacent[k].edge].id); if (prefixes.met[r]) continue;
        int y = state(adjacent[k].to, r); I through = cost + adjacent[k].cost;
        if (through < s.cost[y]) { s.cost[y] = through; s.pred[y] = x; s.edge[y] = k; queue.push({through, y}); }
      }
    }
    if (last >= 0) print_route(seq, from, to, way_to(s, from, last));
  }
}

// a route from a vertex to an end, without some links at its start and without some vertices; empty where there is none
static vector<int> detour(int from, int to, const vector<char>& shut, const set<int>& without, Search& s) {
  s.cost.assign(ids.size(), INT64_MAX); s.pred.assign(ids.size(), -1); s.edge.assign(ids.size(), -1);
  Heap queue; s.cost[from] = 0; queue.push({0, from});
  while (!queue.empty()) {
    auto [cost, v] = queue.top(); queue.pop();
    if (cost != s.cost[v]) continue;
    if (v == to) return way_to(s, from, to);
    for (int k = first[v]; k < first[v + 1]; k++) {
      I through = cost + adjacent[k].cost; int w = adjacent[k].to;
      if (through < s.cost[w] && !shut[w] && !(v == from && without.count(k))) { s.cost[w] = through; s.pred[w] = v; s.edge[w] = k; queue.push({through, w}); }
    }
  }
  return {};
}

// routes that come to no vertex twice, each found as a detour from one before it
static void several(const vector<I>& starts, const vector<I>& ends, int count) {
  I seq = 0; Search s;
  puts("seq,path_id,path_seq,start_vid,end_vid,node,edge,cost,agg_cost");
  for (I a : starts) for (I b : ends) {
    int from = number(a), to = number(b); if (from < 0 || to < 0 || a == b) continue;
    vector<vector<int>> found; set<pair<I, vector<int>>> next;
    auto offer = [&](const vector<int>& way) { I total = 0; for (int k : way) total += adjacent[k].cost; next.insert({total, way}); };
    vector<int> best = detour(from, to, vector<char>(ids.size(), 0), {}, s);
    if (!best.empty()) offer(best);
    while (!next.empty()) {
      vector<int> way = next.begin()->second; next.erase(next.begin());
      found.push_back(way); print_route(seq, from, to, way, found.size());
      if (int(found.size()) == count) break;
      vector<char> shut(ids.size(), 0); int v = from;
      for (size_t i = 0; i < way.size(); i++) {
        set<int> without;
        for (auto& other : found) if (other.size() > i && equal(way.begin(), way.begin() + i, other.begin())) without.insert(other[i]);
        shut[v] = 1;
        vector<int> rest = detour(v, to, shut, without, s);
        if (!rest.empty()) { rest.insert(rest.begin(), way.begin(), way.begin() + i); offer(rest); }
        v = adjacent[way[i]].to;
      }
    }
  }
}
