// Classes of vertices, and the blocks, articulation points and bridges, each by one pass in depth.

static void print_classes(const vector<int>& of) {
  puts("seq,component,node");
  vector<pair<int, int>> found;
  vector<int> least(ids.size(), -1);
  for (int v = 0; v < int(of.size()); v++) { if (least[of[v]] < 0) least[of[v]] = v; found.push_back({least[of[v]], v}); }
  sort(found.begin(), found.end());
  I seq = 0;
  for (auto& [c, v] : found) printf("%lld,%lld,%lld\n", (long long)++seq, (long long)ids[c], (long long)ids[v]);
}

static void connected() {
  int n = ids.size(); vector<int> of(n, -1), stack;
  for (int s = 0; s < n; s++) {
    if (of[s] >= 0) continue;
    of[s] = s; stack.push_back(s);
    while (!stack.empty()) {
      int v = stack.back(); stack.pop_back();
      for (int k = first[v]; k < first[v + 1]; k++) if (of[adjacent[k].to] < 0) { of[adjacent[k].to] = s; stack.push_back(adjacent[k].to); }
    }
  }
  print_classes(of);
}

static void strong() {
  int n = ids.size(), time = 0, count = 0;
  vector<int> seen(n, 0), low(n, 0), of(n, -1), next(first.begin(), first.end() - 1), open, stack;
  for (int s = 0; s < n; s++) {
    if (seen[s]) continue;
    seen[s] = low[s] = ++time; open.push_back(s); stack.push_back(s);
    while (!stack.empty()) {
      int v = stack.back();
      if (next[v] < first[v + 1]) {
        int w = adjacent[next[v]++].to;
        if (!seen[w]) { seen[w] = low[w] = ++time; open.push_back(w); stack.push_back(w); }
        else if (of[w] < 0) low[v] = min(low[v], seen[w]);
        continue;
      }
      stack.pop_back();
      if (!stack.empty()) low[stack.back()] = min(low[stack.back()], low[v]);
      if (low[v] == seen[v]) { int w; do { w = open.back(); open.pop_back(); of[w] = count; } while (w != v); count++; }
    }
  }
  print_classes(of);
}

// blocks, articulation points and bridges by one pass in depth; `what` says which of the three is printed
static void blocks(char what) {
  int n = ids.size(), time = 0;
  vector<int> seen(n, 0), low(n, 0), up(n, -1), next(first.begin(), first.end() - 1), stack, open, size_of, children(n, 0);
  vector<int> of(rows.size(), -1); vector<char> taken(rows.size(), 0), cut(n, 0); int count = 0;
  for (int s = 0; s < n; s++) {
    if (seen[s]) continue;
    seen[s] = low[s] = ++time; stack.push_back(s);
    while (!stack.empty()) {
      int v = stack.back();
      if (next[v] < first[v + 1]) {
        Link& link = adjacent[next[v]++];
        if (taken[link.edge]) continue;
        taken[link.edge] = 1;
        if (link.to == v) { of[link.edge] = count++; size_of.push_back(0); continue; }
        open.push_back(link.edge);
        if (!seen[link.to]) { seen[link.to] = low[link.to] = ++time; up[link.to] = link.edge; children[v]++; stack.push_back(link.to); }
        else low[v] = min(low[v], seen[link.to]);
        continue;
      }
      stack.pop_back();
      if (stack.empty()) continue;
      int u = stack.back();
      low[u] = min(low[u], low[v]);
      if (low[v] < seen[u]) continue;
      if (u != s || children[u] > 1) cut[u] = 1;
      int members = 0, e;
      do { e = open.back(); open.pop_back(); of[e] = count; members++; } while (e != up[v]);
      size_of.push_back(members); count++;
    }
    if (children[s] > 1) cut[s] = 1;
  }
  if (what == 'p') { puts("node"); for (int v = 0; v < n; v++) if (cut[v]) printf("%lld\n", (long long)ids[v]); return; }
  vector<pair<I, int>> order;
  for (int i = 0; i < int(rows.size()); i++) if (of[i] >= 0) order.push_back({rows[i].id, i});
  sort(order.begin(), order.end());
  if (what == 'b') { puts("edge"); for (auto& [id, i] : order) if (size_of[of[i]] == 1) printf("%lld\n", (long long)id); return; }
  vector<I> least(count, -1); vector<pair<I, I>> found;
  for (auto& [id, i] : order) { if (least[of[i]] < 0) least[of[i]] = id; found.push_back({least[of[i]], id}); }
  sort(found.begin(), found.end());
  puts("seq,component,edge"); I seq = 0;
  for (auto& [c, id] : found) printf("%lld,%lld,%lld\n", (long long)++seq, (long long)c, (long long)id);
}
