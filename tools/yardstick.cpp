// A plain program to compare times and values with: it reads a graph text and prints the value of a best answer.
// usage: yardstick flow S T | cuttree | arborescences R | trees | forests | augment K | augment-arcs K | orient K | dijoin,
// with a graph text on standard input. For cuttree the value is the sum of the weights, which is the same for every cut tree;
// for orient it is 1 where there is an orientation and 0 where there is none; for dijoin 0 may also mean that there is none.
#include <algorithm>
#include <bitset>
#include <cstdio>
#include <iostream>
#include <map>
#include <queue>
#include <sstream>
#include <string>
#include <vector>
using namespace std;

struct Line {
    int tail, head, cost = 1;
    bool fixed = false;
};

struct Graph {
    bool directed = false;
    map<string, int> number;
    vector<Line> lines;
    int nodes() const { return (int)number.size(); }
};

Graph read_graph() {
    Graph graph;
    string text;
    while (getline(cin, text)) {
        istringstream words(text);
        string word, a, b;
        words >> word >> a >> b;
        if (word == "graph") graph.directed = a == "directed";
        else if (word == "node") graph.number.emplace(a, graph.nodes());
        else if (word == "edge" || word == "arc") {
            Line line{graph.number[a], graph.number[b]};
            while (words >> word)
                if (word == "cost") words >> line.cost;
                else if (word == "fixed") line.fixed = true;
            graph.lines.push_back(line);
        }
        else if (word == "end") break;
    }
    return graph;
}

// Flows by levels (Dinic): step 2j goes along line j and step 2j + 1 back.
struct Network {
    vector<vector<int>> from;
    vector<int> to, whole, room, level;
    vector<size_t> next;
    vector<char> off;

    Network(const Graph& graph) : from(graph.nodes()) {
        for (const Line& line : graph.lines) add(line.tail, line.head, 1, graph.directed ? 0 : 1);
    }

    void add(int tail, int head, int room_there, int room_back) {
        from[tail].push_back((int)to.size());
        to.push_back(head);
        whole.push_back(room_there);
        from[head].push_back((int)to.size());
        to.push_back(tail);
        whole.push_back(room_back);
        off.push_back(false);
    }

    void drop_last() {
        int tail = to.back(), head = to[to.size() - 2];
        from[tail].pop_back(), from[head].pop_back();
        to.resize(to.size() - 2), whole.resize(to.size()), off.pop_back();
    }

    bool search(int s, int t) {
        level.assign(from.size(), -1);
        queue<int> todo;
        level[s] = 0;
        for (todo.push(s); !todo.empty(); todo.pop())
            for (int step : from[todo.front()])
                if (room[step] && level[to[step]] < 0) {
                    level[to[step]] = level[todo.front()] + 1;
                    todo.push(to[step]);
                }
        return level[t] >= 0;
    }

    bool send(int v, int t) {
        if (v == t) return true;
        for (; next[v] < from[v].size(); next[v]++) {
            int step = from[v][next[v]];
            if (room[step] && level[to[step]] == level[v] + 1 && send(to[step], t)) {
                room[step]--;
                room[step ^ 1]++;
                return true;
            }
        }
        return false;
    }

    int flow(int s, int t, int stop = 1 << 30) {
        room = whole;
        for (size_t step = 0; step < room.size(); step++)
            if (off[step / 2]) room[step] = 0;
        int sent = 0;
        while (sent < stop && search(s, t))
            for (next.assign(from.size(), 0); sent < stop && send(s, t);) sent++;
        return sent;
    }
};

// New lines from a new node, as few as may be at each node in turn, so that at least k lines enter each set of other nodes,
// of which it lacks one; or likewise lines to a new node that leave. How many they are.
int least_star(const Graph& graph, int k, bool entering) {
    int n = graph.nodes(), sum = 0, both = graph.directed ? 0 : 1, spokes = 2 * (int)graph.lines.size();
    Graph wide = graph;
    wide.number.emplace(" ", n);
    Network net(wide);
    for (int v = 0; v < n; v++) entering ? net.add(n, v, k, k * both) : net.add(v, n, k, k * both);
    for (int v = 0; v < n && n > 1; v++) {
        int spoke = spokes + 2 * v, least = k;
        net.whole[spoke] = net.whole[spoke + 1] = 0;
        for (int t = 0; t < n; t++) {
            if (t == v) continue;
            // The new node lies beside t.
            int much = 1 << 20;
            entering ? net.add(t, n, much, much * both) : net.add(n, t, much, much * both);
            least = min(least, entering ? net.flow(t, v, k) : net.flow(v, t, k));
            net.drop_last();
        }
        net.whole[spoke] = k - least;
        net.whole[spoke + 1] = (k - least) * both;
        sum += k - least;
    }
    return sum;
}

// The fewest new edges (Frank): half of a least star, rounded up; for k = 1 one less than the components.
int augment(const Graph& graph, int k) {
    if (k > 1) return (least_star(graph, k, true) + 1) / 2;
    Network net(graph);
    int apart = 0;
    for (int v = 1; v < graph.nodes(); v++) {
        bool joined = false;
        for (int u = 0; u < v && !joined; u++) joined = net.flow(u, v, 1) > 0;
        apart += !joined;
    }
    return apart;
}

int augment_arcs(const Graph& graph, int k) {
    return max(least_star(graph, k, true), least_star(graph, k, false));
}

// Whether there is a k-arc-connected orientation (Nash-Williams): each cut has 2k edges.
bool orient(const Graph& graph, int k) {
    Network net(graph);
    for (int v = 1; v < graph.nodes(); v++)
        if (net.flow(0, v, 2 * k) < 2 * k) return false;
    return true;
}

// Gusfield's cut tree; after a flow from s the levels tell the side of s.
int cut_tree(const Graph& graph) {
    Network net(graph);
    vector<int> parent(graph.nodes(), 0);
    int sum = 0;
    for (int s = 1; s < graph.nodes(); s++) {
        sum += net.flow(s, parent[s]);
        for (int v = s + 1; v < graph.nodes(); v++)
            if (parent[v] == parent[s] && net.level[v] >= 0) parent[v] = s;
    }
    return sum;
}

// Edmonds' packing as Lovász proved it: an arc joins the tree where the rest keeps as many arcs into each set.
int arborescences(const Graph& graph, int root) {
    Network net(graph);
    int k = 1 << 30;
    for (int v = 0; v < graph.nodes(); v++)
        if (v != root) k = min(k, net.flow(root, v));
    for (int left = k - 1; left >= 0; left--) {
        vector<char> in(graph.nodes());
        in[root] = true;
        for (int count = 1; count < graph.nodes();)
            for (size_t j = 0; j < graph.lines.size(); j++) {
                int u = graph.lines[j].tail, v = graph.lines[j].head;
                if (net.off[j] || !in[u] || in[v]) continue;
                net.off[j] = true;
                if (net.flow(root, v, left) < left) net.off[j] = false;
                else in[v] = true, count++;
            }
    }
    return k;
}

// Disjoint forests by exchanges along shortest paths (Edmonds; Roskind and Tarjan). What a search reached in vain stays dead.
struct Forests {
    const Graph& graph;
    int k;
    vector<int> owner;
    vector<char> dead;
    // For each forest and node: the node before it, the line to that, and how many lines lead to the root.
    vector<vector<int>> before, via, depth;

    Forests(const Graph& g, int k)
        : graph(g), k(k), owner(g.lines.size(), -1), dead(g.lines.size()), before(k), via(k), depth(k) {
        for (int i = 0; i < k; i++) renew(i);
    }

    void renew(int i) {
        vector<vector<pair<int, int>>> next(graph.nodes());
        for (int j = 0; j < (int)owner.size(); j++)
            if (owner[j] == i) {
                next[graph.lines[j].tail].push_back({graph.lines[j].head, j});
                next[graph.lines[j].head].push_back({graph.lines[j].tail, j});
            }
        before[i].assign(graph.nodes(), -1);
        via[i].assign(graph.nodes(), -1);
        depth[i].assign(graph.nodes(), -1);
        for (int root = 0; root < graph.nodes(); root++) {
            if (depth[i][root] >= 0) continue;
            vector<int> todo = {root};
            depth[i][root] = 0;
            for (size_t at = 0; at < todo.size(); at++)
                for (auto [v, j] : next[todo[at]])
                    if (depth[i][v] < 0) {
                        depth[i][v] = depth[i][todo[at]] + 1;
                        before[i][v] = todo[at];
                        via[i][v] = j;
                        todo.push_back(v);
                    }
        }
    }

    // The lines of forest i between the ends of line e; false where it has no such path.
    bool path(int i, int e, vector<int>& found) const {
        int u = graph.lines[e].tail, v = graph.lines[e].head;
        while (u != v) {
            if (depth[i][u] < depth[i][v]) swap(u, v);
            if (before[i][u] < 0) return false;
            found.push_back(via[i][u]);
            u = before[i][u];
        }
        return true;
    }

    bool add(int root) {
        vector<int> back(owner.size(), -2), todo = {root};
        back[root] = -1;
        for (size_t at = 0; at < todo.size(); at++)
            for (int i = 0; i < k; i++) {
                int e = todo[at];
                vector<int> circuit;
                if (owner[e] == i) continue;
                if (!path(i, e, circuit)) {
                    vector<char> changed(k);
                    changed[i] = true;
                    for (int into = i; e != -1; e = back[e]) {
                        if (owner[e] >= 0) changed[owner[e]] = true;
                        swap(into, owner[e]);
                    }
                    for (int c = 0; c < k; c++)
                        if (changed[c]) renew(c);
                    return true;
                }
                for (int j : circuit)
                    if (back[j] == -2 && !dead[j]) back[j] = e, todo.push_back(j);
            }
        for (int e : todo) dead[e] = true;
        return false;
    }

    int most() {
        int count = 0;
        for (int e = 0; e < (int)owner.size(); e++) count += add(e);
        return count;
    }
};

int trees(const Graph& graph) {
    int k = (int)graph.lines.size() / (graph.nodes() - 1);
    while (Forests(graph, k).most() < k * (graph.nodes() - 1)) k--;
    return k;
}

int forests(const Graph& graph) {
    int k = 0;
    if (!graph.lines.empty()) k = ((int)graph.lines.size() - 1) / (graph.nodes() - 1) + 1;
    while (Forests(graph, k).most() < (int)graph.lines.size()) k++;
    return k;
}

// A least dijoin by shortest paths (Frank; Lucchesi and Younger). A side is closed where no arc leaves it, and tight where
// it is closed and the dijoin enters it once. A path goes along an arc to put it in, back along one to take it out, and from x
// to y where each tight side with y has x. An arc of the dijoin costs nothing until its turn comes: then it stays where no path
// from its tail to its head is cheaper than it, and else such a path with the fewest steps takes its place.
struct Dijoin {
    using Row = bitset<128>;
    const Graph& graph;
    int n;
    vector<char> taken, paid;
    vector<Row> kernel; // what all tight sides with a node have in common
    vector<int> potential, before, via, done;
    vector<pair<int, int>> way; // how far each node is, and by how many steps

    Dijoin(const Graph& g) : graph(g), n(g.nodes()), taken(g.lines.size()), paid(g.lines.size()), potential(n) {}

    // What is reached along arcs, and back along those of the dijoin but one.
    vector<Row> reach(int but) const {
        vector<Row> rows(n);
        for (int v = 0; v < n; v++) rows[v][v] = true;
        for (int j = 0; j < (int)graph.lines.size(); j++) {
            rows[graph.lines[j].tail][graph.lines[j].head] = true;
            if (taken[j] && j != but) rows[graph.lines[j].head][graph.lines[j].tail] = true;
        }
        for (int v = 0; v < n; v++)
            for (int u = 0; u < n; u++)
                if (rows[u][v]) rows[u] |= rows[v];
        return rows;
    }

    // Any dijoin, of arcs that are cheap where they come in; false where fixed arcs alone enter a closed side.
    bool start() {
        for (int v = 0; v < n; v++) {
            Row missed;
            while ((int)(missed = reach(-1)[v]).count() < n) {
                int least = -1;
                for (int j = 0; j < (int)graph.lines.size(); j++) {
                    const Line& line = graph.lines[j];
                    if (line.fixed || missed[line.tail] || !missed[line.head]) continue;
                    if (least < 0 || line.cost < graph.lines[least].cost) least = j;
                }
                if (least < 0) return false;
                taken[least] = true;
            }
        }
        return true;
    }

    void renew() {
        kernel.assign(n, Row().set());
        for (int j = 0; j < (int)taken.size(); j++) {
            if (!taken[j]) continue;
            vector<Row> rows = reach(j);
            for (int v = 0; v < n; v++) kernel[v] &= rows[v];
        }
    }

    void step(int u, int v, int length, int line) {
        pair<int, int> there{way[u].first + length + potential[u] - potential[v], way[u].second + 1};
        if (there < way[v]) way[v] = there, before[v] = u, via[v] = line;
    }

    // Shortest paths from the tail of the arc, which isn't taken out, with the fewest steps (Dijkstra).
    void search(int arc) {
        way.assign(n, {1 << 28, 0}), before.assign(n, -1), via.assign(n, -1), done.assign(n, 0);
        way[graph.lines[arc].tail] = {0, 0};
        for (int count = 0; count < n; count++) {
            int u = -1;
            for (int v = 0; v < n; v++)
                if (!done[v] && (u < 0 || way[v] < way[u])) u = v;
            if (way[u].first == 1 << 28) return;
            done[u] = true;
            for (int j = 0; j < (int)taken.size(); j++) {
                const Line& line = graph.lines[j];
                if (j == arc) continue;
                if (!taken[j] && !line.fixed && line.tail == u) step(u, line.head, line.cost, j);
                if (taken[j] && line.head == u) step(u, line.tail, paid[j] ? -line.cost : 0, j);
            }
            for (int v = 0; v < n; v++)
                if (kernel[v][u]) step(u, v, 0, -1);
        }
    }

    // The turn of an arc of the dijoin.
    void pay(int arc) {
        auto [tail, head, cost, fixed] = graph.lines[arc];
        search(arc);
        paid[arc] = true;
        int more = max(0, cost - (potential[head] - potential[tail])), far = way[head].first;
        for (int v = 0; v < n; v++) potential[v] += min({way[v].first, more, far});
        if (far >= more) return;
        taken[arc] = false;
        for (int v = head; v != tail; v = before[v])
            if (via[v] >= 0) taken[via[v]] ^= true, paid[via[v]] = true;
        renew();
    }

    int least() {
        int sum = 0;
        if (!start()) return 0;
        renew();
        for (bool again = true; again;) {
            again = false;
            for (int j = 0; j < (int)taken.size(); j++)
                if (taken[j] && !paid[j]) pay(j), again = true;
        }
        for (int j = 0; j < (int)taken.size(); j++) sum += taken[j] ? graph.lines[j].cost : 0;
        return sum;
    }
};

int main(int count, char** words) {
    string command = count > 1 ? words[1] : "";
    Graph graph = read_graph();
    int value = command == "flow" ? Network(graph).flow(graph.number[words[2]], graph.number[words[3]])
        : command == "cuttree" ? cut_tree(graph)
        : command == "arborescences" ? arborescences(graph, graph.number[words[2]])
        : command == "trees" ? trees(graph)
        : command == "forests" ? forests(graph)
        : command == "augment" ? augment(graph, stoi(words[2]))
        : command == "augment-arcs" ? augment_arcs(graph, stoi(words[2]))
        : command == "orient" ? orient(graph, stoi(words[2]))
        : Dijoin(graph).least();
    printf("%d\n", value);
}
