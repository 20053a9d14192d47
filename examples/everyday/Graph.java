import java.util.*;

/** Breadth first and depth first search, shortest ways, topological order. */
public class Graph {
    static class Edge {
        final int to, weight;

        Edge(int to, int weight) {
            this.to = to;
            this.weight = weight;
        }
    }

    static class Stop implements Comparable<Stop> {
        final int node, way;

        Stop(int node, int way) {
            this.node = node;
            this.way = way;
        }

        public int compareTo(Stop other) {
            return way != other.way ? Integer.compare(way, other.way) : Integer.compare(node, other.node);
        }
    }

    private final List<List<Edge>> edges = new ArrayList<>();

    Graph(int n) {
        for (int i = 0; i < n; i++) edges.add(new ArrayList<>());
    }

    void connect(int a, int b, int weight) {
        edges.get(a).add(new Edge(b, weight));
    }

    int[] ways(int from) {
        int[] way = new int[edges.size()];
        Arrays.fill(way, Integer.MAX_VALUE);
        way[from] = 0;
        PriorityQueue<Stop> open = new PriorityQueue<>();
        open.add(new Stop(from, 0));
        while (!open.isEmpty()) {
            Stop stop = open.poll();
            if (stop.way > way[stop.node]) continue;
            for (Edge e : edges.get(stop.node)) {
                int through = stop.way + e.weight;
                if (through < way[e.to]) {
                    way[e.to] = through;
                    open.add(new Stop(e.to, through));
                }
            }
        }
        return way;
    }

    List<Integer> breadthFirst(int from) {
        List<Integer> order = new ArrayList<>();
        boolean[] seen = new boolean[edges.size()];
        Queue<Integer> queue = new LinkedList<>();
        queue.add(from);
        seen[from] = true;
        while (!queue.isEmpty()) {
            int node = queue.remove();
            order.add(node);
            for (Edge e : edges.get(node)) {
                if (!seen[e.to]) {
                    seen[e.to] = true;
                    queue.add(e.to);
                }
            }
        }
        return order;
    }

    private void visit(int node, Set<Integer> seen, Deque<Integer> order) {
        if (!seen.add(node)) return;
        for (Edge e : edges.get(node)) visit(e.to, seen, order);
        order.push(node);
    }

    Deque<Integer> topological() {
        Deque<Integer> order = new ArrayDeque<>();
        Set<Integer> seen = new HashSet<>();
        for (int i = 0; i < edges.size(); i++) visit(i, seen, order);
        return order;
    }

    public static void main(String[] args) {
        Graph g = new Graph(7);
        int[][] all = {{0, 1, 7}, {0, 2, 3}, {2, 1, 2}, {1, 3, 1}, {2, 3, 8}, {3, 4, 2}, {5, 4, 1}};
        for (int[] one : all) g.connect(one[0], one[1], one[2]);
        System.out.println(g.breadthFirst(0));
        int[] way = g.ways(0);
        for (int i = 0; i < way.length; i++) {
            System.out.println("0 to " + i + ": " + (way[i] == Integer.MAX_VALUE ? "no way" : "" + way[i]));
        }
        System.out.println(g.topological());
        StringBuilder line = new StringBuilder();
        for (int node : g.topological()) line.append(node).append(node == 0 ? "!" : " ");
        System.out.println(line);
    }
}
