import java.util.*;

public class Dijkstra {
    static class Edge {
        final String target;
        final int weight;

        Edge(String target, int weight) {
            this.target = target;
            this.weight = weight;
        }
    }

    static class Node implements Comparable<Node> {
        final String name;
        final int distance;

        Node(String name, int distance) {
            this.name = name;
            this.distance = distance;
        }

        @Override
        public int compareTo(Node other) {
            return Integer.compare(distance, other.distance);
        }
    }

    static class Graph {
        private final Map<String, List<Edge>> edges = new TreeMap<>();

        void connect(String from, String to, int weight) {
            edges.computeIfAbsent(from, k -> new ArrayList<>()).add(new Edge(to, weight));
            edges.computeIfAbsent(to, k -> new ArrayList<>()).add(new Edge(from, weight));
        }

        Map<String, Integer> distances(String start, Map<String, String> previous) {
            Map<String, Integer> dist = new HashMap<>();
            for (String name : edges.keySet()) {
                dist.put(name, Integer.MAX_VALUE);
            }
            dist.put(start, 0);
            PriorityQueue<Node> queue = new PriorityQueue<>();
            queue.add(new Node(start, 0));
            while (!queue.isEmpty()) {
                Node node = queue.poll();
                if (node.distance > dist.get(node.name)) {
                    continue;
                }
                for (Edge edge : edges.getOrDefault(node.name, Collections.emptyList())) {
                    int candidate = node.distance + edge.weight;
                    if (candidate < dist.get(edge.target)) {
                        dist.put(edge.target, candidate);
                        previous.put(edge.target, node.name);
                        queue.add(new Node(edge.target, candidate));
                    }
                }
            }
            return dist;
        }

        List<String> path(Map<String, String> previous, String target) {
            LinkedList<String> path = new LinkedList<>();
            for (String at = target; at != null; at = previous.get(at)) {
                path.addFirst(at);
            }
            return path;
        }
    }

    public static void main(String[] args) {
        Graph graph = new Graph();
        graph.connect("A", "B", 7);
        graph.connect("A", "C", 9);
        graph.connect("A", "F", 14);
        graph.connect("B", "C", 10);
        graph.connect("B", "D", 15);
        graph.connect("C", "D", 11);
        graph.connect("C", "F", 2);
        graph.connect("D", "E", 6);
        graph.connect("E", "F", 9);
        Map<String, String> previous = new HashMap<>();
        Map<String, Integer> dist = graph.distances("A", previous);
        for (Map.Entry<String, Integer> entry : dist.entrySet()) {
            System.out.printf("%s: %3d via %s%n", entry.getKey(), entry.getValue(), String.join(" -> ", graph.path(previous, entry.getKey())));
        }
    }
}
